/* zlib streams unpacked (libdeflate). */
#include "unit.h"
#include "lib/utils.c"
#include "lib/deflate_decompress.c"
#include "lib/adler32.c"
#include "lib/zlib_decompress.c"
static unsigned char to[49152];
int main(void) {
    int n = read_input();
    size_t m = 0;
    struct libdeflate_decompressor *d = libdeflate_alloc_decompressor();
    if (!d) return 2;
    if (libdeflate_zlib_decompress(d, in, n, to, sizeof to, &m) != LIBDEFLATE_SUCCESS) return 1;
    put_bytes(to, m);
    return 0;
}
