/* A block of LZ4 packed (lz4). */
#include "unit.h"
#include "lz4.c"
static char to[LZ4_COMPRESSBOUND(IN_MAX)];
int main(void) {
    int n = read_input(), m = LZ4_compress_default((char *)in, to, n, sizeof to);
    put_bytes(to, m);
    return m <= 0;
}
