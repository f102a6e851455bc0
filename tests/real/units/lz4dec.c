/* A block of LZ4 unpacked (lz4). */
#include "unit.h"
#include "lz4.c"
static char to[65536];
int main(void) {
    int n = read_input(), m = LZ4_decompress_safe((char *)in, to, n, sizeof to);
    if (m < 0) return 1;
    put_bytes(to, m);
    return 0;
}
