/* LZMA unpacked (lzma). */
#include "unit.h"
#include "LzmaDec.c"
static Byte to[65536];
static void *take(void *p, size_t n) { return malloc(n); }
static void give(void *p, void *q) { free(q); }
int main(void) {
    ISzAlloc a = {take, give};
    SizeT m = sizeof to, n = read_input();
    ELzmaStatus how;
    if (n < 13) return 2;
    n -= 13;
    if (LzmaDecode(to, &m, in + 13, &n, in, 5, LZMA_FINISH_ANY, &how, &a) != SZ_OK) return 1;
    put_bytes(to, m);
    return 0;
}
