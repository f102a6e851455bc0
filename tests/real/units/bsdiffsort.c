/* Suffixes in order, as bsdiff sorts them. */
#define IN_MAX 6000
#include "unit.h"
#include <fcntl.h>
#include <unistd.h>
#define main static bsdiff_main
#include "bsdiff.c"
#undef main
static off_t I[IN_MAX + 1], V[IN_MAX + 1];
int main(void) {
    int n = read_input();
    qsufsort(I, V, in, n);
    for (int i = 0; i <= n; i++) {
        put(I[i] >> 8);
        put(I[i]);
    }
    return 0;
}
