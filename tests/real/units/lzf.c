/* Bytes packed and unpacked (liblzf). */
#include "unit.h"
#include "lzf_c.c"
#include "lzf_d.c"
static unsigned char to[IN_MAX + 8], back[IN_MAX + 8];
int main(void) {
    unsigned n = read_input(), m = lzf_compress(in, n, to, n), k;
    put_word(m);
    put_bytes(to, m);
    if (!m) return 1;
    k = lzf_decompress(to, m, back, sizeof back);
    if (k != n || memcmp(in, back, n)) return 2;
    /* The input itself as what is unpacked: most of it isn't well formed. */
    k = lzf_decompress(in, n, back, sizeof back);
    put_word(k ? 0 : errno);
    put_bytes(back, k);
    return 0;
}
