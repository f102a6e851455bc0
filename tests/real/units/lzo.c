/* Bytes packed and unpacked by LZO1X-1 (minilzo). */
#include "unit.h"
#include "minilzo.c"
static unsigned char to[IN_MAX + IN_MAX / 16 + 67], back[IN_MAX];
static lzo_align_t room[(LZO1X_1_MEM_COMPRESS + sizeof(lzo_align_t) - 1) / sizeof(lzo_align_t)];
int main(void) {
    lzo_uint n = read_input(), m = sizeof to, k = sizeof back;
    if (lzo_init() != LZO_E_OK) return 2;
    if (lzo1x_1_compress(in, n, to, &m, room) != LZO_E_OK) return 3;
    put_word(m);
    put_bytes(to, m);
    if (lzo1x_decompress_safe(to, m, back, &k, NULL) != LZO_E_OK || k != n || memcmp(in, back, n)) return 4;
    k = sizeof back;
    put_word(lzo1x_decompress_safe(in, n, back, &k, NULL));
    put_bytes(back, k);
    put_word(lzo_adler32(1, in, n));
    return 0;
}
