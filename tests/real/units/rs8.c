/* Reed and Solomon's code of 255 bytes (libfec). */
#include "unit.h"
#include "ccsds_tab.h"
int main(void) {
    int n = read_input();
    for (int i = 0; i + 255 <= n; i += 255) {
        int bad[32];
        unsigned char *b = in + i;
        unsigned char p[32];
        encode_rs_8(b, p, 0);
        memcpy(b + 223, p, 32);
        for (int k = 0; k < (b[0] & 15); k++) b[b[k + 1] % 255] ^= 0x5a;
        int r = decode_rs_8(b, bad, 0, 0);
        put_word(r);
        put_bytes(b, 255);
    }
    return 0;
}
