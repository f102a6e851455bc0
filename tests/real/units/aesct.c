/* AES in constant time, CBC (bearssl). */
#include "unit.h"
#include "inner.h"
#include "src/symcipher/aes_ct.c"
#include "src/symcipher/aes_ct_enc.c"
#include "src/symcipher/aes_ct_cbcenc.c"
#include "src/codec/dec32le.c"
#include "src/codec/enc32le.c"
int main(void) {
    int n = read_input() & ~15;
    br_aes_ct_cbcenc_keys k;
    unsigned char iv[16] = {1};
    br_aes_ct_cbcenc_init(&k, "0123456789abcdef", 16);
    br_aes_ct_cbcenc_run(&k, iv, in, n);
    put_bytes(in, n);
    return 0;
}
