/* ChaCha20 and Poly1305 (libsodium). */
#include "unit.h"
#include "crypto_stream/chacha20/ref/chacha20_ref.c"
#undef ROTL32
#include "crypto_onetimeauth/poly1305/donna/poly1305_donna.c"
void sodium_memzero(void *const p, const size_t n) { memset(p, 0, n); }
int crypto_verify_16(const unsigned char *x, const unsigned char *y) { return memcmp(x, y, 16) ? -1 : 0; }
static unsigned char c[IN_MAX];
int main(void) {
    int n = read_input();
    unsigned char k[32] = "0123456789abcdef0123456789abcde", nonce[8] = "nonce12", t[16];
    stream_ref_xor_ic(c, in, n, nonce, 0, k);
    crypto_onetimeauth_poly1305_donna(t, c, n, k);
    put_bytes(c, n);
    put_hex(t, 16);
    return 0;
}
