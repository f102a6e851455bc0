/* A point of Ed25519 from a secret (libsodium). */
#define IN_MAX 1024
#include "unit.h"
#include "crypto_core/ed25519/ref10/ed25519_ref10.c"
#include "crypto_verify/sodium/verify.c"
void sodium_memzero(void *const p, const size_t n) { memset(p, 0, n); }
int sodium_is_zero(const unsigned char *n, const size_t m) {
    unsigned char d = 0;
    for (size_t i = 0; i < m; i++) d |= n[i];
    return 1 & ((d - 1) >> 8);
}
int main(void) {
    int n = read_input();
    (void)n;
    unsigned char s[32];
    ge25519_p3 p;
    memcpy(s, in, 32);
    s[0] &= 248;
    s[31] &= 127;
    s[31] |= 64;
    ge25519_scalarmult_base(&p, s);
    ge25519_p3_tobytes(s, &p);
    put_hex(s, 32);
    return 0;
}
