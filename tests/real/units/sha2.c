/* SHA-256 and SHA-512 (libmd). */
#include "unit.h"
#include "src/sha2.c"
int main(void) {
    int n = read_input();
    SHA2_CTX c;
    unsigned char d[64];
    SHA256Init(&c);
    SHA256Update(&c, in, n);
    SHA256Final(d, &c);
    put_hex(d, 32);
    SHA512Init(&c);
    SHA512Update(&c, in, n);
    SHA512Final(d, &c);
    put_hex(d, 64);
    return 0;
}
