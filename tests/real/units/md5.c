/* MD5 (libmd). */
#include "unit.h"
#include "src/md5.c"
int main(void) {
    int n = read_input();
    MD5_CTX c;
    unsigned char d[16];
    MD5Init(&c);
    MD5Update(&c, in, n);
    MD5Final(d, &c);
    put_hex(d, 16);
    return 0;
}
