/* accepted */
#include "plug.h"
/* Functions with loops that aren't inlined: one meter goes through all of them. */
#define N __attribute__((noinline)) static
static char b[4000];
static int n;
N int len(const char *s) {
    int k = 0;
    while (s[k]) k++;
    return k;
}
N void rev(char *s) {
    int k = len(s);
    for (int i = 0, j = k - 1; i < j; i++, j--) {
        char t = s[i];
        s[i] = s[j];
        s[j] = t;
    }
}
N unsigned crc(const char *s, unsigned c) {
    int local[8] = {1, 2, 3, 4, 5, 6, 7, 8};
    for (int i = 0; i < len(s); i++) {
        c = (c >> 1) ^ (c & 1 ? 0xedb88320u : 0) ^ s[i];
        local[i & 7] ^= c;
    }
    return c ^ local[c & 7];
}
N unsigned long long mulmod(unsigned long long a, unsigned long long b, unsigned long long m) {
    unsigned long long r = 0;
    while (b) {
        if (b & 1) r = (r + a) % m;
        a = a * 2 % m;
        b >>= 1;
    }
    return r;
}
N void hex(unsigned v) {
    for (int s = 28; s >= 0; s -= 4) put("0123456789abcdef"[v >> s & 15]);
    put('\n');
}
N int line(void) {
    int c;
    n = 0;
    while ((c = get()) >= 0 && c != '\n' && n < 3999) b[n++] = c;
    b[n] = 0;
    return c >= 0 || n > 0;
}
int main(void) {
    unsigned t = 7;
    while (line()) {
        t = crc(b, t);
        rev(b);
        for (int i = 0; b[i]; i++) put(b[i]);
        put(' ');
        hex(t);
        hex(len(b));
        hex((unsigned)mulmod(t, t + 5, 1000000007ULL));
    }
    return 0;
}
