/* accepted */
#include "plug.h"
static void digits(unsigned long long n) {
    for (int k = 60; k >= 0; k -= 4) put("0123456789abcdef"[n >> k & 15]);
    put('\n');
}
static unsigned long long number(void) {
    unsigned long long n = 0;
    for (int i = 0; i < 8; i++) n = n << 8 | (get() & 255);
    return n;
}
int main(void) {
    for (int i = 0; i < 20; i++) {
        unsigned long long n = number(), by = number();
        if (by == 0) by = 3;
        digits(n / by);
        digits(n % by);
        long long m = (long long)n, d = (long long)by >> 17;
        if (d != 0 && d != -1) {
            digits((unsigned long long)(m / d));
            digits((unsigned long long)(m % d));
        }
    }
    return 0;
}
