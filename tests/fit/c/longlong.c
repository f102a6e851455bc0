/* accepted */
#include "plug.h"
static void digits(unsigned long long n) {
    for (int k = 60; k >= 0; k -= 4) put("0123456789abcdef"[n >> k & 15]);
    put('\n');
}
int main(void) {
    unsigned long long sum = 1, mixed = 0;
    long long low = 0;
    for (int c; (c = get()) >= 0;) {
        sum = sum * 6364136223846793005ULL + (unsigned)c;
        mixed ^= sum << (c & 63) | sum >> (63 - (c & 63));
        low = (low >> (c & 7)) - ((long long)c << 40);
        if (low < -(1LL << 60)) low = c;
    }
    digits(sum);
    digits(mixed);
    digits((unsigned long long)low);
    return 0;
}
