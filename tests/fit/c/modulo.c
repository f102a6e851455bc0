/* accepted */
#include "plug.h"
static unsigned gcd(unsigned a, unsigned b) {
    while (b) {
        unsigned t = a % b;
        a = b;
        b = t;
    }
    return a;
}
int main(void) {
    for (int i = 0; i < 1000; i++) {
        int a = get(), b = get();
        if (b < 0) break;
        put('a' + gcd(a * 12 + 5, b * 9 + 7) % 26);
    }
    put(10);
    return 0;
}
