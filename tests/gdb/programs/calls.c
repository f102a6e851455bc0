/* Adds up products of what is read: a function that lies in several pieces in the image is called from many places. */
#include "plug.h"

static unsigned sums[16];

/* Both have a loop without a bound, so that ./fit makes them parts of main. */
__attribute__((noinline)) static unsigned product(unsigned a, unsigned b)
{
    unsigned made = 0;
    for (; b; b >>= 1, a <<= 1) made += b & 1 ? a : 0;
    return made;
}

__attribute__((noinline)) static unsigned power(unsigned base, unsigned n)
{
    unsigned made = 1;
    for (; n; n >>= 1) {
        if (n & 1) made = product(made, base);
        base = product(base, base);
        if (base > 1000) base = product(base & 15, made & 15);
        if (made > 1000) made = product(made & 15, base & 15);
    }
    sums[made & 15] += product(base, made);
    return made;
}

#define ONE(at) sum += power(sum & 7, word[(sum + at) & 15]);
#define FIVE(at) ONE(at) ONE(at + 1) ONE(at + 2) ONE(at + 3) ONE(at + 4)
#define MANY(at) FIVE(at) FIVE(at + 5) FIVE(at + 10) FIVE(at + 15) FIVE(at + 20) FIVE(at + 25)

int main(void)
{
    unsigned char word[16];
    unsigned sum = 0;
    for (int i = 0; i < 16; i++) word[i] = get();
    MANY(0) MANY(30) MANY(60) MANY(90)
    put('a' + sum % 26);
    return 0;
}
