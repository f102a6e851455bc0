/* accepted */
#include "plug.h"

static char text[5000];

__attribute__((noinline)) static int sum(const char *s) {
    int total = 0;
    for (; *s; s++) total += *s;
    return total;
}

int main(void) {
    int n = 0;
    for (int c; (c = get()) >= 0;)
        for (unsigned bits = c | 0x8000; bits && n < 4999; bits >>= 1) text[n++] = 'a' + (bits & 7);
    put('0' + (sum(text) & 7));
    return 0;
}
