/* accepted */
/* The same of 64 bits, which the runtime's functions are given. */
#include "plug.h"

int main(void) {
    unsigned long long last;
    int n = 0;
    for (int c; (c = get()) >= 0; last = c * 0x123456789abull)
        if (n++) {
            put(last >> (c & 31));
            put(last % (c + 1));
            put(last * (unsigned long long)(last + c) >> 40);
        }
    return 0;
}
