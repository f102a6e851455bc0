/* accepted */
/* A division whose codes are asked for, of a divisor that is tested. */
#include "plug.h"

static unsigned word(void) {
    unsigned w = 0;
    for (int i = 0; i < 4; i++) w = w << 8 | (get() & 255);
    return w;
}

int main(void) {
    int sum = 0;
    for (int i = 0; i < 3; i++) {
        int a = word(), b = word();
        int q = b ? a / b : 7;
        put(q != 0 ? 'n' : 'z');
        put(q);
        sum += q;
    }
    put(sum);
    return 0;
}
