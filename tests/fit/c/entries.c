/* accepted */
/* Loops that goto enters in their middle: who comes that way goes through copies of their blocks. */
#include "plug.h"

static unsigned char seen[16];

int main(void) {
    int i = 0, j = 0, sum = 7, c = get();
    if (c == 'a') goto middle;
    if (c == 'b') {
        i = 3;
        goto inner;
    }
    for (i = 0; i < 10; i++) {
        sum += c;
        if (sum & 64) put(sum & 127);
    middle:
        for (j = 0; j < 5; j++) {
            sum = sum * 3 + i;
            if (sum & 8) put('-');
        inner:
            seen[(i + j) & 15] = sum;
            sum += get();
        }
    }
    for (i = 0; i < 16; i++) put(seen[i]);
    return sum & 1;
}
