#include "plug.h"
/* Run lengths: a count and a byte for each run, or a count with its top bit set and so many bytes that don't repeat. */
#define MOST 127
static unsigned char literal[MOST];
static int held;
static void flush(void) {
    if (held == 0) return;
    put(128 | held);
    for (int i = 0; i < held; i++) put(literal[i]);
    held = 0;
}
static void run(int c, int n) {
    if (n >= 3) {
        flush();
        put(n);
        put(c);
        return;
    }
    for (; n > 0; n--) {
        if (held == MOST) flush();
        literal[held++] = c;
    }
}
int main(void) {
    int last = get(), n = 1;
    if (last < 0) return 0;
    for (;;) {
        int c = get();
        if (c == last && n < MOST) { n++; continue; }
        run(last, n);
        if (c < 0) break;
        last = c;
        n = 1;
    }
    flush();
    return 0;
}
