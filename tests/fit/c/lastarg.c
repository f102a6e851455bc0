/* accepted */
/* What the round before left is given to a function; the first round leaves it undefined, and doesn't ask for it. */
#include "plug.h"

__attribute__((noinline)) static int f(int x) { return x * 3 + 1; }

int main(void) {
    int last, n = 0;
    for (int c; (c = get()) >= 0; last = c)
        if (n++) put(f(last - 1));
    return 0;
}
