/* stopped: call */
#include "plug.h"
/* A pointer that is no function's. */
static int f(int x) { return x + 1; }
static int g(int x) { return x * 2; }
static int (*volatile p)(int) = f;
int main(void) {
    int c;
    while ((c = get()) >= 0) {
        if (c & 1) p = g;
        if (c == 200) p = (int (*)(int))5;
        put(p(c));
    }
    return 0;
}
