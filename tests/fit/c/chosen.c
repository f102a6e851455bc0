/* accepted */
#include "plug.h"
/* A pointer to either of two arrays, with an index that isn't known to lie in them. */
static char a[10], b[10];
static int at;
__attribute__((noipa)) static char *chosen(int c) { return c & 1 ? a : b; }
__attribute__((noipa)) static void set(int c) { at = (unsigned)c % 10; }
int main(void) {
    for (int c; (c = get()) >= 0;) {
        char *p = chosen(c);
        set(c >> 1);
        p[at & 1023] += c;
        put(p[at & 1023]);
    }
    for (int i = 0; i < 10; i++) { put(a[i]); put(b[i]); }
    return 0;
}
