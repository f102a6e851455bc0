/* accepted */
/* A seventh argument that no function behind the pointer asks for, in a loop with a call of one that takes it. */
#include "plug.h"
__attribute__((noipa)) static int sum(int a, int b, int c, int d, int e, int f, int g) {
    return a + 2 * b + 3 * c + 4 * d + 5 * e + 6 * f + 7 * g;
}
static int first(int a, int b, int c, int d, int e, int f, int g) {
    return sum(f, e, d, c, b, a, a);
}
static int second(int a, int b, int c, int d, int e, int f, int g) {
    return a ^ f;
}
static int (*volatile const table[2])(int, int, int, int, int, int, int) = {first, second};
int main(void) {
    int s = 0;
    for (int i = 0; i < 100; i++) {
        int c = get();
        if (c < 0) break;
        s += table[c & 1](c, i, 1, 2, 3, 4, s);
        s += sum(c, 1, 2, 3, i, 5, s);
    }
    put('a' + (s & 15));
    put(10);
    return 0;
}
