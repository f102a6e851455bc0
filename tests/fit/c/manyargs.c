/* accepted */
#include "plug.h"
__attribute__((noipa)) static int sum(int a, int b, int c, int d, int e, int f, int g, int h) {
    return a + 2 * b + 3 * c + 4 * d + 5 * e + 6 * f + 7 * g + 8 * h;
}
int main(void) {
    int s = 0;
    for (int i = 0; i < 100; i++) {
        int c = get();
        if (c < 0) break;
        s += sum(c, 1, 2, 3, c, 5, 6, c);
    }
    put('a' + (s & 15));
    put(10);
    return 0;
}
