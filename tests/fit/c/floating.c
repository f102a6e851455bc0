/* accepted */
#include "plug.h"
int main(void) {
    double m = 0;
    for (int i = 1; i < 10000; i++) {
        int c = get();
        if (c < 0) break;
        m += (c - m) / i;
    }
    int v = m;
    put('0' + v / 100 % 10);
    put('0' + v / 10 % 10);
    put('0' + v % 10);
    put(10);
    return 0;
}
