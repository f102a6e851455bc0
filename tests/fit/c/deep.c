/* stopped: stack */
#include "plug.h"
static int down(int n) {
    volatile int pad[20];
    pad[n % 20] = n;
    if (n == 0) return 1;
    int r = down(n - 1);
    return r + pad[n % 20];
}
int main(void) {
    int c = get();
    if (c < 0) return 0;
    int r = down(c);
    for (int s = 28; s >= 0; s -= 4) put("0123456789abcdef"[r >> s & 15]);
    put('\n');
    return 0;
}
