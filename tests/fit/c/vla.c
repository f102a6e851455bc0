/* accepted */
#include "plug.h"
int main(void) {
    int n = get();
    if (n < 1) return 1;
    int a[n];
    int k = 0;
    for (; k < n; k++) {
        int c = get();
        if (c < 0) break;
        a[k] = c;
    }
    while (k > 0) put(a[--k]);
    put(10);
    return 0;
}
