/* accepted */
#include "plug.h"
static void keep(int *a, int n) {
    for (int k = 0; k < n; k++) put(a[k]);
}
int main(void) {
    int n = get();
    if (n < 1) return 1;
    int *a = __builtin_alloca(n * sizeof *a);
    for (int k = 0; k < n; k++) a[k] = get();
    keep(a, n);
    return 0;
}
