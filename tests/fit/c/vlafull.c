/* stopped: stack */
#include "plug.h"

/* An array of variable size for which the stack has no room, or whose size is below 0. */
__attribute__((noinline)) static int last(int n) {
    char room[n * n];
    for (int i = 0; i < n * n; i++) room[i] = i;
    return room[n * n - 1];
}

int main(void) {
    int n = get();
    for (int c; (c = get()) >= 0;) put(last(n - c % 3));
    return 0;
}
