/* accepted */
#include "plug.h"
#include <setjmp.h>

/* What setjmp's function had before is there behind longjmp: variables that nobody changed, those that are
   volatile, the arrays of variable size of it and of its callers; and a stack of handlers. */
struct handler {
    struct handler *outer;
    jmp_buf place;
};
static struct handler *top;

static void raise_it(int n) {
    struct handler *it = top;
    if (!it) quit(7);
    top = it->outer;
    longjmp(it->place, n);
}

static void number(unsigned n) {
    if (n > 9) number(n / 10);
    put('0' + n % 10);
}

__attribute__((noinline)) static int work(int n, int depth) {
    char room[n + 1];
    for (int i = 0; i <= n; i++) room[i] = n + i;
    if (depth > 3) raise_it(n + 1);
    int below = work(n + 1, depth + 1);
    return below + room[n];
}

__attribute__((noinline)) static int guarded(int a, int b, int depth) {
    struct handler mine = {top, {0}};
    int sum = a + b, product = a * b, rest = a % (b + 1);
    char room[a % 5 + 2];
    room[0] = a, room[1] = b;
    volatile int stage = 0;
    top = &mine;
    int came = setjmp(mine.place);
    if (came == 0) {
        stage = 1;
        if (depth > 0) stage = 2 + guarded(b, a, depth - 1) % 7;
        int other = a * 3 + b, third = other * 5 - a;
        work(a % 10 + other % 3, third & 1);
        stage = 100;
    }
    return came * 1000 + sum + product * 2 + rest * 3 + stage * 5 + room[0] + room[1];
}

int main(void) {
    for (int c; (c = get()) >= 0;) {
        number(guarded(c & 63, c >> 6, c % 3));
        put(' ');
    }
    raise_it(1);
    return 0;
}
