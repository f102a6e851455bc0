/* accepted */
#include "plug.h"
#include <setjmp.h>

/* A parser of sums whose errors leave all of its functions by longjmp; jumps within jumps; a value of 0. */
static jmp_buf failed;
static int c;

static void next(void) { c = get(); }
static int sum(void);

static int factor(void) {
    if (c == '(') {
        next();
        int value = sum();
        if (c != ')') longjmp(failed, 2);
        next();
        return value;
    }
    if (c < '0' || c > '9') longjmp(failed, 1);
    int value = 0;
    for (; c >= '0' && c <= '9'; next()) value = value * 10 + c - '0';
    return value;
}

static int sum(void) {
    int value = factor();
    while (c == '+' || c == '-') {
        int sign = c == '+' ? 1 : -1;
        next();
        value += sign * factor();
    }
    return value;
}

static void number(unsigned n) { if (n > 9) number(n / 10); put('0' + n % 10); }

static int count(int n, jmp_buf out, int *seen) {
    ++*seen;
    if (n == 0) longjmp(out, 0);
    return count(n - 1, out, seen) + 1;
}

static int nested(int n) {
    jmp_buf here;
    volatile int tries = 0;
    static int seen;
    int came = setjmp(here);
    tries = tries + 1;
    if (tries < 4) count(n + tries, here, &seen);
    return tries * 100 + came * 10 + (seen > n);
}

int main(void) {
    next();
    while (c >= 0) {
        int why = setjmp(failed);
        if (why == 0) {
            number(sum());
        } else {
            put('!');
            number(why);
            while (c >= 0 && c != '\n') next();
        }
        put('\n');
        if (c >= 0) next();
    }
    number(nested(5));
    put('\n');
    return 0;
}
