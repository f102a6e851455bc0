/* accepted */
#include "plug.h"
static int at;
static char b[64];
static int expr(void);
static int atom(void) {
    int c = b[at];
    if (c == '(') {
        at++;
        int v = expr();
        if (b[at] == ')') at++;
        return v;
    }
    int v = 0;
    while (b[at] >= '0' && b[at] <= '9') v = v * 10 + b[at++] - '0';
    return v;
}
static int expr(void) {
    int v = atom();
    while (b[at] == '+') {
        at++;
        v += atom();
    }
    return v;
}
int main(void) {
    int n = 0, c;
    while (n < 63 && (c = get()) >= 0) b[n++] = c;
    put('0' + expr() % 10);
    put(10);
    return 0;
}
