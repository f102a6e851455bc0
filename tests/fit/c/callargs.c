/* accepted */
#include "plug.h"
/* Functions that call themselves with structs by value, more than six arguments, and any number of arguments.
 */
#include <stdarg.h>
struct big {
    int a, b, c;
    char d[8];
};
static struct big __attribute__((noinline)) make(int n, struct big in) {
    struct big r = in;
    r.a += n;
    if (n > 0) {
        struct big k = make(n - 1, r);
        r.b += k.a;
        r.c ^= k.b;
        r.d[n & 7] = k.d[(n + 1) & 7] + 1;
    }
    return r;
}
static int __attribute__((noinline))
many(int a, int b, int c, int d, int e, int f, int g, int h, long long i) {
    if (a <= 0) return b + c * 2 + d * 3 + e * 5 + f * 7 + g * 11 + h * 13 + (int)(i >> 3);
    return many(a - 1, c, b, e, d, g, f, h + a, i * 3 + a) + many(a - 2, b, c, d, e, f, g, h, i - 1);
}
static int __attribute__((noinline)) sum(int n, ...) {
    va_list l;
    va_start(l, n);
    int t = 0;
    for (int i = 0; i < n; i++) t = t * 3 + va_arg(l, int);
    va_end(l);
    if (n > 3) t += sum(n - 1, t, n, 3, 4, 5, 6, 7, 8);
    return t;
}
static void __attribute__((noinline)) hex(unsigned n) {
    for (int s = 28; s >= 0; s -= 4) put("0123456789abcdef"[n >> s & 15]);
    put('\n');
}
int main(void) {
    int c, n = 0;
    while ((c = get()) >= 0 && n++ < 20) {
        struct big b = {c, 2, 3, "abcdefg"};
        b = make(c & 15, b);
        hex(b.a);
        hex(b.b);
        hex(b.c);
        for (int i = 0; i < 8; i++) hex(b.d[i]);
        hex(many(c & 7, 1, 2, 3, 4, 5, 6, 7, 0x123456789abcdefLL + c));
        hex(sum(8, c, 2, 3, 4, 5, 6, 7, 8));
        hex(sum(3, c, c, c));
    }
    return 0;
}
