/* accepted, big-endian */
#include "plug.h"
/* Variadic functions through pointers, beside others, struct results, arguments in memory. */
#include <stdarg.h>
#define N __attribute__((noinline)) static
N void hex(unsigned v) {
    for (int s = 28; s >= 0; s -= 4) put("0123456789abcdef"[v >> s & 15]);
    put(' ');
}
N int sum(int n, ...) {
    va_list l;
    va_start(l, n);
    int t = 0;
    for (int i = 0; i < n; i++) t = t * 3 + va_arg(l, int);
    va_end(l);
    return t;
}
N int last(int n, ...) {
    va_list l;
    va_start(l, n);
    int t = 0;
    while (n-- > 0) t = va_arg(l, int);
    va_end(l);
    return t;
}
struct pair {
    int a;
    long long b;
};
N struct pair pairs(int n, ...) {
    va_list l;
    va_start(l, n);
    struct pair p = {0, 0};
    for (int i = 0; i < n; i++) {
        struct pair q = va_arg(l, struct pair);
        p.a += q.a;
        p.b ^= q.b * (i + 1);
    }
    va_end(l);
    return p;
}
N long long longs(const char *f, ...) {
    va_list l;
    va_start(l, f);
    long long t = 0;
    for (; *f; f++) t += *f == 'l' ? va_arg(l, long long) : *f == 'i' ? va_arg(l, int) : *va_arg(l, int *);
    va_end(l);
    return t;
}
N int fixed(int n, int a) { return n - a; }
typedef int (*vf)(int, ...);
static vf table[] = {sum, last, sum, last};
static struct pair (*pp[2])(int, ...) = {pairs, pairs};
static long long (*ll[2])(const char *, ...) = {longs, longs};
static int (*ff[2])(int, int) = {fixed, fixed};
int main(void) {
    for (int c; (c = get()) >= 0;) {
        hex(table[c & 3](c & 7, c, c + 1, c + 2, c + 3, c + 4, c + 5, c + 6, c + 7));
        hex(table[(c + 1) & 3](3, c, c + 1, c + 2));
        struct pair p = {c, c * 0x100000001LL}, q = {c + 1, -1}, r = pp[c & 1](c & 3, p, q, p);
        hex(r.a);
        hex(r.b);
        hex(r.b >> 32);
        long long k = ll[c & 1]("ilil.", c, 1LL << (c & 63), c, -1LL, &c);
        hex(k);
        hex(k >> 32);
        hex(ff[c & 1](c, 4));
        put('\n');
    }
    return 0;
}
