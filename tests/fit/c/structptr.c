/* accepted, big-endian */
#include "plug.h"
/* Structs of each size by value through pointers, beside functions that read no argument or one in memory. */
#define N __attribute__((noinline)) static
N void hex(unsigned v) {
    for (int s = 28; s >= 0; s -= 4) put("0123456789abcdef"[v >> s & 15]);
    put(' ');
}
struct c1 {
    char a;
};
struct c3 {
    char a[3];
};
struct c8 {
    int a, b;
};
struct c20 {
    int a[5];
};
struct c70 {
    short a[35];
};
N struct c1 g1(int n) {
    struct c1 r = {n};
    return r;
}
N struct c3 g3(struct c1 a, int n) {
    struct c3 r = {{a.a, n, n >> 8}};
    return r;
}
N struct c8 g8(struct c3 a, struct c8 b) {
    struct c8 r = {a.a[1] + b.b, b.a - a.a[2]};
    return r;
}
N struct c20 g20(struct c8 a, int n, long long m) {
    struct c20 r = {{a.a, a.b, n, (int)m, (int)(m >> 32)}};
    return r;
}
N struct c70 g70(struct c20 a, int b, int c, int d, int e, int f, int g, struct c1 h) {
    struct c70 r = {{0}};
    for (int i = 0; i < 35; i++) r.a[i] = a.a[i % 5] + b * c - d + e * f * i + g * h.a;
    return r;
}
N int none(void) { return 5; }
N int mem7(int a, int b, int c, int d, int e, int f, int g) { return g; }
struct ops {
    struct c1 (*a)(int);
    struct c3 (*b)(struct c1, int);
    struct c8 (*c)(struct c3, struct c8);
    struct c20 (*d)(struct c8, int, long long);
    struct c70 (*e)(struct c20, int, int, int, int, int, int, struct c1);
    int (*f)(void);
    int (*g)(int, int, int, int, int, int, int);
};
static struct ops all[3];
N void set(struct ops *o) {
    o->a = g1;
    o->b = g3;
    o->c = g8;
    o->d = g20;
    o->e = g70;
    o->f = none;
    o->g = mem7;
}
int main(void) {
    for (int i = 0; i < 3; i++) set(&all[i]);
    for (int c; (c = get()) >= 0;) {
        struct ops *o = &all[c % 3];
        struct c1 a = o->a(c);
        struct c3 b = o->b(a, c * 7);
        struct c8 k = {c, ~c};
        k = o->c(b, k);
        struct c20 d = o->d(k, c, c * 0x123456789LL);
        struct c70 e = o->e(d, c, 2, 3, c, 5, 6, a);
        hex(a.a);
        hex(b.a[2]);
        hex(k.a);
        hex(d.a[3]);
        hex(d.a[4]);
        hex(e.a[34]);
        hex(e.a[c % 35]);
        hex(o->f() + o->g(1, 2, 3, 4, 5, 6, c));
        put('\n');
    }
    return 0;
}
