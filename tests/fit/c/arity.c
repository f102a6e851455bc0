/* accepted */
#include "plug.h"
/* Functions of different arity in one table, some with params that they don't use, called through casts of
 * their pointers. */
#define N __attribute__((noinline)) static
N void hex(unsigned v) {
    for (int s = 28; s >= 0; s -= 4) put("0123456789abcdef"[v >> s & 15]);
    put(' ');
}
static int seen;
N int f0(void) { return ++seen; }
N int f1(int a) { return a * 3 + seen; }
N int f2(int a, int b) { return a - b * 5; }
N int f2u(int a, int unused) { return a ^ 0x55; }
N int f3(int a, int b, int c) {
    seen += c;
    return a ^ b << (c & 7);
}
N int f3l(int unused, int b, int last) { return b - last; }
N int f6(int a, int b, int c, int d, int e, int f) { return a + b * 2 + c * 3 + d * 5 + e * 7 + f * 11; }
N int f8(int a, int b, int c, int d, int e, int f, int g, int h) { return f6(h, g, f, e, d, c) - a * b; }
N int f9u(int a, int b, int c, int d, int e, int f, int g, int h, int i) { return i + a; }
N long long q1(long long a) { return a * 7 - seen; }
N long long q2(int a, long long b) { return b * a + (b >> 9); }
N long long q3(long long a, int b, long long c, int d, long long e) { return a - b * c + (e << (d & 31)); }
struct s {
    int a;
    char b[6];
    long long c;
};
N struct s s1(int a) {
    struct s r = {a, "hello", a * 5LL};
    return r;
}
N struct s s2(int a, struct s b) {
    b.a -= a;
    b.b[a & 3] = 'x';
    b.c ^= a;
    return b;
}
N void v0(void) { seen *= 3; }
N void v1(struct s *p) { p->a += seen; }
struct entry {
    int arity;
    void *f;
};
static const struct entry table[] = {
    {0, f0},  {1, f1},  {2, f2},  {2, f2u}, {3, f3},  {3, f3l}, {6, f6},  {8, f8},
    {9, f9u}, {11, q1}, {12, q2}, {13, q3}, {21, s1}, {22, s2}, {30, v0}, {31, v1},
};
N void run(const struct entry *e, int x) {
    struct s t = {x, "abcde", x};
    switch (e->arity) {
    case 0:
        hex(((int (*)(void))e->f)());
        break;
    case 1:
        hex(((int (*)(int))e->f)(x));
        break;
    case 2:
        hex(((int (*)(int, int))e->f)(x, x + 1));
        break;
    case 3:
        hex(((int (*)(int, int, int))e->f)(x, x + 1, x ^ 9));
        break;
    case 6:
        hex(((int (*)(int, int, int, int, int, int))e->f)(x, x + 1, x ^ 9, 4, x * 5, 6));
        break;
    case 8:
        hex(((int (*)(int, int, int, int, int, int, int, int))e->f)(x, x + 1, x ^ 9, 4, x * 5, 6, x - 7, 8));
        break;
    case 9:
        hex(((int (*)(int, int, int, int, int, int, int, int, int))e->f)(x, x + 1, x ^ 9, 4, x * 5, 6, x - 7,
                                                                         8, x << 3));
        break;
    case 11: {
        long long r = ((long long (*)(long long))e->f)(x * 0x123456789LL);
        hex(r >> 32);
        hex(r);
        break;
    }
    case 12: {
        long long r = ((long long (*)(int, long long))e->f)(x, x * 0x123456789LL);
        hex(r >> 32);
        hex(r);
        break;
    }
    case 13: {
        long long r =
            ((long long (*)(long long, int, long long, int, long long))e->f)(x, x, x * 0x1234567LL, x, x + 5);
        hex(r >> 32);
        hex(r);
        break;
    }
    case 21:
        t = ((struct s(*)(int))e->f)(x);
        hex(t.a + t.b[x & 3]);
        hex(t.c);
        break;
    case 22:
        t = ((struct s(*)(int, struct s))e->f)(x, t);
        hex(t.a + t.b[x & 3]);
        hex(t.c);
        break;
    case 30:
        ((void (*)(void))e->f)();
        break;
    case 31:
        ((void (*)(struct s *))e->f)(&t);
        hex(t.a);
        break;
    }
}
int main(void) {
    for (int c; (c = get()) >= 0;) {
        run(&table[c % (sizeof table / sizeof *table)], c);
        put('\n');
    }
    return 0;
}
