/* accepted */
#include "plug.h"
/* Functions called through pointers: a sort with a compare, tables, structs as results, more than six
 * arguments, 64 bits, nodes that show each other. */
#define N __attribute__((noinline)) static
typedef int (*cmp)(const void *, const void *);
N void sort(void *base, unsigned n, unsigned size, cmp f) {
    char *b = base;
    for (unsigned i = 1; i < n; i++)
        for (unsigned j = i; j > 0 && f(b + (j - 1) * size, b + j * size) > 0; j--)
            for (unsigned k = 0; k < size; k++) {
                char t = b[(j - 1) * size + k];
                b[(j - 1) * size + k] = b[j * size + k];
                b[j * size + k] = t;
            }
}
N int up(const void *a, const void *b) { return *(const int *)a - *(const int *)b; }
N int down(const void *a, const void *b) { return up(b, a); }
N int bits(const void *a, const void *b) {
    int x = *(const int *)a, y = *(const int *)b, n = 0, m = 0;
    while (x) {
        n++;
        x &= x - 1;
    }
    while (y) {
        m++;
        y &= y - 1;
    }
    return n != m ? n - m : up(a, b);
}
N void hex(unsigned v) {
    for (int s = 28; s >= 0; s -= 4) put("0123456789abcdef"[v >> s & 15]);
    put(' ');
}
static cmp const orders[] = {up, down, bits};
struct big {
    int a;
    long long b;
    char c[9];
};
typedef struct big (*maker)(int, long long, int, int, int, int, int, int);
N struct big one(int a, long long b, int c, int d, int e, int f, int g, int h) {
    struct big r = {a + h, b * c - g, "abcdefgh"};
    r.c[d & 7] = e + f;
    return r;
}
N struct big two(int a, long long b, int c, int d, int e, int f, int g, int h) {
    struct big r = one(h, b, g, f, e, d, c, a);
    r.b ^= a;
    return r;
}
typedef unsigned long long (*wide)(unsigned, unsigned long long);
N unsigned long long w1(unsigned a, unsigned long long b) { return b * a + 1; }
N unsigned long long w2(unsigned a, unsigned long long b) { return a > 3 ? w2(a - 1, b ^ a) * 3 : b - a; }
static wide wides[2] = {w1, w2};
static maker makers[4];
struct node {
    struct node *next;
    void (*show)(struct node *, int);
    int v;
};
static struct node pool[40];
N void showa(struct node *n, int d) {
    put('a' + (n->v & 7));
    if (n->next && d < 30) n->next->show(n->next, d + 1);
    put(')');
}
N void showb(struct node *n, int d) {
    if (n->next && d < 30) n->next->show(n->next, d + 2);
    hex(n->v + d);
}
int main(void) {
    int a[50], n = 0, c;
    while ((c = get()) >= 0 && n < 50) {
        a[n] = c * 77 ^ n;
        n++;
    }
    for (int k = 0; k < 3; k++) {
        sort(a, n, sizeof *a, orders[k]);
        for (int i = 0; i < n; i++) hex(a[i]);
        put('\n');
    }
    makers[n & 3] = one;
    makers[(n + 1) & 3] = two;
    makers[(n + 2) & 3] = one;
    makers[(n + 3) & 3] = two;
    for (int k = 0; k < 4; k++) {
        struct big b = makers[k](n, 0x123456789LL * n, k, 4, 5, 6, 7, 8 + k);
        hex(b.a);
        hex(b.b);
        hex(b.b >> 32);
        for (int i = 0; i < 9; i++) hex(b.c[i]);
        put('\n');
    }
    for (int k = 0; k < 6; k++) {
        unsigned long long w = wides[k & 1](k + n % 9, 0x9876543210ULL);
        hex(w);
        hex(w >> 32);
    }
    for (int i = 0; i < 40; i++) {
        pool[i].v = i * n;
        pool[i].show = i % 3 ? showa : showb;
        pool[i].next = i < 39 ? &pool[i + 1] : 0;
    }
    pool[0].show(&pool[0], 0);
    put('\n');
    put(orders[n % 3] == up ? 'u' : orders[n % 3] == down ? 'd' : 'b');
    put('\n');
    return 0;
}
