/* accepted */
#include "plug.h"
/* Functions that call each other in a round: a tree, permutations, quicksort. */
struct t {
    struct t *l, *r;
    int k;
};
static struct t pool[300];
static int used;
static struct t *ins(struct t *t, int k) {
    if (!t) {
        if (used >= 300) quit(9);
        t = &pool[used++];
        t->l = t->r = 0;
        t->k = k;
        return t;
    }
    if (k < t->k)
        t->l = ins(t->l, k);
    else if (k > t->k)
        t->r = ins(t->r, k);
    return t;
}
static int high(struct t *t) {
    if (!t) return 0;
    int a = high(t->l), b = high(t->r);
    return 1 + (a > b ? a : b);
}
static void walk(struct t *t, int d);
static void both(struct t *t, int d) {
    walk(t->l, d + 1);
    put('0' + d % 10);
    walk(t->r, d + 1);
}
static void walk(struct t *t, int d) {
    if (!t) {
        put('.');
        return;
    }
    if (d & 1) {
        put('(');
        both(t, d);
        put(')');
    } else
        both(t, d);
    put(t->k);
}
static int isodd(int n);
static int iseven(int n) { return n == 0 ? 1 : isodd(n - 1); }
static int isodd(int n) { return n == 0 ? 0 : iseven(n - 1); }
static char perm[8];
static int count;
static void perms(int k, int n) {
    if (k == n) {
        count++;
        if (count % 7 == 0) {
            for (int i = 0; i < n; i++) put(perm[i]);
            put(' ');
        }
        return;
    }
    for (int i = k; i < n; i++) {
        char t = perm[k];
        perm[k] = perm[i];
        perm[i] = t;
        perms(k + 1, n);
        t = perm[k];
        perm[k] = perm[i];
        perm[i] = t;
    }
}
static void qs(int *a, int lo, int hi) {
    if (lo >= hi) return;
    int p = a[(lo + hi) / 2], i = lo, j = hi;
    while (i <= j) {
        while (a[i] < p) i++;
        while (a[j] > p) j--;
        if (i <= j) {
            int t = a[i];
            a[i] = a[j];
            a[j] = t;
            i++;
            j--;
        }
    }
    qs(a, lo, j);
    qs(a, i, hi);
}
int main(void) {
    struct t *root = 0;
    int c, n = 0, a[256];
    while ((c = get()) >= 0) {
        if (n < 256) a[n++] = c;
        root = ins(root, c);
    }
    walk(root, 0);
    put('\n');
    put('0' + high(root) % 10);
    put('0' + iseven(n));
    put('\n');
    for (int i = 0; i < 5; i++) perm[i] = 'a' + i;
    perms(0, 5);
    put('\n');
    qs(a, 0, n - 1);
    for (int i = 0; i < n; i++) put(a[i]);
    put('\n');
    return 0;
}
