/* accepted */
#include "plug.h"
/* Functions that call themselves: 64-bit results, several calls in one, a frame with an array. */
static unsigned long long __attribute__((noinline)) fact(unsigned n) { return n < 2 ? 1 : n * fact(n - 1); }
static int __attribute__((noinline)) ack(int m, int n) {
    return m == 0 ? n + 1 : n == 0 ? ack(m - 1, 1) : ack(m - 1, ack(m, n - 1));
}
static void __attribute__((noinline)) dec(unsigned n) {
    if (n >= 10) dec(n / 10);
    put('0' + n % 10);
}
static int __attribute__((noinline)) gcd(int a, int b) { return b ? gcd(b, a % b) : a; }
static int depth(int n) {
    int a[4];
    a[n & 3] = n;
    return n == 0 ? 0 : 1 + depth(n - 1) + (a[n & 3] - n);
}
static void hanoi(int n, int a, int b, int c) {
    if (n) {
        hanoi(n - 1, a, c, b);
        put('0' + a);
        put('0' + c);
        hanoi(n - 1, b, a, c);
    }
}
int main(void) {
    int c;
    while ((c = get()) >= 0) {
        unsigned long long f = fact(c & 15);
        dec((unsigned)f);
        put(' ');
        dec((unsigned)(f >> 32));
        put(' ');
        dec(ack(2, c & 7));
        put(' ');
        dec(gcd(c * 12, 360));
        put(' ');
        dec(depth(c & 63));
        put(' ');
        hanoi(c & 3, 1, 2, 3);
        put('\n');
    }
    return 0;
}
