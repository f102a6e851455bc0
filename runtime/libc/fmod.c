/* fmod and remainder: exact, by a division of the significands bit by bit. */
#include <math.h>
#include "../soft/soft.h"

/* |x| modulo |y|, of finite numbers that aren't 0, by its bits; and whether the quotient is odd. */
static u64 modulo(u64 x, u64 y, int *is_odd) {
    int exponent, least;
    u64 rest = normalized(x, &exponent), divisor = normalized(y, &least);
    *is_odd = 0;
    if (exponent < least) return magnitude_of(x);
    for (; exponent > least; exponent--) {
        if (rest >= divisor) rest -= divisor;
        rest <<= 1;
    }
    if (rest >= divisor) {
        rest -= divisor;
        *is_odd = 1;
    }
    if (rest == 0) return 0;
    int up = zeros_above_64(rest) - 11;
    return magnitude_of(bits_of(rounded(0, least - up, rest << up << 10)));
}

/* What has no remainder: where x is infinite, y is 0, or one is no number. */
static int is_none(u64 x, u64 y) { return magnitude_of(x) >= INFINITE || is_nan(y) || magnitude_of(y) == 0; }

double fmod(double x, double y) {
    u64 a = bits_of(x), b = bits_of(y);
    int is_odd;
    if (is_none(a, b)) return double_of(NO_NUMBER);
    if (magnitude_of(a) == 0 || magnitude_of(b) == INFINITE) return x;
    return double_of(sign_of(a) | modulo(a, b, &is_odd));
}

/* The quotient is the nearest whole number, and the even one of two that are as near. */
double remainder(double x, double y) {
    u64 a = bits_of(x), b = bits_of(y);
    int is_odd;
    if (is_none(a, b)) return double_of(NO_NUMBER);
    if (magnitude_of(a) == 0 || magnitude_of(b) == INFINITE) return x;
    double rest = double_of(modulo(a, b, &is_odd)), divisor = double_of(magnitude_of(b)), left = divisor - rest;
    if (rest > left || (rest == left && is_odd)) rest = -left;
    return double_of(bits_of(rest) ^ sign_of(a));
}
