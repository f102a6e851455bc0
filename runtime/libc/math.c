/* math.h for doubles, but the square root, which is in ../soft: all by their bits. */
#include <math.h>
#include "whole.h"

double fabs(double x) { return double_of(magnitude_of(bits_of(x))); }
double copysign(double x, double sign) { return double_of(magnitude_of(bits_of(x)) | sign_of(bits_of(sign))); }

double nan(const char *text) {
    (void)text;
    return double_of(NO_NUMBER);
}

double trunc(double x) { return double_of(cut_off(bits_of(x), 0)); }
double floor(double x) { return double_of(cut_off(bits_of(x), sign_of(bits_of(x)) != 0)); }
double ceil(double x) { return double_of(cut_off(bits_of(x), sign_of(bits_of(x)) == 0)); }

double round(double x) {
    u64 bits = bits_of(x);
    if (exponent_of(bits) < 1022) return double_of(sign_of(bits));
    if (exponent_of(bits) == 1022) return double_of(sign_of(bits) | ONE);
    u64 behind = behind_point(bits);
    if (behind == 0) return x;
    return double_of((bits + ((behind + 1) >> 1)) & ~behind);
}

/* (the lowest bit before the point is the exponent's lowest where the whole part is 1, and both are odd) */
double rint(double x) {
    u64 bits = bits_of(x);
    if (exponent_of(bits) < 1022 || magnitude_of(bits) == ONE - HIDDEN) return double_of(sign_of(bits));
    if (exponent_of(bits) == 1022) return double_of(sign_of(bits) | ONE);
    u64 behind = behind_point(bits), unit = behind + 1, rest = bits & behind, half = unit >> 1;
    if (behind == 0) return x;
    bits -= rest;
    if (rest > half || (rest == half && bits & unit)) bits += unit;
    return double_of(bits);
}

double nearbyint(double x) { return rint(x); }
long lround(double x) { return (long)round(x); }
long long llround(double x) { return (long long)round(x); }
long lrint(double x) { return (long)rint(x); }
long long llrint(double x) { return (long long)rint(x); }

static int is_finite_not_zero(u64 bits) { return magnitude_of(bits) != 0 && magnitude_of(bits) < INFINITE; }

double frexp(double x, int *exponent) {
    u64 bits = bits_of(x);
    *exponent = 0;
    if (!is_finite_not_zero(bits)) return x;
    u64 significand = normalized(bits, exponent);
    *exponent -= 1022;
    return double_of(sign_of(bits) | (ONE - HIDDEN) | fraction_of(significand));
}

double scalbn(double x, int by) {
    u64 bits = bits_of(x);
    int exponent;
    if (!is_finite_not_zero(bits)) return x;
    u64 significand = normalized(bits, &exponent);
    if (by > 5000) by = 5000;
    if (by < -5000) by = -5000;
    return rounded(sign_of(bits), exponent + by, significand << 10);
}

double ldexp(double x, int by) { return scalbn(x, by); }
double scalbln(double x, long by) { return scalbn(x, by > 5000 ? 5000 : by < -5000 ? -5000 : (int)by); }

double modf(double x, double *whole) {
    *whole = trunc(x);
    if (magnitude_of(bits_of(x)) == INFINITE) return double_of(sign_of(bits_of(x)));
    return copysign(x - *whole, x);
}

double logb(double x) {
    u64 bits = bits_of(x);
    int exponent;
    if (magnitude_of(bits) == 0) return double_of(SIGN | INFINITE);
    if (magnitude_of(bits) >= INFINITE) return is_nan(bits) ? x : double_of(INFINITE);
    normalized(bits, &exponent);
    return exponent - 1023;
}

int ilogb(double x) {
    u64 bits = bits_of(x);
    int exponent;
    if (magnitude_of(bits) == 0) return FP_ILOGB0;
    if (is_nan(bits)) return FP_ILOGBNAN;
    if (magnitude_of(bits) == INFINITE) return 2147483647;
    normalized(bits, &exponent);
    return exponent - 1023;
}

double nextafter(double x, double to) {
    u64 bits = bits_of(x);
    if (is_nan(bits) || is_nan(bits_of(to))) return double_of(NO_NUMBER);
    if (x == to) return to;
    if (magnitude_of(bits) == 0) return double_of(sign_of(bits_of(to)) | 1);
    int is_away = (x < to) == (sign_of(bits) == 0);
    return double_of(is_away ? bits + 1 : bits - 1);
}

double fmin(double x, double y) {
    if (is_nan(bits_of(x))) return y;
    if (is_nan(bits_of(y))) return x;
    if (x == y) return sign_of(bits_of(x)) ? x : y;
    return x < y ? x : y;
}

double fmax(double x, double y) {
    if (is_nan(bits_of(x))) return y;
    if (is_nan(bits_of(y))) return x;
    if (x == y) return sign_of(bits_of(x)) ? y : x;
    return x > y ? x : y;
}

double fdim(double x, double y) {
    if (is_nan(bits_of(x)) || is_nan(bits_of(y))) return double_of(NO_NUMBER);
    return x > y ? x - y : 0;
}
