/* math.h for floats, by doubles: what is exact there is exact here, and what is rounded is rounded once. */
#include <math.h>
#include "../soft/soft.h"

float fabsf(float x) { return float_of(float_magnitude_of(float_bits_of(x))); }
float copysignf(float x, float sign) {
    return float_of(float_magnitude_of(float_bits_of(x)) | (float_bits_of(sign) & FLOAT_SIGN));
}

float nanf(const char *text) {
    (void)text;
    return float_of(FLOAT_NO_NUMBER);
}

float floorf(float x) { return (float)floor(x); }
float ceilf(float x) { return (float)ceil(x); }
float truncf(float x) { return (float)trunc(x); }
float roundf(float x) { return (float)round(x); }
float rintf(float x) { return (float)rint(x); }
float nearbyintf(float x) { return (float)rint(x); }
long lroundf(float x) { return lround(x); }
long long llroundf(float x) { return llround(x); }
long lrintf(float x) { return lrint(x); }
long long llrintf(float x) { return llrint(x); }
float fmodf(float x, float y) { return (float)fmod(x, y); }
float remainderf(float x, float y) { return (float)remainder(x, y); }
float frexpf(float x, int *exponent) { return (float)frexp(x, exponent); }
float ldexpf(float x, int by) { return (float)scalbn(x, by); }
float scalbnf(float x, int by) { return (float)scalbn(x, by); }
float scalblnf(float x, long by) { return (float)scalbln(x, by); }
float logbf(float x) { return (float)logb(x); }
int ilogbf(float x) { return ilogb(x); }
float fminf(float x, float y) { return (float)fmin(x, y); }
float fmaxf(float x, float y) { return (float)fmax(x, y); }

float modff(float x, float *whole) {
    double whole_part, rest = modf(x, &whole_part);
    *whole = (float)whole_part;
    return (float)rest;
}

float nextafterf(float x, float to) {
    u32 bits = float_bits_of(x);
    if (float_is_nan(bits) || float_is_nan(float_bits_of(to))) return float_of(FLOAT_NO_NUMBER);
    if (x == to) return to;
    if (float_magnitude_of(bits) == 0) return float_of((float_bits_of(to) & FLOAT_SIGN) | 1);
    int is_away = (x < to) == (bits >> 31 == 0);
    return float_of(is_away ? bits + 1 : bits - 1);
}

float fdimf(float x, float y) {
    if (float_is_nan(float_bits_of(x)) || float_is_nan(float_bits_of(y))) return float_of(FLOAT_NO_NUMBER);
    return x > y ? x - y : 0;
}
