/* What a compiler calls for conversions between float, double and whole numbers where there is no floating point
   unit. A number that a whole type can't hold becomes the nearest that it can, and what is no number 0; C leaves both
   open. */
#include "soft.h"

double __extendsfdf2(float number) {
    u32 bits = float_bits_of(number);
    u64 sign = (u64)(bits & FLOAT_SIGN) << 32;
    if (float_is_nan(bits)) return double_of(NO_NUMBER);
    if (float_magnitude_of(bits) == FLOAT_INFINITE) return double_of(sign | INFINITE);
    if (float_magnitude_of(bits) == 0) return double_of(sign);
    int exponent;
    u32 significand = float_normalized(bits, &exponent);
    return double_of(sign | (((u64)(u32)(exponent + 1023 - 127 - 1) << 52) + ((u64)significand << 29)));
}

float __truncdfsf2(double number) {
    u64 bits = bits_of(number);
    u32 sign = (u32)(sign_of(bits) >> 32);
    if (is_nan(bits)) return float_of(FLOAT_NO_NUMBER);
    if (magnitude_of(bits) == INFINITE) return float_of(sign | FLOAT_INFINITE);
    if (exponent_of(bits) == 0) return float_of(sign); /* below half of the least float */
    u64 significand = fraction_of(bits) | HIDDEN;
    return float_rounded(sign, exponent_of(bits) - 1023 + 127,
                         (u32)(significand >> 22) | ((u32)significand << 10 != 0));
}

/* From a magnitude that isn't 0. */
static double from_magnitude(u64 sign, u64 magnitude) {
    int up = zeros_above_64(magnitude) - 1;
    if (up < 0) return rounded(sign, 1023 + 63, shifted(magnitude, 1));
    return rounded(sign, 1023 + 62 - up, magnitude << up);
}

static inline double from_word(u64 sign, u32 magnitude) {
    int up = zeros_above(magnitude);
    u64 significand = (u64)(magnitude << up) << 21;
    return double_of(sign | (((u64)(u32)(1023 + 31 - up - 1) << 52) + significand));
}

double __floatsidf(int number) {
    if (number == 0) return double_of(0);
    return number < 0 ? from_word(SIGN, -(u32)number) : from_word(0, (u32)number);
}

double __floatunsidf(u32 number) { return number ? from_word(0, number) : double_of(0); }

double __floatdidf(s64 number) {
    if (number == 0) return double_of(0);
    return number < 0 ? from_magnitude(SIGN, -(u64)number) : from_magnitude(0, (u64)number);
}

double __floatundidf(u64 number) { return number ? from_magnitude(0, number) : double_of(0); }

static float float_from_magnitude(u32 sign, u64 magnitude) {
    int up = zeros_above_64(magnitude);
    magnitude <<= up;
    u32 significand = (u32)(magnitude >> 33) | ((magnitude & 0x1FFFFFFFFULL) != 0);
    return float_rounded(sign, 127 + 63 - up, significand);
}

float __floatsisf(int number) {
    if (number == 0) return float_of(0);
    return number < 0 ? float_from_magnitude(FLOAT_SIGN, -(u32)number) : float_from_magnitude(0, (u32)number);
}

float __floatunsisf(u32 number) { return number ? float_from_magnitude(0, number) : float_of(0); }

float __floatdisf(s64 number) {
    if (number == 0) return float_of(0);
    return number < 0 ? float_from_magnitude(FLOAT_SIGN, -(u64)number) : float_from_magnitude(0, (u64)number);
}

float __floatundisf(u64 number) { return number ? float_from_magnitude(0, number) : float_of(0); }

/* The magnitude of a number, its fraction cut off; the most where it is greater. */
static u64 whole_of(u64 bits, u64 most) {
    int exponent = exponent_of(bits);
    if (exponent < 1023) return 0;
    if (exponent > 1023 + 63) return is_nan(bits) ? 0 : most;
    u64 significand = fraction_of(bits) | HIDDEN;
    u64 whole = exponent > 1075 ? significand << (exponent - 1075) : significand >> (1075 - exponent);
    return whole > most ? most : whole;
}

/* The same for a word, of which most callers ask. */
static u32 word_of(u64 bits, u32 most) {
    int exponent = exponent_of(bits);
    if (exponent < 1023) return 0;
    if (exponent > 1023 + 31) return is_nan(bits) ? 0 : most;
    u32 whole = (u32)(bits >> 21 | 0x80000000U) >> (1023 + 31 - exponent);
    return whole > most ? most : whole;
}

int __fixdfsi(double number) {
    u64 bits = bits_of(number);
    return sign_of(bits) ? (int)-word_of(bits, 0x80000000U) : (int)word_of(bits, 0x7FFFFFFFU);
}

u32 __fixunsdfsi(double number) {
    u64 bits = bits_of(number);
    return sign_of(bits) ? 0 : word_of(bits, 0xFFFFFFFFU);
}

s64 __fixdfdi(double number) {
    u64 bits = bits_of(number);
    return sign_of(bits) ? (s64)-whole_of(bits, SIGN) : (s64)whole_of(bits, ~SIGN);
}

u64 __fixunsdfdi(double number) {
    u64 bits = bits_of(number);
    return sign_of(bits) ? 0 : whole_of(bits, ~0ULL);
}

int __fixsfsi(float number) { return __fixdfsi(__extendsfdf2(number)); }
u32 __fixunssfsi(float number) { return __fixunsdfsi(__extendsfdf2(number)); }
s64 __fixsfdi(float number) { return __fixdfdi(__extendsfdf2(number)); }
u64 __fixunssfdi(float number) { return __fixunsdfdi(__extendsfdf2(number)); }
