/* What a compiler calls for float where there is no floating point unit (-msoft-float): the four operations, the
   sign, comparisons. */
#include "soft.h"

static float special_sum(u32 a, u32 b) {
    if (float_is_nan(a) || (float_magnitude_of(b) == FLOAT_INFINITE && a != b)) return float_of(FLOAT_NO_NUMBER);
    return float_of(a);
}

static float sum_of(u32 sign, int exponent, u32 larger, u32 smaller) {
    u32 sum = larger + smaller;
    if (sum >> 31) {
        sum = sum >> 1 | (sum & 1);
        exponent++;
    }
    return float_rounded(sign, exponent, sum);
}

static float difference_of(u32 sign, int exponent, u32 larger, u32 smaller) {
    u32 difference = larger - smaller;
    if (difference == 0) return float_of(0);
    int up = zeros_above(difference) - 1;
    if (up >= exponent) up = exponent - 1;
    return float_rounded(sign, exponent - up, difference << up);
}

static float sum(u32 a, u32 b) {
    if (float_magnitude_of(a) < float_magnitude_of(b)) {
        u32 kept = a;
        a = b;
        b = kept;
    }
    if (float_magnitude_of(a) >= FLOAT_INFINITE) return special_sum(a, b);
    int exponent = float_exponent_of(a), lower = float_exponent_of(b);
    u32 larger = (a & (FLOAT_HIDDEN - 1)) << 7, smaller = (b & (FLOAT_HIDDEN - 1)) << 7;
    if (exponent) larger |= FLOAT_HIDDEN << 7;
    else exponent = 1;
    if (lower) smaller |= FLOAT_HIDDEN << 7;
    else lower = 1;
    if (exponent > lower) smaller = float_shifted(smaller, exponent - lower);
    if ((a ^ b) >> 31 == 0) return sum_of(a & FLOAT_SIGN, exponent, larger, smaller);
    return difference_of(a & FLOAT_SIGN, exponent, larger, smaller);
}

/* -0 and -0 are the only zeros whose sum is -0. */
static float sum_of_any(u32 a, u32 b) {
    if (float_magnitude_of(a | b) == 0) return float_of(a & b);
    return sum(a, b);
}

float __addsf3(float a, float b) { return sum_of_any(float_bits_of(a), float_bits_of(b)); }
float __subsf3(float a, float b) { return sum_of_any(float_bits_of(a), float_bits_of(b) ^ FLOAT_SIGN); }
float __negsf2(float a) { return float_of(float_bits_of(a) ^ FLOAT_SIGN); }

static inline int is_special(u32 magnitude) { return magnitude == 0 || magnitude >= FLOAT_INFINITE; }

static float special_product(u32 a, u32 b) {
    u32 sign = (a ^ b) & FLOAT_SIGN;
    if (float_is_nan(a) || float_is_nan(b)) return float_of(FLOAT_NO_NUMBER);
    if (float_magnitude_of(a) != FLOAT_INFINITE && float_magnitude_of(b) != FLOAT_INFINITE) return float_of(sign);
    if (float_magnitude_of(a) == 0 || float_magnitude_of(b) == 0) return float_of(FLOAT_NO_NUMBER);
    return float_of(sign | FLOAT_INFINITE);
}

float __mulsf3(float x, float y) {
    u32 a = float_bits_of(x), b = float_bits_of(y);
    if (is_special(float_magnitude_of(a)) || is_special(float_magnitude_of(b))) return special_product(a, b);
    int exponent, other;
    u32 left = float_normalized(a, &exponent), right = float_normalized(b, &other);
    u64 product = (u64)(left << 7) * (right << 8);
    u32 significand = (u32)(product >> 32) | ((u32)product != 0);
    exponent += other - 126;
    if (significand >> 30 == 0) {
        significand <<= 1;
        exponent--;
    }
    return float_rounded((a ^ b) & FLOAT_SIGN, exponent, significand);
}

static float special_quotient(u32 a, u32 b) {
    u32 sign = (a ^ b) & FLOAT_SIGN;
    if (float_is_nan(a) || float_is_nan(b)) return float_of(FLOAT_NO_NUMBER);
    if (float_magnitude_of(a) == float_magnitude_of(b)) return float_of(FLOAT_NO_NUMBER);
    if (float_magnitude_of(a) == FLOAT_INFINITE || float_magnitude_of(b) == 0) return float_of(sign | FLOAT_INFINITE);
    return float_of(sign);
}

/* So many bits of a quotient, 8 at most; the rest, below the divisor of 24 bits, goes on. */
static inline u32 next_digit(u32 *rest, u32 divisor, int bits) {
    u32 shifted_up = *rest << bits, digit = shifted_up / divisor;
    *rest = shifted_up - digit * divisor;
    return digit;
}

float __divsf3(float x, float y) {
    u32 a = float_bits_of(x), b = float_bits_of(y);
    if (is_special(float_magnitude_of(a)) || is_special(float_magnitude_of(b))) return special_quotient(a, b);
    int exponent, other;
    u32 rest = float_normalized(a, &exponent), divisor = float_normalized(b, &other);
    exponent += 127 - other;
    if (rest < divisor) {
        rest <<= 1;
        exponent--;
    }
    rest -= divisor; /* the first digit is 1 */
    u32 quotient = 1U << 8 | next_digit(&rest, divisor, 8);
    quotient = quotient << 8 | next_digit(&rest, divisor, 8);
    quotient = quotient << 8 | next_digit(&rest, divisor, 8);
    quotient = quotient << 6 | next_digit(&rest, divisor, 6);
    return float_rounded((a ^ b) & FLOAT_SIGN, exponent, quotient | (rest != 0));
}

/* -1, 0 or 1: less, equal, greater; and what the caller says where one is no number. */
static inline int compared(u32 a, u32 b, int unordered) {
    if (float_is_nan(a) || float_is_nan(b)) return unordered;
    if (float_magnitude_of(a | b) == 0) return 0;
    if ((s32)(a & b) < 0) return a > b ? -1 : a != b;
    return (s32)a < (s32)b ? -1 : a != b;
}

static int order(float a, float b) { return compared(float_bits_of(a), float_bits_of(b), 1); }

int __eqsf2(float a, float b) { return order(a, b); }
int __nesf2(float a, float b) { return order(a, b); }
int __ltsf2(float a, float b) { return order(a, b); }
int __lesf2(float a, float b) { return order(a, b); }
int __gtsf2(float a, float b) { return compared(float_bits_of(a), float_bits_of(b), -1); }
int __gesf2(float a, float b) { return compared(float_bits_of(a), float_bits_of(b), -1); }
int __unordsf2(float a, float b) { return float_is_nan(float_bits_of(a)) || float_is_nan(float_bits_of(b)); }
int __cmpsf2(float a, float b) { return order(a, b); }

float __powisf2(float base, int exponent) {
    u32 left = exponent < 0 ? -(u32)exponent : (u32)exponent;
    float power = left & 1 ? base : 1;
    while (left >>= 1) {
        base *= base;
        if (left & 1) power *= base;
    }
    return exponent < 0 ? 1 / power : power;
}
