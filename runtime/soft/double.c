/* What a compiler calls for double where there is no floating point unit (-msoft-float): the four operations, the
   sign, comparisons. */
#include "soft.h"

u64 __soft_shifted(u64 number, int by) { return shifted(number, by); }

/* Where one of two numbers is infinite or none: their sum; a's magnitude isn't the lesser. */
static double special_sum(u64 a, u64 b) {
    if (is_nan(a) || (magnitude_of(b) == INFINITE && a != b)) return double_of(NO_NUMBER);
    return double_of(a);
}

/* The sum of magnitudes at bit 62 of which the second has been shifted to the first's exponent. */
static double sum_of(u64 sign, int exponent, u64 larger, u64 smaller) {
    u64 sum = larger + smaller;
    if (sum >> 63) {
        sum = sum >> 1 | (sum & 1);
        exponent++;
    }
    return rounded(sign, exponent, sum);
}

static double difference_of(u64 sign, int exponent, u64 larger, u64 smaller) {
    u64 difference = larger - smaller;
    if (difference == 0) return double_of(0);
    if (difference >> 62 == 0) {
        int up = zeros_above_64(difference) - 1;
        if (up >= exponent) up = exponent - 1;
        difference <<= up;
        exponent -= up;
    }
    return rounded(sign, exponent, difference);
}

static double sum(u64 a, u64 b) {
    if (magnitude_of(a) < magnitude_of(b)) {
        u64 kept = a;
        a = b;
        b = kept;
    }
    if (magnitude_of(a) >= INFINITE) return special_sum(a, b);
    int exponent = exponent_of(a), lower = exponent_of(b);
    u64 larger = fraction_of(a) << 10, smaller = fraction_of(b) << 10;
    if (exponent) larger |= HIDDEN << 10;
    else exponent = 1;
    if (lower) smaller |= HIDDEN << 10;
    else lower = 1;
    if (exponent > lower) smaller = shifted(smaller, exponent - lower);
    if (sign_of(a ^ b) == 0) return sum_of(sign_of(a), exponent, larger, smaller);
    return difference_of(sign_of(a), exponent, larger, smaller);
}

/* -0 and -0 are the only zeros whose sum is -0. */
static double sum_of_any(u64 a, u64 b) {
    if ((magnitude_of(a) | magnitude_of(b)) == 0) return double_of(a & b);
    return sum(a, b);
}

double __adddf3(double a, double b) { return sum_of_any(bits_of(a), bits_of(b)); }
double __subdf3(double a, double b) { return sum_of_any(bits_of(a), bits_of(b) ^ SIGN); }
double __negdf2(double a) { return double_of(bits_of(a) ^ SIGN); }

/* The upper 64 bits of a product, the lowest of which tells of the lower 64, too. */
static u64 upper_product(u64 a, u64 b) {
    u32 a1 = (u32)(a >> 32), a0 = (u32)a, b1 = (u32)(b >> 32), b0 = (u32)b;
    u64 low = (u64)a0 * b0, middle = (u64)a1 * b0 + (low >> 32), other = (u64)a0 * b1 + (u32)middle;
    u64 high = (u64)a1 * b1 + (middle >> 32) + (other >> 32);
    return high | (((u32)other | (u32)low) != 0);
}

static double special_product(u64 a, u64 b) {
    u64 sign = sign_of(a ^ b);
    if (is_nan(a) || is_nan(b)) return double_of(NO_NUMBER);
    if (magnitude_of(a) != INFINITE && magnitude_of(b) != INFINITE) return double_of(sign);
    if (magnitude_of(a) == 0 || magnitude_of(b) == 0) return double_of(NO_NUMBER);
    return double_of(sign | INFINITE);
}

/* Infinite, not a number, or 0. */
static inline int is_special(u64 magnitude) { return magnitude == 0 || magnitude >= INFINITE; }

double __muldf3(double x, double y) {
    u64 a = bits_of(x), b = bits_of(y);
    if (is_special(magnitude_of(a)) || is_special(magnitude_of(b))) return special_product(a, b);
    int exponent, other;
    u64 left = normalized(a, &exponent), right = normalized(b, &other);
    u64 product = upper_product(left << 10, right << 11);
    exponent += other - 1022;
    if (product >> 62 == 0) {
        product <<= 1;
        exponent--;
    }
    return rounded(sign_of(a ^ b), exponent, product);
}

static double special_quotient(u64 a, u64 b) {
    u64 sign = sign_of(a ^ b);
    if (is_nan(a) || is_nan(b) || magnitude_of(a) == magnitude_of(b)) return double_of(NO_NUMBER);
    if (magnitude_of(a) == INFINITE || magnitude_of(b) == 0) return double_of(sign | INFINITE);
    return double_of(sign);
}

/* floor(rest * 2^14 / divisor), or up to rest / divisor / 2 + 1 less; the rest is taken down by it. The divisor is
   from 2^60 to 2^61, the rest below four of it; estimate is the divisor's upper 16 bits and 1, so that a digit is
   never too great. */
static inline u32 next_digit(u64 *rest, u64 divisor, u32 estimate) {
    u32 digit = (u32)(*rest >> 31) / estimate;
    u64 low = (u64)digit * (u32)divisor;
    u32 high = digit * (u32)(divisor >> 32);
    *rest = (*rest << 14) - (low + ((u64)high << 32));
    return digit;
}

/* floor(rest * 2^56 / divisor), its lowest bit but one set where that isn't exact; the rest is from half the divisor
   up to it. A rest of r divisors leaves one of r / 2 + 1 and a little: from below 1, four digits leave less than
   2. */
static u64 digits_of_quotient(u64 rest, u64 divisor) {
    u32 estimate = (u32)(divisor >> 45) + 1;
    u32 first = next_digit(&rest, divisor, estimate), second = next_digit(&rest, divisor, estimate);
    u32 third = next_digit(&rest, divisor, estimate), fourth = next_digit(&rest, divisor, estimate);
    u64 quotient = ((u64)((first << 14) + second) << 28) + ((third << 14) + fourth);
    if (rest >= divisor) {
        rest -= divisor;
        quotient++;
    }
    return quotient << 7 | (rest != 0);
}

double __divdf3(double x, double y) {
    u64 a = bits_of(x), b = bits_of(y);
    if (is_special(magnitude_of(a)) || is_special(magnitude_of(b))) return special_quotient(a, b);
    int exponent, other;
    u64 rest = normalized(a, &exponent) << 7, divisor = normalized(b, &other) << 8;
    exponent += 1023 - other;
    if (rest << 1 < divisor) {
        rest <<= 1;
        exponent--;
    }
    return rounded(sign_of(a ^ b), exponent, digits_of_quotient(rest, divisor));
}

/* -1, 0 or 1: less, equal, greater; and what the caller says where one is no number. Numbers of one sign are ordered
   as their bits. */
static inline int compared(u64 a, u64 b, int unordered) {
    if (is_nan(a) || is_nan(b)) return unordered;
    if (magnitude_of(a | b) == 0) return 0;
    if ((s64)(a & b) < 0) return a > b ? -1 : a != b;
    return (s64)a < (s64)b ? -1 : a != b;
}

/* (apart, since each of the six calls it) */
static int order(double a, double b) { return compared(bits_of(a), bits_of(b), 1); }

int __eqdf2(double a, double b) { return order(a, b); }
int __nedf2(double a, double b) { return order(a, b); }
int __ltdf2(double a, double b) { return order(a, b); }
int __ledf2(double a, double b) { return order(a, b); }
int __gtdf2(double a, double b) { return compared(bits_of(a), bits_of(b), -1); }
int __gedf2(double a, double b) { return compared(bits_of(a), bits_of(b), -1); }
int __unorddf2(double a, double b) { return is_nan(bits_of(a)) || is_nan(bits_of(b)); }
int __cmpdf2(double a, double b) { return order(a, b); }

/* A whole power, as a compiler asks for it by __builtin_powi: products in the order of the exponent's bits. */
double __powidf2(double base, int exponent) {
    u32 left = exponent < 0 ? -(u32)exponent : (u32)exponent;
    double power = left & 1 ? base : 1;
    while (left >>= 1) {
        base *= base;
        if (left & 1) power *= base;
    }
    return exponent < 0 ? 1 / power : power;
}
