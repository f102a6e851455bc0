/* The bits of IEEE 754's binary64 and binary32, for arithmetic by whole numbers. Rounding is to nearest, ties to
   even; there are no traps and no flags; a result that is no number is the quiet NaN of positive sign. */
#ifndef GEYSERPAN_SOFT_H
#define GEYSERPAN_SOFT_H

typedef unsigned long long u64;
typedef long long s64;
typedef unsigned int u32;
typedef int s32;

#define SIGN 0x8000000000000000ULL
#define INFINITE 0x7FF0000000000000ULL
#define NO_NUMBER 0x7FF8000000000000ULL
#define HIDDEN 0x0010000000000000ULL

#define FLOAT_SIGN 0x80000000U
#define FLOAT_INFINITE 0x7F800000U
#define FLOAT_NO_NUMBER 0x7FC00000U
#define FLOAT_HIDDEN 0x00800000U

static inline u64 bits_of(double number) {
    union {
        double number;
        u64 bits;
    } both = {number};
    return both.bits;
}

static inline double double_of(u64 bits) {
    union {
        u64 bits;
        double number;
    } both = {bits};
    return both.number;
}

static inline u32 float_bits_of(float number) {
    union {
        float number;
        u32 bits;
    } both = {number};
    return both.bits;
}

static inline float float_of(u32 bits) {
    union {
        u32 bits;
        float number;
    } both = {bits};
    return both.number;
}

static inline u64 magnitude_of(u64 bits) { return bits & ~SIGN; }
static inline u64 sign_of(u64 bits) { return bits & SIGN; }
static inline int exponent_of(u64 bits) { return (int)(bits >> 52) & 2047; }
static inline u64 fraction_of(u64 bits) { return bits & (HIDDEN - 1); }
static inline int is_nan(u64 bits) { return magnitude_of(bits) > INFINITE; }

static inline u32 float_magnitude_of(u32 bits) { return bits & ~FLOAT_SIGN; }
static inline int float_exponent_of(u32 bits) { return (int)(bits >> 23) & 255; }
static inline int float_is_nan(u32 bits) { return float_magnitude_of(bits) > FLOAT_INFINITE; }

/* The zeros above the highest bit of a word that isn't 0: five halvings, without a loop. */
static inline int zeros_above(u32 word) {
    int zeros = 0;
    if (word >> 16 == 0) zeros += 16, word <<= 16;
    if (word >> 24 == 0) zeros += 8, word <<= 8;
    if (word >> 28 == 0) zeros += 4, word <<= 4;
    if (word >> 30 == 0) zeros += 2, word <<= 2;
    return zeros + (word >> 31 == 0);
}

static inline int zeros_above_64(u64 number) {
    u32 high = (u32)(number >> 32);
    return high ? zeros_above(high) : 32 + zeros_above((u32)number);
}

/* A shift to the right by 1 or more whose lowest bit tells whether a bit that isn't 0 was lost ("sticky"): rounding
   needs no more. */
static inline u64 shifted(u64 number, int by) {
    if (by > 63) return number != 0;
    return number >> by | (number << (64 - by) != 0);
}

/* The same as a function of its own, for results that are subnormal: these are rare, and many places round. */
u64 __soft_shifted(u64 number, int by);

static inline u32 float_shifted(u32 number, int by) {
    if (by > 31) return number != 0;
    return number >> by | (number << (32 - by) != 0);
}

/* The double nearest to significand * 2^(exponent - 1023 - 62). Bit 62 is the significand's highest, or the exponent
   is 1 and it is smaller (a subnormal number); its lowest 10 bits are beyond the result's. The hidden bit carries 1
   into the exponent, as does a significand that is rounded up to the next power of two. */
static inline double rounded(u64 sign, int exponent, u64 significand) {
    if (exponent >= 2047) return double_of(sign | INFINITE);
    if (exponent < 1) {
        significand = __soft_shifted(significand, 1 - exponent);
        exponent = 1;
    }
    significand += 0x1FF + ((u32)significand >> 10 & 1);
    return double_of(sign | (((u64)(u32)(exponent - 1) << 52) + (significand >> 10)));
}

/* The float nearest to significand * 2^(exponent - 127 - 30), likewise: bit 30 is its highest, the lowest 7 are
   beyond the result's. */
static inline float float_rounded(u32 sign, int exponent, u32 significand) {
    if (exponent >= 255) return float_of(sign | FLOAT_INFINITE);
    if (exponent < 1) {
        significand = float_shifted(significand, 1 - exponent);
        exponent = 1;
    }
    significand += 0x3F + (significand >> 7 & 1);
    return float_of(sign | (((u32)(exponent - 1) << 23) + (significand >> 7)));
}

/* The significand of a finite number that isn't 0, with its hidden bit set, a subnormal one shifted up; and the
   exponent for it. */
static inline u64 normalized(u64 bits, int *exponent) {
    u64 significand = fraction_of(bits);
    *exponent = exponent_of(bits);
    if (*exponent) return significand | HIDDEN;
    int up = __builtin_clzll(significand) - 11; /* (a call, which is rare) */
    *exponent = 1 - up;
    return significand << up;
}

static inline u32 float_normalized(u32 bits, int *exponent) {
    u32 significand = bits & (FLOAT_HIDDEN - 1);
    *exponent = float_exponent_of(bits);
    if (*exponent) return significand | FLOAT_HIDDEN;
    int up = __builtin_clz(significand) - 8;
    *exponent = 1 - up;
    return significand << up;
}

#endif
