/* The square root, rounded to nearest: a compiler calls it by the name that math.h has. */
#include "soft.h"

double __extendsfdf2(float number);
float __truncdfsf2(double number);

/* The root of a word from 2^30 up, its fraction cut off, or one less. A line that is within 1/18 of the root, and two
   steps of Heron's, each of which squares the error and halves it. */
static inline u32 root_of_word(u32 number) {
    u32 root = (number >> 17) + (number >> 19) + 0x5F00;
    root = (root + number / root) >> 1;
    root = (root + number / root) >> 1;
    return root - 1;
}

/* A root of so many bits, and number - root^2, below 3 * 2 * root: each step takes 26 bits of the number to the right
   and adds 13 bits. */
struct partial {
    u64 root, rest;
};

/* The estimate is the root's upper 16 bits, and so much more that a digit is never too great. A rest of c * 2 * root
   leaves one of at most c * more / 4 + 1: from 2 on the bound stays below 3. */
static inline struct partial extended(struct partial from, int bits, u32 more, u32 next) {
    u32 estimate = (u32)(from.root >> (bits - 16)) + more;
    u32 upper = bits < 28 ? (u32)from.rest << (28 - bits) : (u32)(from.rest >> (bits - 28));
    u32 digit = upper / estimate;
    u64 root = from.root << 13, twice = (root << 1) + digit;
    u64 taken = (u64)digit * (u32)twice + ((u64)(digit * (u32)(twice >> 32)) << 32);
    struct partial to = {root + digit, (from.rest << 26) + next - taken};
    return to;
}

/* The root of significand * 2^56, 55 bits, and below them one that tells of the rest; the significand is from 2^52 up
   to 2^54. */
static u64 root_of(u64 significand) {
    u32 upper = (u32)(significand >> 22), word = root_of_word(upper);
    struct partial part = {word, upper - word * word};
    part = extended(part, 16, 3, ((u32)significand & 0x3FFFFF) << 4);
    part = extended(part, 29, 2, 0);
    part = extended(part, 42, 2, 0);
    if (part.rest > part.root << 1) part.rest -= (part.root++ << 1) + 1;
    if (part.rest > part.root << 1) part.rest -= (part.root++ << 1) + 1;
    return part.root << 8 | (part.rest != 0);
}

double sqrt(double number) {
    u64 bits = bits_of(number);
    if (is_nan(bits)) return double_of(NO_NUMBER);
    if (magnitude_of(bits) == 0 || bits == INFINITE) return number;
    if (sign_of(bits)) return double_of(NO_NUMBER);
    int exponent;
    u64 significand = normalized(bits, &exponent);
    if (exponent % 2 == 0)
        significand <<= 1; /* (1023 is odd: the power of two to halve is even where the exponent is odd) */
    return rounded(0, (exponent + 1023) >> 1, root_of(significand));
}

/* A double has more than twice a float's bits and two, so that rounding twice is rounding once. */
float sqrtf(float number) { return __truncdfsf2(sqrt(__extendsfdf2(number))); }
