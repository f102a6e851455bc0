/* The decimal digits of a double, exactly: its whole part by divisions by 10,000, its fraction by products with 10^9,
   both of as many words as the number has. */
#include <limits.h>
#include <stdint.h>
#include "../soft/soft.h"
#include "decimal.h"

/* 2^1024 has 32 words; the least double is 2^-1074, 34 words behind the point. */
#define WORDS 34

/* A number of words, the most significant first; those outside of first up to end are 0. A fraction's point stands
   before word 0. */
struct words {
    int first, end;
    uint32_t word[WORDS];
};

static struct words whole, fraction;
struct decimal __decimal;

/* significand * 2^shift, with the last bit of the words counting 1; shift is 0 to 2 words less than there are. */
static inline __attribute__((__always_inline__)) void place(struct words *words, uint64_t significand, int shift) {
    int bits = shift % 32, end = WORDS - shift / 32;
    uint32_t high = (uint32_t)(significand >> 32), low = (uint32_t)significand;
    words->end = end;
    words->first = end - 3;
    words->word[end - 1] = low << bits;
    words->word[end - 2] = high << bits | (bits ? low >> (32 - bits) : 0);
    words->word[end - 3] = bits ? high >> (32 - bits) : 0;
}

/* Leaves out the words that are 0 at the begin. */
static inline __attribute__((__always_inline__)) void narrow(struct words *words) {
    while (words->first < words->end && words->word[words->first] == 0) words->first++;
}

/* whole /= 10,000, by halves of words; what is left over. */
static unsigned divide(void) {
    unsigned rest = 0;
    for (int i = whole.first; i < whole.end; i++) {
        unsigned high = rest << 16 | whole.word[i] >> 16, low = (high % 10000) << 16 | (whole.word[i] & 0xFFFF);
        whole.word[i] = high / 10000 << 16 | low / 10000;
        rest = low % 10000;
    }
    narrow(&whole);
    return rest;
}

/* fraction *= by, a power of 10 up to 10^9; what comes before the point. */
static uint32_t multiply(uint32_t by) {
    uint32_t carry = 0;
    for (int i = fraction.end - 1; i >= fraction.first; i--) {
        uint64_t product = (uint64_t)fraction.word[i] * by + carry;
        fraction.word[i] = (uint32_t)product;
        carry = (uint32_t)(product >> 32);
    }
    while (fraction.end > fraction.first && fraction.word[fraction.end - 1] == 0) fraction.end--;
    if (fraction.first == 0) return carry;
    if (carry) fraction.word[--fraction.first] = carry;
    return 0;
}

/* So many digits of a number, 0s at its begin among them, but for those before the first of the decimal's. */
static void append(uint32_t number, int digits) {
    char text[9];
    for (int i = digits; i-- > 0; number /= 10) text[i] = (char)('0' + number % 10);
    for (int i = 0; i < digits; i++)
        if (__decimal.count > 0 || text[i] != '0') __decimal.digits[__decimal.count++] = text[i];
        else __decimal.point--;
}

/* The digits of a whole number: they come from the last one on, four at a time. */
static void append_whole(void) {
    uint16_t fours[80];
    int count = 0;
    narrow(&whole);
    while (whole.first < whole.end) fours[count++] = (uint16_t)divide();
    __decimal.point = count * 4;
    while (count > 0) append(fours[--count], 4);
}

/* Takes 1 more in a place, and carries. */
static void round_up(void) {
    while (__decimal.count > 0 && __decimal.digits[__decimal.count - 1] == '9') __decimal.count--;
    if (__decimal.count > 0) {
        __decimal.digits[__decimal.count - 1]++;
        return;
    }
    __decimal.digits[__decimal.count++] = '1';
    __decimal.point++;
}

static int is_zero_from(int at) {
    for (; at < __decimal.count; at++)
        if (__decimal.digits[at] != '0') return 0;
    return 1;
}

/* Cuts off what is behind so many digits; is_exact tells that nothing follows the digits that are there. */
static void cut(int digits, int is_exact) {
    if (digits >= __decimal.count) return;
    if (digits < 0) {
        __decimal.count = 0;
        return;
    }
    int first = __decimal.digits[digits], is_odd = digits > 0 && __decimal.digits[digits - 1] % 2 != 0;
    int is_half = first == '5' && is_exact && is_zero_from(digits + 1);
    __decimal.count = digits;
    if (is_half ? is_odd : first >= '5') round_up();
}

static int lesser(int one, int other) { return one < other ? one : other; }

/* Digits of the fraction, up to one behind those that are asked for. */
static void append_fraction(int places, int digits) {
    static const uint32_t powers[] = {1, 10, 100, 1000, 10000, 100000, 1000000, 10000000, 100000000, 1000000000};
    while (fraction.first < fraction.end && __decimal.count <= digits && __decimal.count - __decimal.point <= places) {
        int wanted = lesser(lesser(digits - __decimal.count, places - (__decimal.count - __decimal.point)), 8) + 1;
        append(multiply(powers[wanted]), wanted);
    }
}

/* The words of a number's whole part and of its fraction. */
static void split(uint64_t bits) {
    int exponent = exponent_of(bits);
    uint64_t significand = fraction_of(bits) | (exponent ? HIDDEN : 0);
    int shift = (exponent ? exponent : 1) - 1075;
    whole.first = whole.end = fraction.first = fraction.end = 0;
    if (shift >= 0) {
        place(&whole, significand, shift);
        whole.end = WORDS;
        for (int i = WORDS - shift / 32; i < WORDS; i++) whole.word[i] = 0;
    } else if (shift >= -64) {
        place(&whole, shift > -53 ? significand >> -shift : 0, 0);
        fraction.end = 2;
        uint64_t part = significand << (64 + shift);
        fraction.word[0] = (uint32_t)(part >> 32);
        fraction.word[1] = (uint32_t)part;
    } else {
        place(&fraction, significand, WORDS * 32 + shift);
    }
}

static void decimal_of(double number, int places, int digits) {
    __decimal.count = __decimal.point = 0;
    split(bits_of(number));
    append_whole();
    narrow(&fraction);
    append_fraction(places, digits);
    int is_exact = fraction.first == fraction.end;
    int by_places = places > INT_MAX - 400 ? INT_MAX : __decimal.point + places;
    cut(lesser(by_places, digits), is_exact);
    if (__decimal.count == 0) __decimal.point = 0;
}

void __decimal_to_places(double number, int places) {
    decimal_of(number, places, INT_MAX);
}
void __decimal_to_digits(double number, int digits) {
    decimal_of(number, INT_MAX, digits);
}
