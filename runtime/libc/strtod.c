/* strtod, strtof and atof: rounded to nearest, ties to even, for any number of digits. The whole part becomes a
   number of words, the fraction is multiplied by 2^16 again and again; 64 bits of both, and whether anything follows,
   are all that rounding has to know. */
#include <ctype.h>
#include <errno.h>
#include <stdint.h>
#include <stdlib.h>
#include <strings.h>
#include "../soft/soft.h"

/* Digits that are kept: two doubles and the middle between them differ in the first 768. A last one tells of all that
   follow. */
#define MOST_DIGITS 800
/* From 10^310 on a number is infinite, and below 10^-343 it is 0. */
#define MOST_POINT 310
#define LEAST_POINT (-343)

/* 0.DDD.. * 10^point. */
static struct {
    int count, point;
    char digit[MOST_DIGITS + 1];
} digits;

/* top * 2^exponent, with top's highest bit set, or 0; and whether bits that aren't 0 follow. */
struct scaled {
    uint64_t top;
    int exponent, is_more;
};

/* An exponent behind a letter; what isn't one is left alone. Beyond 99,999 it makes no difference. */
static int read_exponent(const char **at) {
    const char *from = *at + 1;
    int minus = *from == '-', exponent = 0;
    if (*from == '-' || *from == '+') from++;
    if (!isdigit((unsigned char)*from)) return 0;
    for (; isdigit((unsigned char)*from); from++)
        if (exponent < 99999) exponent = exponent * 10 + *from - '0';
    *at = from;
    return minus ? -exponent : exponent;
}

static void keep(char digit) {
    if (digits.count == 0 && digit == 0) return;
    if (digits.count < MOST_DIGITS) digits.digit[digits.count++] = digit;
    else if (digit != 0) digits.digit[MOST_DIGITS] = 1;
}

/* Reads digits with at most one point among them, and an exponent; NULL where there is no digit. */
static const char *read_digits(const char *at) {
    int is_behind = 0, is_number = 0;
    digits.count = digits.point = digits.digit[MOST_DIGITS] = 0;
    for (;; at++) {
        if (*at == '.' && !is_behind) {
            is_behind = 1;
            continue;
        }
        if (!isdigit((unsigned char)*at)) break;
        is_number = 1;
        keep((char)(*at - '0'));
        if (digits.count > 0 && !is_behind) digits.point++;
        if (digits.count == 0 && is_behind) digits.point--;
    }
    if (!is_number) return NULL;
    if (digits.digit[MOST_DIGITS]) digits.count = MOST_DIGITS + 1;
    if ((*at | 32) == 'e') digits.point += read_exponent(&at);
    while (digits.count > 0 && digits.digit[digits.count - 1] == 0) digits.count--;
    return at;
}

/* The digit in a place of 0.DDD.., counted from 0. */
static unsigned digit_at(int place) {
    return place >= 0 && place < digits.count ? (unsigned)digits.digit[place] : 0;
}

#define WORDS 34

/* A whole number, its least significant word first. */
static struct {
    int count;
    uint32_t word[WORDS];
} whole;

/* whole * by + more. */
static void multiply(uint32_t by, uint32_t more) {
    for (int i = 0; i < whole.count; i++) {
        uint64_t product = (uint64_t)whole.word[i] * by + more;
        whole.word[i] = (uint32_t)product;
        more = (uint32_t)(product >> 32);
    }
    if (more) whole.word[whole.count++] = more;
}

static void read_whole(void) {
    whole.count = 0;
    for (int place = 0; place < digits.point;) {
        uint32_t group = 0, by = 1;
        for (; place < digits.point && by < 1000000000; place++, by *= 10)
            group = group * 10 + digit_at(place);
        multiply(by, group);
    }
}

#define FOURS 288

/* A fraction by four decimal digits, the first behind the point first; those outside of first up to end are 0. */
static struct {
    int first, end;
    uint16_t four[FOURS];
} fraction;

static void read_fraction(void) {
    int end = (digits.count - digits.point + 3) / 4;
    fraction.first = 0;
    fraction.end = end > 0 ? end : 0;
    for (int i = 0; i < fraction.end; i++) {
        int place = digits.point + 4 * i;
        unsigned upper = digit_at(place) * 10 + digit_at(place + 1);
        fraction.four[i] = (uint16_t)(upper * 100 + digit_at(place + 2) * 10 + digit_at(place + 3));
    }
    while (fraction.first < fraction.end && fraction.four[fraction.first] == 0) fraction.first++;
}

/* fraction *= 2^16; what comes before the point. */
static uint32_t next_bits(void) {
    uint32_t carry = 0;
    for (int i = fraction.end - 1; i >= fraction.first; i--) {
        uint32_t product = ((uint32_t)fraction.four[i] << 16) + carry;
        carry = product / 10000;
        fraction.four[i] = (uint16_t)(product - carry * 10000);
    }
    while (fraction.end > fraction.first && fraction.four[fraction.end - 1] == 0) fraction.end--;
    for (; carry && fraction.first > 0; carry /= 10000)
        fraction.four[--fraction.first] = (uint16_t)(carry % 10000);
    return carry;
}

static int is_rest(void) { return fraction.first < fraction.end; }

/* The highest 64 bits of a whole number that has more than two words. */
static struct scaled top_of(int is_more) {
    const uint32_t *last = &whole.word[whole.count - 1];
    int up = zeros_above(*last);
    uint64_t top = (uint64_t)last[0] << 32 | last[-1];
    if (up) top = top << up | last[-2] >> (32 - up);
    is_more |= (last[-2] << up) != 0;
    for (int i = 0; i < whole.count - 3; i++) is_more |= whole.word[i] != 0;
    struct scaled scaled = {top, (whole.count - 2) * 32 - up, is_more};
    return scaled;
}

static struct scaled scale(void) {
    struct scaled scaled = {0, 0, 0};
    read_whole();
    read_fraction();
    if (whole.count > 2) return top_of(is_rest());
    if (whole.count > 0) scaled.top = whole.word[0];
    if (whole.count > 1) scaled.top |= (uint64_t)whole.word[1] << 32;
    for (; scaled.top >> 48 == 0; scaled.exponent -= 16) scaled.top = scaled.top << 16 | next_bits();
    int up = zeros_above_64(scaled.top);
    uint32_t bits = next_bits();
    scaled.top = scaled.top << up | bits >> (16 - up);
    scaled.exponent -= up;
    scaled.is_more = (bits & ((1U << (16 - up)) - 1)) != 0 || is_rest();
    return scaled;
}

/* The value of a digit to the base 16, or 16. */
static unsigned hex_value(char c) {
    if (isdigit((unsigned char)c)) return (unsigned)(c - '0');
    return isxdigit((unsigned char)c) ? (unsigned)((c | 32) - 'a' + 10) : 16;
}

/* What a text says: an infinite number, none, or a finite one by its bits; or digits that have still to be scaled. */
enum kind { NOTHING, NAN_KIND, INFINITE_KIND, FINITE_KIND, DECIMAL_KIND };

static struct {
    enum kind kind;
    int minus;
    struct scaled scaled;
} number;

/* Reads digits to the base 16, behind 0x, and a power of 2; NULL where there is no digit. */
static const char *read_hex(const char *at) {
    int is_behind = 0, is_number = 0;
    number.scaled.top = number.scaled.exponent = number.scaled.is_more = 0;
    for (;; at++) {
        if (*at == '.' && !is_behind) {
            is_behind = 1;
            continue;
        }
        unsigned digit = hex_value(*at);
        if (digit == 16) break;
        is_number = 1;
        if (number.scaled.top >> 60 == 0) {
            number.scaled.top = number.scaled.top << 4 | digit;
            number.scaled.exponent -= is_behind ? 4 : 0;
        } else {
            number.scaled.is_more |= digit != 0;
            number.scaled.exponent += is_behind ? 0 : 4;
        }
    }
    if (!is_number) return NULL;
    if ((*at | 32) == 'p') number.scaled.exponent += read_exponent(&at);
    if (number.scaled.top) {
        int up = zeros_above_64(number.scaled.top);
        number.scaled.top <<= up;
        number.scaled.exponent -= up;
    }
    return at;
}

/* Behind "nan": letters in brackets, where there are such. */
static const char *skip_brackets(const char *at) {
    const char *end = at;
    if (*end++ != '(') return at;
    while (isalnum((unsigned char)*end) || *end == '_') end++;
    return *end == ')' ? end + 1 : at;
}

static const char *read_word(const char *at) {
    if (strncasecmp(at, "nan", 3) == 0) {
        number.kind = NAN_KIND;
        return skip_brackets(at + 3);
    }
    if (strncasecmp(at, "inf", 3) != 0) return NULL;
    number.kind = INFINITE_KIND;
    return strncasecmp(at + 3, "inity", 5) == 0 ? at + 8 : at + 3;
}

/* The number at the begin of a text, and where it ends: at the text where there is none. */
static const char *read_number(const char *text) {
    const char *at = text, *end;
    number.kind = NOTHING;
    while (isspace((unsigned char)*at)) at++;
    number.minus = *at == '-';
    if (*at == '-' || *at == '+') at++;
    end = read_word(at);
    if (end) return end;
    number.kind = FINITE_KIND;
    if (at[0] == '0' && (at[1] | 32) == 'x' && (end = read_hex(at + 2))) return end;
    number.kind = DECIMAL_KIND;
    end = read_digits(at);
    if (end) return end;
    number.kind = NOTHING;
    return text;
}

/* Has digits become bits, 0 or infinite, so that only the other kinds are left. */
static void settle(void) {
    static const struct scaled tiny = {1ULL << 63, -20000, 1}, none = {0, 0, 0};
    if (number.kind != DECIMAL_KIND) return;
    number.kind = FINITE_KIND;
    if (digits.count == 0) {
        number.scaled = none;
    } else if (digits.point < LEAST_POINT) {
        number.scaled = tiny;
    } else if (digits.point > MOST_POINT) {
        number.scaled = tiny;
        number.scaled.exponent = 20000;
    } else {
        number.scaled = scale();
    }
}

/* Up to 15 digits and a power of 10 up to 10^22 are doubles, and one product or quotient of them is rounded once. */
static int is_short(void) {
    int exponent = digits.point - digits.count;
    return number.kind == DECIMAL_KIND && digits.count > 0 && digits.count <= 15 &&
           exponent >= -22 && exponent <= 22;
}

static double short_number(void) {
    static const double powers[] = {1e0,  1e1,  1e2,  1e3,  1e4,  1e5,  1e6,  1e7,  1e8,  1e9,  1e10, 1e11,
                                    1e12, 1e13, 1e14, 1e15, 1e16, 1e17, 1e18, 1e19, 1e20, 1e21, 1e22};
    int64_t whole = 0;
    for (int i = 0; i < digits.count; i++) whole = whole * 10 + digits.digit[i];
    int exponent = digits.point - digits.count;
    return exponent < 0 ? (double)whole / powers[-exponent] : (double)whole * powers[exponent];
}

/* Below the least normal number, but for what would be rounded up to it with as many bits as that has; and bits are
   lost. */
static int is_underflow(int exponent, uint64_t significand, int beyond) {
    uint64_t half = 1ULL << (beyond - 1);
    if (exponent > 0 || (exponent == 0 && (significand + half) >> 63)) return 0;
    int lost = beyond + 1 - exponent;
    return lost > 63 || (significand & ((1ULL << lost) - 1)) != 0;
}

static double double_from(void) {
    uint64_t sign = number.minus ? SIGN : 0;
    if (number.kind == NAN_KIND) return double_of(sign | NO_NUMBER);
    if (number.kind == INFINITE_KIND) return double_of(sign | INFINITE);
    if (number.kind == NOTHING) return 0;
    if (number.scaled.top == 0) return double_of(sign);
    uint64_t significand = number.scaled.top >> 1 | (number.scaled.top & 1) | (number.scaled.is_more != 0);
    int exponent = number.scaled.exponent + 63 + 1023;
    double rounded_number = rounded(sign, exponent, significand);
    if (magnitude_of(bits_of(rounded_number)) == INFINITE || is_underflow(exponent, significand, 10)) errno = ERANGE;
    return rounded_number;
}

static float float_from(void) {
    uint32_t sign = number.minus ? FLOAT_SIGN : 0;
    if (number.kind == NAN_KIND) return float_of(sign | FLOAT_NO_NUMBER);
    if (number.kind == INFINITE_KIND) return float_of(sign | FLOAT_INFINITE);
    if (number.kind == NOTHING) return 0;
    if (number.scaled.top == 0) return float_of(sign);
    uint64_t significand = number.scaled.top >> 1 | (number.scaled.top & 1) | (number.scaled.is_more != 0);
    int exponent = number.scaled.exponent + 63 + 127;
    float rounded_number = float_rounded(sign, exponent,
                                         (uint32_t)(significand >> 32) | ((uint32_t)significand != 0));
    if (float_magnitude_of(float_bits_of(rounded_number)) == FLOAT_INFINITE ||
        is_underflow(exponent, significand, 39))
        errno = ERANGE;
    return rounded_number;
}

double strtod(const char *text, char **end) {
    const char *at = read_number(text);
    if (end) *end = (char *)at;
    if (is_short()) return number.minus ? -short_number() : short_number();
    settle();
    return double_from();
}

float strtof(const char *text, char **end) {
    const char *at = read_number(text);
    if (end) *end = (char *)at;
    settle();
    return float_from();
}

/* (a long double is a double) */
long double strtold(const char *text, char **end) { return strtod(text, end); }

double atof(const char *text) { return strtod(text, NULL); }
