/* printf's conversions of doubles: %e, %f, %g by decimal digits, and %a. */
#include <stdint.h>
#include "../soft/soft.h"
#include "decimal.h"
#include "print.h"

static int is_upper(void) { return __asked.letter < 'a'; }

static void print_word(uint64_t bits) {
    struct prefix prefix = __sign_of(sign_of(bits) != 0);
    const char *word = is_nan(bits) ? is_upper() ? "NAN" : "nan" : is_upper() ? "INF" : "inf";
    __asked.flags &= ~(unsigned)ZEROS;
    __print_head(prefix, 0, 3);
    __sink_bytes(word, 3);
    __print_tail(prefix, 3);
}

/* Digits from one place up to another, 0s where the decimal has none. */
static void print_digits(int from, int to) {
    int before = from < 0 ? (to < 0 ? to : 0) - from : 0;
    __sink_repeated('0', (size_t)before);
    from += before;
    int end = to < __decimal.count ? to : __decimal.count;
    if (from < end) {
        __sink_bytes(__decimal.digits + from, (size_t)(end - from));
        from = end;
    }
    if (from < to) __sink_repeated('0', (size_t)(to - from));
}

/* A point where digits follow, or # asks for it. */
static int has_point(int places) { return places > 0 || (__asked.flags & OTHER) != 0; }

static void print_fixed(struct prefix prefix,
                        int places) {
    int whole = __decimal.point > 0 ? __decimal.point : 1, point = has_point(places);
    size_t size = (size_t)whole + (size_t)point + (size_t)places;
    __print_head(prefix, 0, size);
    print_digits(__decimal.point - whole, __decimal.point);
    if (point) __sink_repeated('.', 1);
    print_digits(__decimal.point, __decimal.point + places);
    __print_tail(prefix, size);
}

/* An exponent: its letter, its sign, and so many digits at least; into text, and its size. */
static size_t exponent_text(char *text, char letter, int exponent, int least) {
    char digits[4];
    int count = 0;
    unsigned left = exponent < 0 ? (unsigned)-exponent : (unsigned)exponent;
    for (; left > 0 || count < least; left /= 10) digits[count++] = (char)('0' + left % 10);
    size_t size = 0;
    text[size++] = letter;
    text[size++] = exponent < 0 ? '-' : '+';
    while (count > 0) text[size++] = digits[--count];
    return size;
}

static void print_scientific(struct prefix prefix,
                             int places) {
    char exponent[8];
    size_t exponent_size = exponent_text(exponent, is_upper() ? 'E' : 'e',
                                         __decimal.count ? __decimal.point - 1 : 0, 2);
    int point = has_point(places);
    size_t size = 1 + (size_t)point + (size_t)places + exponent_size;
    __print_head(prefix, 0, size);
    print_digits(0, 1);
    if (point) __sink_repeated('.', 1);
    print_digits(1, 1 + places);
    __sink_bytes(exponent, exponent_size);
    __print_tail(prefix, size);
}

/* %g: the shorter of both, without the 0s at the end unless # asks for them. */
static void print_general(struct prefix prefix,
                          int digits) {
    int exponent = __decimal.count ? __decimal.point - 1 : 0, is_scientific = exponent < -4 || exponent >= digits;
    int kept = digits;
    if (!(__asked.flags & OTHER)) {
        while (__decimal.count > 0 && __decimal.digits[__decimal.count - 1] == '0') __decimal.count--;
        kept = __decimal.count ? __decimal.count : 1;
    }
    int places = is_scientific ? kept - 1 : kept - 1 - exponent;
    if (places < 0) places = 0;
    if (is_scientific) print_scientific(prefix, places);
    else print_fixed(prefix, places);
}

/* %a: a digit to the base 2, up to 13 to the base 16, and the power of 2. */
struct hex {
    uint64_t significand;
    int exponent, places;
};

/* Rounds to so many places, ties to even; a carry makes the first digit 2. */
static void round_hex(struct hex *hex, int places) {
    int bits = 4 * (13 - places);
    if (places >= 13) return;
    uint64_t unit = 1ULL << bits, rest = hex->significand & (unit - 1), half = unit >> 1;
    hex->significand -= rest;
    if (rest > half || (rest == half && hex->significand & unit)) hex->significand += unit;
}

static struct hex hex_of(uint64_t bits, int precision) {
    struct hex hex = {fraction_of(bits), exponent_of(bits) - 1023, 13};
    if (exponent_of(bits)) hex.significand |= HIDDEN;
    else hex.exponent = hex.significand ? -1022 : 0;
    if (precision >= 0) round_hex(&hex, precision);
    else
        while (hex.places > 0 && (hex.significand >> 4 * (13 - hex.places) & 15) == 0) hex.places--;
    return hex;
}

static void print_hex(uint64_t bits) {
    struct hex hex = hex_of(bits, __asked.precision);
    struct prefix sign = __sign_of(sign_of(bits) != 0);
    char text[3] = {*sign.text, '0', is_upper() ? 'X' : 'x'}, letter_a = is_upper() ? 'A' : 'a',
         exponent[8];
    struct prefix prefix = {sign.size ? text : text + 1, sign.size + 2};
    size_t exponent_size = exponent_text(exponent, is_upper() ? 'P' : 'p', hex.exponent, 1);
    int places = __asked.precision >= 0 ? __asked.precision : hex.places, point = has_point(places);
    size_t size = 1 + (size_t)point + (size_t)places + exponent_size;
    __print_head(prefix, 0, size);
    __sink_repeated((char)('0' + (hex.significand >> 52)), 1);
    if (point) __sink_repeated('.', 1);
    for (int i = 0; i < places && i < 13; i++) {
        int digit = (int)(hex.significand >> 4 * (12 - i)) & 15;
        __sink_repeated((char)(digit < 10 ? '0' + digit : letter_a + digit - 10), 1);
    }
    if (places > 13) __sink_repeated('0', (size_t)places - 13);
    __sink_bytes(exponent, exponent_size);
    __print_tail(prefix, size);
}

void __print_double(double number) {
    uint64_t bits = bits_of(number);
    struct prefix prefix = __sign_of(sign_of(bits) != 0);
    int precision = __asked.precision < 0 ? 6 : __asked.precision;
    number = double_of(magnitude_of(bits));
    if (magnitude_of(bits) >= INFINITE) {
        print_word(bits);
    } else if ((__asked.letter | 32) == 'a') {
        print_hex(bits);
    } else if ((__asked.letter | 32) == 'f') {
        __decimal_to_places(number, precision);
        print_fixed(prefix, precision);
    } else if ((__asked.letter | 32) == 'e') {
        __decimal_to_digits(number, precision < 2000 ? precision + 1 : 2000);
        print_scientific(prefix, precision);
    } else {
        if (precision == 0) precision = 1;
        __decimal_to_digits(number, precision);
        print_general(prefix, precision);
    }
}
