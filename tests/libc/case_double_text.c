/* strtod, strtof and atof. */
#include "beside.h"

#ifndef OURS
#include <errno.h>
#include <math.h>
#include <stdio.h>
#include <stdlib.h>
#include <string.h>
#endif

#define ROOM 5200

static char text[ROOM];

#ifndef OURS
/* The other library's strtod rounds some subnormal numbers to the base 16 wrongly. A long double holds them exactly,
   and the machine rounds it; what is lost below the least normal number isn't told then. */
static int is_hex(const char *from) { return strpbrk(from, "xX") != NULL; }

static double their_double(char **end) {
    if (!is_hex(text)) return strtod(text, end);
    double number = (double)strtold(text, end);
    errno = 0;
    return number;
}

static float their_float(char **end) {
    if (!is_hex(text)) return strtof(text, end);
    float number = (float)strtold(text, end);
    errno = 0;
    return number;
}
#else
static int is_hex(const char *from) {
    for (; *from; from++)
        if ((*from | 32) == 'x') return 1;
    return 0;
}
#endif

static void same(void) {
    char *ours = NULL, *theirs = NULL;
    BOTH(gp_errno = 0, errno = 0);
    SAME(bits(gp_strtod(text, &ours)), bits(their_double(&theirs)));
    SAME(ours - text, theirs - text);
    if (!is_hex(text)) SAME(gp_errno, errno);
    BOTH(gp_errno = 0, errno = 0);
    SAME(float_bits(gp_strtof(text, &ours)), float_bits(their_float(&theirs)));
    SAME(ours - text, theirs - text);
    if (!is_hex(text)) SAME(gp_errno, errno);
    (void)ours, (void)theirs;
}

static int append_digits(int size, unsigned count) {
    for (; count > 0; count--) text[size++] = (char)('0' + below(10));
    return size;
}

static int append_exponent(int size, char letter, int exponent) {
    text[size++] = letter;
    if (exponent < 0) text[size++] = '-';
    unsigned left = exponent < 0 ? (unsigned)-exponent : (unsigned)exponent;
    char digits[12];
    int count = 0;
    do digits[count++] = (char)('0' + left % 10);
    while (left /= 10);
    while (count > 0) text[size++] = digits[--count];
    return size;
}

/* Any digits, a point somewhere, any exponent. */
static void digits(void) {
    int size = 0;
    if (below(4) == 0) text[size++] = "+-"[below(2)];
    size = append_digits(size, below(below(10) ? 20 : 900));
    if (below(2)) text[size++] = '.';
    size = append_digits(size, below(below(10) ? 20 : 900));
    unsigned span = below(4) ? 60 : 1600;
    if (below(2)) size = append_exponent(size, case_number % 2 ? 'e' : 'E', (int)below(span) - (int)span * 5 / 8);
    text[size] = 0;
    same();
}

static void hexadecimal(void) {
    int size = 0;
    if (below(4) == 0) text[size++] = '-';
    text[size++] = '0', text[size++] = "xX"[below(2)];
    unsigned count = below(15), point = below(20);
    for (unsigned i = 0; i < count; i++) {
        if (i == point) text[size++] = '.';
        text[size++] = "0123456789abcdefABCDEF00000000"[below(30)];
    }
    if (below(4)) size = append_exponent(size, case_number % 2 ? 'p' : 'P', (int)below(2400) - 1200);
    text[size] = 0;
    same();
}

/* Anything that looks like a number for a while. */
static void anything(void) {
    int size = (int)below(14);
    for (int i = 0; i < size; i++) text[i] = "0123456789.eE+-xXpPaAfFnNiItTyY( )_"[below(35)];
    text[size] = 0;
    same();
}

#ifndef OURS
/* What a double prints as, with any number of digits; and the middle between two doubles, exactly, and a little more
   and less. */
static void printed(void) {
    double number = random_double();
    if (number != number) return;
    snprintf(text, ROOM, below(8) ? "%.*e" : "%.*f", (int)below(case_number % 4 ? 20 : 1100), number);
    same();
}

static void middles(void) {
    double number = fabs(random_double()), next = nextafter(number, INFINITY);
    if (!(number < 1e300) || number < 1e-300) return;
    long double middle = ((long double)number + next) / 2;
    int size = below(2) ? snprintf(text, ROOM, "%.1200Lg", middle) : snprintf(text, ROOM, "%.1400Lf", middle);
    same();
    if (strchr(text, 'e') || !strchr(text, '.')) return;
    text[size] = '0', text[size + 1] = '1', text[size + 2] = 0;
    same();
    text[size] = 0;
    for (char *at = text + size - 1; at > text; at--)
        if (*at > '0' && *at <= '9') {
            --*at;
            break;
        }
    same();
    float small = (float)number;
    if (!(small < 1e38F) || small < 1e-38F) return;
    snprintf(text, ROOM, "%.1200g", ((double)small + nextafterf(small, INFINITY)) / 2);
    same();
}
#endif

static void edges(void) {
    static const char *const all[] = {
        "1e400",
        "-1e400",
        "1e-400",
        "0x",
        "0x.p1",
        "0x1p",
        "0x1p+",
        "1e",
        "1e+",
        "infinit",
        "INFINITY",
        "-inf",
        "nan(",
        "nan(ab_1)x",
        "nan(a b)",
        "+.5",
        "-.",
        ".",
        "",
        "  12",
        "2.2250738585072011e-308",
        "2.2250738585072012e-308",
        "2.2250738585072014e-308",
        "4.9e-324",
        "2.4703282292062327e-324",
        "2.4703282292062328e-324",
        "1.7976931348623157e308",
        "1.7976931348623158e308",
        "1.7976931348623159e308",
        "0e999999999",
        "00000000000000000000000000000000000000000001",
        "1e-99999999999999",
        "1e0000000000000000000000000000000000000000000001",
        "1e99999999999999999999",
        "9007199254740993",
        "3.4028235677973366e38",
        "9007199254740992.99999999999999999999999999999",
        "1.1754943508222875e-38",
        "7.0064923216240854e-46",
        "3.4028235677973362e38",
    };
    long count = (long)(sizeof all / sizeof all[0]);
    int size = 0;
    if (case_number < count) {
        for (; all[case_number][size]; size++) text[size] = all[case_number][size];
    } else {
        /* 2,000 nines, or a 1 and 3,000 zeros, with an exponent that takes them back, or without */
        long which = case_number - count;
        if (which % 2)
            for (; size < 2000; size++) text[size] = '9';
        else
            for (text[size++] = '1'; size < 3000; size++) text[size] = '0';
        if (which % 4 > 1) size = append_exponent(size, 'e', which % 2 ? -1700 : -2900);
        if (which > 3) text[0] = '.';
        if (which > 5) size = append_exponent(size, 'e', 2900);
    }
    text[size] = 0;
    same();
}

const struct test double_text_tests[] = {
    {"strtod of digits", digits, CASES * 5L},
    {"strtod to the base 16", hexadecimal, CASES},
    {"strtod of anything", anything, CASES * 2L},
#ifndef OURS
#ifndef THEIRS
    {"strtod of what printf prints", printed, CASES * 20L},
    {"strtod of middles", middles, CASES},
#endif
#endif
    {"strtod of edges", edges, 48},
    {NULL, NULL, 0},
};
