/* scanf's format: everything but the conversions of doubles. */
#include <ctype.h>
#include <limits.h>
#include <stdint.h>
#include <stdlib.h>
#include <string.h>
#include "scan.h"

struct scan __scan;

void __scan_begin(FILE *stream, const char *text, const char *format, va_list arguments) {
    __scan.stream = stream;
    __scan.text = text;
    __scan.at = format;
    __scan.count = 0;
    __scan.assigned = 0;
    va_copy(__scan.arguments, arguments);
}

static void skip_blanks(void) {
    int c = take();
    while (isspace(c)) c = take();
    give_back(c);
}

/* A number's digits: bits is its value modulo 2^64, and beyond tells that it has more. */
static struct {
    uint64_t bits;
    int is_number, is_beyond;
} number;

static unsigned value_of(int c) {
    if (isdigit(c)) return (unsigned)c - '0';
    return isalpha(c) ? ((unsigned)c | 32) - 'a' + 10 : 99;
}

/* Reads digits from c on; gives what follows them back. */
static void read_digits(unsigned base, int c) {
    for (; value_of(c) < base; c = take_of_field()) {
        uint64_t low = (number.bits & 0xFFFFFFFF) * base + value_of(c),
                 high = (number.bits >> 32) * base + (low >> 32);
        if (high >> 32) number.is_beyond = 1;
        number.bits = high << 32 | (low & 0xFFFFFFFF);
        number.is_number = 1;
    }
    give_back(c);
}

/* As strtol has it; but 0x without a digit behind it is no number, since only one byte can be given back. */
static void read_number(unsigned base, int c) {
    number.bits = 0;
    number.is_number = number.is_beyond = 0;
    if (c == '0' && (base == 0 || base == 16)) {
        number.is_number = 1;
        c = take_of_field();
        if (c == 'x' || c == 'X') {
            number.is_number = 0;
            base = 16;
            c = take_of_field();
        } else if (base == 0) {
            base = 8;
        }
    }
    read_digits(base ? base : 10, c);
}

static void store_number(uint64_t bits) {
    void *to = va_arg(__scan.arguments, void *);
    char length = __scan.length;
    int is_wide = length == 'q' || length == 'j' ||
                  (sizeof(long) == sizeof(long long) && (length == 'l' || length == 'z' || length == 't'));
    if (is_wide) *(long long *)to = (long long)bits;
    else if (length == 'H') *(char *)to = (char)bits;
    else if (length == 'h') *(short *)to = (short)bits;
    else *(int *)to = (int)bits;
}

/* A number that its type can't hold becomes the greatest or the least of long, or of long long. */
static uint64_t held(int minus) {
    int is_long_long = __scan.length == 'q' || __scan.length == 'j',
        is_signed = __scan.letter == 'd' || __scan.letter == 'i';
    uint64_t most = is_long_long ? UINT64_MAX : ULONG_MAX;
    if (is_signed) most = (most >> 1) + (unsigned)minus;
    if (number.is_beyond || number.bits > most) number.bits = is_signed || !minus ? most : -most;
    return minus ? -number.bits : number.bits;
}

static enum outcome scan_number(unsigned base) {
    int c = take_of_field();
    if (c < 0) return ENDED;
    int minus = c == '-';
    if (c == '-' || c == '+') c = take_of_field();
    read_number(base, c);
    if (!number.is_number) return FAILED;
    if (__scan.is_kept) store_number(held(minus));
    return MATCHED;
}

static enum outcome scan_pointer(void) {
    __scan.length = 'z';
    return scan_number(16);
}

/* %c: so many bytes as the width says, or as many as there are. */
static enum outcome scan_bytes(int width) {
    char *to = __scan.is_kept ? va_arg(__scan.arguments, char *) : NULL;
    int i = 0;
    __scan.left = width;
    for (int c; (c = take_of_field()) >= 0; i++)
        if (to) to[i] = (char)c;
    return i > 0 ? MATCHED : ENDED;
}

/* The bytes of the set at hand, a bit each. */
static unsigned set[8];

static int is_in(int c) { return set[c >> 5 & 7] >> (c & 31) & 1; }

static void include(unsigned char from, unsigned char to) {
    for (int c = from; c <= to; c++) set[c >> 5] |= 1U << (c & 31);
}

static void clear(void) {
    for (int i = 0; i < 8; i++) set[i] = 0;
}

static void turn(void) {
    for (int i = 0; i < 8; i++) set[i] = ~set[i];
}

/* Reads a set behind its bracket: ^ turns it round, a bracket that comes first belongs to it, and a-z is a range. */
static void read_set(void) {
    clear();
    int is_turned = *__scan.at == '^';
    const char *at = __scan.at + is_turned, *first = at;
    for (; *at && (*at != ']' || at == first); at++) {
        if (at[1] == '-' && at[2] && at[2] != ']') {
            include((unsigned char)at[0], (unsigned char)at[2]);
            at += 2;
        } else {
            include((unsigned char)*at, (unsigned char)*at);
        }
    }
    __scan.at = *at ? at + 1 : at;
    if (is_turned) turn();
}

static enum outcome scan_text(void) {
    char *to = __scan.is_kept ? va_arg(__scan.arguments, char *) : NULL;
    int c = take_of_field(), i = 0;
    if (c < 0) return ENDED;
    for (; c >= 0 && is_in(c); c = take_of_field(), i++)
        if (to) to[i] = (char)c;
    give_back(c);
    if (i == 0) return FAILED;
    if (to) to[i] = 0;
    return MATCHED;
}

static enum outcome scan_word(void) {
    clear();
    include('\t', '\r');
    include(' ', ' ');
    turn();
    return scan_text();
}

/* The text has to go on with this byte. */
static enum outcome scan_same(int wanted) {
    int c = take();
    if (c == wanted) return MATCHED;
    give_back(c);
    return c < 0 ? ENDED : FAILED;
}

static char read_length(void) {
    char length = *__scan.at;
    if (length != 'h' && length != 'l' && length != 'j' && length != 'z' && length != 't' && length != 'L') return 0;
    __scan.at++;
    if (*__scan.at != length || (length != 'h' && length != 'l')) return length;
    __scan.at++;
    return length == 'h' ? 'H' : 'q';
}

/* Reads a conversion behind its sign; its width, or 0 where there is none. */
static int read_conversion(void) {
    int width = 0;
    __scan.is_kept = *__scan.at != '*';
    if (!__scan.is_kept) __scan.at++;
    for (; isdigit((unsigned char)*__scan.at); __scan.at++) {
        int digit = *__scan.at - '0';
        width = width > (INT_MAX - digit) / 10 ? INT_MAX : width * 10 + digit;
    }
    __scan.left = width ? width : INT_MAX;
    __scan.length = read_length();
    __scan.letter = *__scan.at;
    if (__scan.letter) __scan.at++;
    return width;
}

static enum outcome scan_count(void) {
    if (__scan.is_kept) store_number(__scan.count);
    __scan.is_kept = 0;
    return MATCHED;
}

static enum outcome scan_converted(int width) {
    if (__scan.length == 'l' && strchr("csS[", __scan.letter)) abort();
    switch (__scan.letter) {
    case 'd':
    case 'u': return scan_number(10);
    case 'i': return scan_number(0);
    case 'o': return scan_number(8);
    case 'x':
    case 'X': return scan_number(16);
    case 'p': return scan_pointer();
    case 's': return scan_word();
    case 'c': return scan_bytes(width ? width : 1);
    case '[': read_set(); return scan_text();
    case 'n': return scan_count();
    case '%': __scan.is_kept = 0; return scan_same('%');
    default: abort(); /* (one of elsewhere, or none: what it takes, and where it stores, isn't known) */
    }
}

static int is_of_double(char letter) {
    letter |= 32;
    return letter == 'a' || letter == 'e' || letter == 'f' || letter == 'g';
}

int __scan_settle(enum outcome outcome) {
    if (outcome == MATCHED) {
        __scan.assigned += __scan.is_kept;
        return 1;
    }
    if (outcome == ENDED && __scan.assigned == 0) __scan.assigned = EOF;
    return 0;
}

/* What stands in the format besides conversions; 0 where the text differs. */
static int scan_plain(void) {
    for (; *__scan.at && *__scan.at != '%'; __scan.at++) {
        __scan.is_kept = 0;
        if (isspace((unsigned char)*__scan.at)) skip_blanks();
        else if (!__scan_settle(scan_same((unsigned char)*__scan.at))) return 0;
    }
    return 1;
}

int __scan_on(void) {
    for (;;) {
        if (!scan_plain() || !*__scan.at) return 0;
        __scan.at++;
        int width = read_conversion();
        if (__scan.letter != 'c' && __scan.letter != '[' && __scan.letter != 'n') skip_blanks();
        if (is_of_double(__scan.letter)) return 1;
        if (!__scan_settle(scan_converted(width))) return 0;
    }
}

int __scan_whole(FILE *stream, const char *text, const char *format, va_list arguments) {
    __scan_begin(stream, text, format, arguments);
    if (__scan_on()) abort();
    va_end(__scan.arguments);
    return __scan.assigned;
}
