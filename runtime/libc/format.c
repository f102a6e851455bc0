/* printf's format: everything but the conversions of doubles. */
#include <ctype.h>
#include <limits.h>
#include <stdint.h>
#include <stdlib.h>
#include <string.h>
#include "print.h"

struct sink __sink;
struct conversion __asked;
va_list __print_arguments;

void __sink_to(FILE *stream, char *to, size_t room) {
    __sink.stream = stream;
    __sink.to = to;
    __sink.room = room;
    __sink.count = 0;
}

/* How many of so many bytes have room in memory. */
static size_t stored(size_t size) {
    size_t room = __sink.count < __sink.room ? __sink.room - __sink.count : 0;
    return size < room ? size : room;
}

void __sink_bytes(const char *from, size_t size) {
    if (__sink.stream) {
        fwrite(from, 1, size, __sink.stream);
    } else {
        size_t kept = stored(size);
        if (kept) memcpy(__sink.to + __sink.count, from, kept);
    }
    __sink.count += size;
}

void __sink_repeated(char c, size_t count) {
    for (; count > 0; count--) __sink_bytes(&c, 1);
}

/* How many bytes bring size to the width. */
static size_t fill_of(size_t size) {
    return (size_t)__asked.width > size ? (size_t)__asked.width - size : 0;
}

void __print_head(struct prefix prefix, size_t zeros,
                  size_t size) {
    if (__asked.width && !(__asked.flags & LEFT)) {
        size_t fill = fill_of(prefix.size + zeros + size);
        if (__asked.flags & ZEROS) zeros += fill;
        else __sink_repeated(' ', fill);
    }
    if (prefix.size) __sink_bytes(prefix.text, prefix.size);
    __sink_repeated('0', zeros);
}

void __print_tail(struct prefix prefix, size_t size) {
    if (__asked.flags & LEFT) __sink_repeated(' ', fill_of(prefix.size + size));
}

struct prefix __sign_of(int is_minus) {
    struct prefix prefix = {"-", 1};
    if (is_minus) return prefix;
    prefix.text = __asked.flags & PLUS ? "+" : " ";
    prefix.size = (__asked.flags & (PLUS | BLANK)) != 0;
    return prefix;
}

static void print_text(const char *text, size_t size) {
    size_t fill = fill_of(size);
    if (!(__asked.flags & LEFT)) __sink_repeated(' ', fill);
    __sink_bytes(text, size);
    if (__asked.flags & LEFT) __sink_repeated(' ', fill);
}

static void print_string(const char *text) {
    static const char none[] = "(null)";
    size_t size = 0, most = __asked.precision < 0 ? (size_t)-1 : (size_t)__asked.precision;
    if (!text) text = most < sizeof none - 1 ? "" : none;
    while (size < most && text[size]) size++;
    print_text(text, size);
}

/* number /= 10,000 by 16 bits a step, since there is no division of 64 bits; what is left over. */
static unsigned divided(uint64_t *number) {
    unsigned high = (unsigned)(*number >> 32), low = (unsigned)*number;
    unsigned second = (high >> 16) % 10000 << 16 | (high & 0xFFFF), third = second % 10000 << 16 | low >> 16;
    unsigned last = third % 10000 << 16 | (low & 0xFFFF);
    high = (high >> 16) / 10000 << 16 | second / 10000;
    low = third / 10000 << 16 | last / 10000;
    *number = (uint64_t)high << 32 | low;
    return last % 10000;
}

/* (22 digits to the base 8) */
#define MOST_DIGITS 24

/* Writes the digits of a number at the end of the room for them; where the first one is. There is none of 0. */
static unsigned decimal_digits(char digits[MOST_DIGITS], uint64_t number) {
    unsigned at = MOST_DIGITS;
    while (number >> 32) {
        unsigned four = divided(&number);
        for (int i = 0; i < 4; i++, four /= 10) digits[--at] = (char)('0' + four % 10);
    }
    for (unsigned left = (unsigned)number; left > 0; left /= 10) digits[--at] = (char)('0' + left % 10);
    return at;
}

/* To the base 8 or 16. */
static unsigned binary_digits(char digits[MOST_DIGITS], uint64_t number, unsigned shift, char letter_a) {
    unsigned at = MOST_DIGITS;
    for (; number > 0; number >>= shift) {
        unsigned digit = (unsigned)number & ((1U << shift) - 1);
        digits[--at] = (char)(digit < 10 ? '0' + digit : letter_a + digit - 10);
    }
    return at;
}

static void print_number(struct prefix prefix, uint64_t number) {
    char digits[MOST_DIGITS], letter = __asked.letter;
    unsigned first;
    if (letter == 'd' || letter == 'i' || letter == 'u') first = decimal_digits(digits, number);
    else if (letter == 'o') first = binary_digits(digits, number, 3, 'a');
    else first = binary_digits(digits, number, 4, letter == 'X' ? 'A' : 'a');
    size_t size = MOST_DIGITS - first, wanted = 1;
    if (__asked.precision >= 0) {
        wanted = (size_t)__asked.precision;
        __asked.flags &= ~(unsigned)ZEROS;
    }
    if (letter == 'o' && __asked.flags & OTHER && wanted <= size) wanted = size + 1;
    size_t zeros = wanted > size ? wanted - size : 0;
    __print_head(prefix, zeros, size);
    __sink_bytes(digits + first, size);
    __print_tail(prefix, zeros + size);
}

/* Whether an integer of that length has 64 bits. */
static int is_wide(char length) {
    if (length == 'q' || length == 'j') return 1;
    return sizeof(long) == sizeof(long long) && (length == 'l' || length == 'z' || length == 't');
}

/* The next argument as its length has it: of 64 bits, or of 32 and fewer, whatever its type is called. */
static uintmax_t argument(int is_signed) {
    char length = __asked.length;
    if (is_wide(length)) return va_arg(__print_arguments, unsigned long long);
    unsigned word = va_arg(__print_arguments, unsigned);
    if (length == 'h') word = is_signed ? (unsigned)(short)word : (unsigned short)word;
    if (length == 'H') word = is_signed ? (unsigned)(signed char)word : (unsigned char)word;
    return is_signed ? (uintmax_t)(int)word : word;
}

static void print_signed(void) {
    intmax_t number = (intmax_t)argument(1);
    print_number(__sign_of(number < 0), number < 0 ? -(uintmax_t)number : (uintmax_t)number);
}

static void print_unsigned(void) {
    uintmax_t number = argument(0);
    struct prefix prefix = {__asked.letter == 'X' ? "0X" : "0x", 0};
    if (__asked.flags & OTHER && number != 0 && (__asked.letter | 32) == 'x') prefix.size = 2;
    print_number(prefix, number);
}

static void print_pointer(void) {
    struct prefix prefix = {"0x", 2};
    uintptr_t address = (uintptr_t)va_arg(__print_arguments, void *);
    if (address) print_number(prefix, address);
    else print_text("(nil)", 5);
}

static void store_count(void) {
    size_t count = __sink.count;
    char length = __asked.length;
    void *to = va_arg(__print_arguments, void *);
    if (is_wide(length)) *(long long *)to = (long long)count;
    else if (length == 'h') *(short *)to = (short)count;
    else if (length == 'H') *(signed char *)to = (signed char)count;
    else *(int *)to = (int)count;
}

static unsigned flag_of(char c) {
    switch (c) {
    case '-': return LEFT;
    case '+': return PLUS;
    case ' ': return BLANK;
    case '#': return OTHER;
    case '0': return ZEROS;
    default: return 0;
    }
}

/* A width or a precision: digits, or * for an argument. */
static const char *read_size(const char *at, int *size) {
    if (*at == '*') {
        *size = va_arg(__print_arguments, int);
        return at + 1;
    }
    for (*size = 0; isdigit((unsigned char)*at); at++) {
        int digit = *at - '0';
        *size = *size > (INT_MAX - digit) / 10 ? INT_MAX : *size * 10 + digit;
    }
    return at;
}

/* Flags, width and precision, which most conversions haven't got. */
static const char *read_modifiers(const char *at) {
    for (unsigned flag; (flag = flag_of(*at)) != 0; at++) __asked.flags |= flag;
    at = read_size(at, &__asked.width);
    if (__asked.width < 0) {
        __asked.flags |= LEFT;
        __asked.width = __asked.width == INT_MIN ? INT_MAX : -__asked.width;
    }
    if (*at == '.') {
        at = read_size(at + 1, &__asked.precision);
        if (__asked.precision < 0) __asked.precision = -1;
    }
    if (__asked.flags & LEFT) __asked.flags &= ~(unsigned)ZEROS;
    return at;
}

static int is_length(char c) { return c == 'h' || c == 'l' || c == 'j' || c == 'z' || c == 't' || c == 'L'; }

static const char *read_length(const char *at) {
    __asked.length = *at++;
    if (*at != __asked.length || (*at != 'h' && *at != 'l')) return at;
    __asked.length = *at == 'h' ? 'H' : 'q';
    return at + 1;
}

/* Reads a conversion behind its sign, its letter among it; what follows. */
static const char *read_conversion(const char *at) {
    char c = *at;
    __asked.flags = 0;
    __asked.width = 0;
    __asked.precision = -1;
    __asked.length = 0;
    if (!isalpha((unsigned char)c)) {
        at = read_modifiers(at);
        c = *at;
    }
    if (is_length(c)) {
        at = read_length(at);
        c = *at;
    }
    __asked.letter = c;
    return c ? at + 1 : at;
}

/* What isn't a conversion is put out as it stands; what is one elsewhere, and isn't known here, ends the run. */
static void print_unknown(const char *from, const char *end) {
    if (__asked.letter == '$') abort();
    __sink_bytes(from, (size_t)(end - from));
}

/* %s and %c; no characters of several bytes. */
static void print_characters(void) {
    if (__asked.length == 'l') abort();
    if (__asked.letter == 's') {
        print_string(va_arg(__print_arguments, const char *));
    } else {
        char one = (char)va_arg(__print_arguments, int);
        print_text(&one, 1);
    }
}

static void print_converted(const char *from, const char *end) {
    char letter = __asked.letter;
    if (letter == 'd' || letter == 'i') print_signed();
    else if (letter == 's' || letter == 'c') print_characters();
    else if (letter == 'u' || letter == 'x' || letter == 'X' || letter == 'o') print_unsigned();
    else if (letter == 'p') print_pointer();
    else if (letter == 'n') store_count();
    else if (letter == '%') __sink_bytes("%", 1);
    else print_unknown(from, end);
}

static int is_of_double(char letter) {
    letter |= 32;
    return letter == 'a' || letter == 'e' || letter == 'f' || letter == 'g';
}

const char *__print_on(const char *at) {
    for (;;) {
        const char *from = at;
        while (*at && *at != '%') at++;
        if (at != from) __sink_bytes(from, (size_t)(at - from));
        if (!*at) return NULL;
        from = at;
        at = read_conversion(at + 1);
        if (is_of_double(__asked.letter)) return at;
        print_converted(from, at);
    }
}

void __print_whole(const char *format, va_list arguments) {
    va_copy(__print_arguments, arguments);
    if (__print_on(format)) abort();
    va_end(__print_arguments);
}
