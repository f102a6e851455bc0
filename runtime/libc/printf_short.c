/* printf and fprintf of formats that ask for little: %d %i %u %x %X %o %c %s and %%, with a width, - and 0, of words of
   32 bits. bits/whole.h tells who calls them. One loop goes through the format and its conversions, so that there is
   one load of each kind to be tested. */
#define GEYSERPAN_LIBRARY
#include <stdint.h>
#include <string.h>
#include "print.h"

/* (a sign and 11 digits of base 8) */
#define MOST 12

struct field {
    unsigned width, is_left, fill;
};

static char digits[MOST];

/* Writes a number's digits up to the end of the array; returns where they begin. */
static unsigned digits_of(unsigned number, unsigned letter) {
    unsigned at = MOST, base = letter == 'x' || letter == 'X' ? 16 : letter == 'o' ? 8 : 10;
    do {
        unsigned rest = base == 10 ? number % 10 : number & (base - 1);
        digits[--at] = (char)(rest < 10 ? '0' + rest : (letter & 32 ? 'a' : 'A') + rest - 10);
        number = base == 10 ? number / 10 : number >> (base == 16 ? 4 : 3);
    } while (number && at > 1);
    return at;
}

static unsigned padding_of(const struct field *field, unsigned size) {
    return field->width > size ? field->width - size : 0;
}

static void put_times(int is_heard, unsigned c, unsigned count) {
    for (; count && is_heard; count--) put((int)c);
}

static unsigned put_text(int is_heard, const struct field *field, const char *text) {
    unsigned size = (unsigned)strlen(text), padding = padding_of(field, size);
    if (!field->is_left) put_times(is_heard, ' ', padding);
    for (unsigned left = size; left && is_heard; left--) put(*text++);
    if (field->is_left) put_times(is_heard, ' ', padding);
    return size + padding;
}

/* (the digits are put out by their places, which are known to lie in the array) */
static unsigned put_digits(int is_heard, const struct field *field, unsigned at) {
    unsigned padding = padding_of(field, MOST - at), count = padding + MOST - at;
    if (padding && !field->is_left) put_times(is_heard, field->fill, padding);
    for (; at < MOST && is_heard; at++) put(digits[at]);
    if (padding && field->is_left) put_times(is_heard, ' ', padding);
    return count;
}

static unsigned put_number(int is_heard, struct field *field, unsigned number, unsigned letter) {
    int is_minus = (letter == 'd' || letter == 'i') && (int)number < 0;
    unsigned at = digits_of(is_minus ? -number : number, letter), before = 0;
    if (is_minus && field->fill == '0' && !field->is_left) {
        if (is_heard) put('-');
        if (field->width) field->width--;
        before = 1;
    } else if (is_minus) {
        digits[--at] = '-';
    }
    return before + put_digits(is_heard, field, at);
}

static unsigned put_converted(int is_heard, struct field *field, uintptr_t word, unsigned letter) {
    if (letter == 's') return put_text(is_heard, field, word ? (const char *)word : "(null)");
    if (letter != 'c') return put_number(is_heard, field, (unsigned)word, letter);
    digits[MOST - 1] = (char)word;
    field->fill = ' ';
    return put_digits(is_heard, field, MOST - 1);
}

/* (an int and a pointer are alike where this is for, and not where it is tried) */
#define NEXT(arguments, letter) \
    (sizeof(void *) == sizeof(unsigned) || (letter) == 's' ? va_arg(arguments, uintptr_t) : va_arg(arguments, unsigned))

/* Takes a flag, a digit of the width or a length; 0 where the letter is the conversion's own. */
static int takes(struct field *field, unsigned letter) {
    if (letter == '-') field->is_left = 1;
    else if (letter == '0' && !field->width) field->fill = '0';
    else if (letter - '0' < 10) field->width = field->width * 10 + letter - '0';
    else return letter == 'l' || letter == 'z' || letter == 't';
    return 1;
}

static int print_short(int is_heard, const char *format, va_list arguments) {
    struct field field = {0, 0, ' '};
    unsigned count = 0, is_inside = 0;
    for (unsigned letter; (letter = (unsigned char)*format++) != 0;) {
        if (is_inside && takes(&field, letter)) continue;
        if (is_inside == (letter == '%')) {
            if (is_heard) put((int)letter);
            count++;
            is_inside = 0;
        } else if (!is_inside) {
            field = (struct field){0, 0, ' '};
            is_inside = 1;
        } else {
            count += put_converted(is_heard, &field, NEXT(arguments, letter), letter);
            is_inside = 0;
        }
    }
    return (int)count;
}

int __printf_short(const char *format, ...) {
    va_list arguments;
    va_start(arguments, format);
    int count = print_short(1, format, arguments);
    va_end(arguments);
    return count;
}

int __fprintf_short(FILE *stream, const char *format, ...) {
    va_list arguments;
    if (stream->kind >= INPUT) return put_byte(stream, 0);
    va_start(arguments, format);
    int count = print_short(stream->kind == OUTPUT, format, arguments);
    va_end(arguments);
    return count;
}
