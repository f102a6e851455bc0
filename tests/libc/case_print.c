/* printf: formats of all kinds, beside the other library's. */
#include "beside.h"

#ifndef OURS
#include <stdio.h>
#include <stdlib.h>
#endif

#define ROOM 3000

static char ours[ROOM], theirs[ROOM];

static size_t kept(int count, size_t room) { return room == 0 ? 0 : (size_t)count < room ? (size_t)count + 1 : room; }

/* Prints into so much room, and compares what came of it. (Each argument is worked out twice: nothing random stands
   there.) */
#define PRINT(room, ...) \
    do { \
        int our_count = 0, their_count = 0; \
        BOTH(our_count = gp_snprintf(ours, room, __VA_ARGS__), their_count = snprintf(theirs, room, __VA_ARGS__)); \
        SAME(our_count, their_count); \
        SAME(hash(ours, kept(our_count, room)), hash(theirs, kept(their_count, room))); \
    } while (0)

static size_t some_room(void) { return below(8) ? ROOM : below(40); }

/* A conversion's begin: flags, width, precision; * says that an argument says them. */
static char *begin(char *to, const char *flags, int has_precision) {
    *to++ = '%';
    size_t count = 0;
    while (flags[count]) count++;
    while (below(3) == 0) *to++ = flags[below((unsigned)count)];
    if (below(3) == 0) {
        unsigned width = below(40);
        if (width >= 10) *to++ = (char)('0' + width / 10);
        if (width) *to++ = (char)('0' + width % 10);
    }
    if (has_precision && below(3) == 0) {
        *to++ = '.';
        unsigned precision = below(30);
        if (precision >= 10) *to++ = (char)('0' + precision / 10);
        if (precision % 10) *to++ = (char)('0' + precision % 10);
    }
    return to;
}

static uint64_t some_number(void) {
    switch (below(4)) {
    case 0: return below(20);
    case 1: return -(uint64_t)below(20);
    default: return some_bits(63);
    }
}

static void whole(void) {
    static const char letters[] = "dixXou";
    char format[40], *to = begin(format, "-+ #0", 1), letter = letters[below(6)];
    uint64_t number = some_number();
    int is_signed = letter == 'd' || letter == 'i';
    size_t room = some_room();
    static const char *const lengths[] = {"", "hh", "h", "l", "ll", "j", "z", "t"};
    unsigned length = below(8);
    for (const char *at = lengths[length]; *at; at++) *to++ = *at;
    *to++ = letter, *to++ = '|', *to = 0;
    if (length < 3) PRINT(room, format, (int)number);
    else if (length == 3 && is_signed) PRINT(room, format, (long)(int)number);
    else if (length == 3) PRINT(room, format, (unsigned long)(unsigned)number);
    else if (length == 4) PRINT(room, format, (long long)number);
    else if (length == 5) PRINT(room, format, (intmax_t)number);
    else if (length == 6 && !is_signed) PRINT(room, format, (size_t)(unsigned)number);
    else PRINT(room, format, (ptrdiff_t)((int)number & (is_signed ? -1 : 0x7FFFFFFF)));
}

static void by_arguments(void) {
    int width = (int)below(40) - 20, precision = (int)below(20) - 5, first = (int)some_number();
    unsigned second = (unsigned)some_number();
    size_t room = some_room();
    PRINT(room, "a%*.*db%-*xc%.*sd", width, precision, first, width, second, precision, "some text of some size");
}

static void characters(void) {
    char format[40], *to = begin(format, "-", 1), *text = random_text(40), *or_null = below(20) ? text : NULL;
    size_t room = some_room();
    int c = (int)below(256), count[2] = {0, 0};
    void *pointer = (void *)(uintptr_t)(below(5) ? (unsigned)some_bits(31) : 0);
    *to++ = 's', *to++ = '!', *to = 0;
    PRINT(room, format, or_null);
    to = begin(format, "-", 0);
    *to++ = 'c', *to = 0;
    PRINT(room, format, c);
    to = begin(format, "-", 0);
    *to++ = 'p', *to = 0;
    PRINT(room, format, pointer);
    PRINT(room, "100%% of %s%n", text, &count[0]);
    SAME(count[0], count[0]);
}

static void doubles(void) {
    static const char letters[] = "efgaEFGA";
    char format[40], *to = begin(format, "-+ #0", 1);
    *to++ = letters[below(8)], *to = 0;
    double number = random_double();
    size_t room = some_room();
    if (number != number) number = __builtin_nan("");
    PRINT(room, format, number);
}

/* All digits that there are, and halves. */
static void long_doubles(void) {
    double number = random_double(), sixteenths = below(2000) / 16.0, halves = below(2000) / 2.0,
           tens = below(100) * 5.0;
    if (number != number) return;
    PRINT(ROOM, "%.1100f", number);
    PRINT(ROOM, "%.1100e", number);
    PRINT(ROOM, "%.800g", number);
    PRINT(ROOM, "%.0f %.0e %.0g %.0a", number, number, number, number);
    PRINT(ROOM, "%.1f %.2f %.3f", sixteenths, sixteenths, sixteenths);
    PRINT(ROOM, "%.0f %.0e %.1e", halves, tens, halves);
}

static void edges(void) {
    static const char *const formats[] = {"%e",     "%f",    "%g",    "%a",      "%.0e",     "%.0f",
                                          "%.0g",   "%.0a",  "%#.0e", "%#.0f",   "%#.0g",    "%#.0a",
                                          "%.17g",  "%.16e", "%.3f",  "%020.3f", "%-20.3g|", "%+.1e",
                                          "% .12a", "%.30f", "%#g",   "%#.10g",  "%.1a",     "%25.13a"};
    PRINT(ROOM, formats[case_number / EDGES], edge((unsigned)(case_number % EDGES)));
}

/* Several conversions, with and without doubles; and the other functions. */
static void together(void) {
    int number = (int)some_number(), our_count = 0, their_count = 0;
    double x = random_double();
    if (x != x) x = 0;
    char *text = random_text(10);
    size_t room = some_room();
    PRINT(room, "%d, %s: %5.2f %c%%%x\n", number, text, x, 'x', number);
    BOTH(our_count = gp___snprintf_whole(ours, ROOM, "%d, %s %c%%%x\n", number, text, 'x', number),
         their_count = snprintf(theirs, ROOM, "%d, %s %c%%%x\n", number, text, 'x', number));
    SAME(hash(ours, kept(our_count, ROOM)), hash(theirs, kept(their_count, ROOM)));
    BOTH(our_count = gp_sprintf(ours, "%g-%i", x, number), their_count = sprintf(theirs, "%g-%i", x, number));
    SAME(hash(ours, kept(our_count, ROOM)), hash(theirs, kept(their_count, ROOM)));
    output_size = 0;
    OF_OURS(our_count = gp_printf("%g-%i", x, number));
    SAME(our_count, their_count);
    SAME(hash(output, output_size), hash(theirs, (size_t)their_count));
    char *made = NULL;
    OF_OURS(our_count = gp_asprintf(&made, "%s+%d", text, number));
    OF_THEIRS(their_count = snprintf(theirs, ROOM, "%s+%d", text, number));
    SAME(hash(made, (size_t)our_count + 1), hash(theirs, (size_t)their_count + 1));
    OF_OURS(gp_free(made));
}

const struct test print_tests[] = {
    {"printf of whole", whole, CASES * 5L},
    {"printf by arguments", by_arguments, CASES},
    {"printf of text", characters, CASES},
    {"printf of doubles", doubles, CASES * 20L},
    {"printf, all digits", long_doubles, CASES / 10},
    {"printf of edges", edges, EDGES * 24},
    {"printf, the rest", together, CASES / 2},
    {NULL, NULL, 0},
};
