/* printf's parts: where the text goes, what is asked of a conversion, and the state between two conversions of
   doubles. */
#ifndef GEYSERPAN_PRINT_H
#define GEYSERPAN_PRINT_H

#include <stdarg.h>
#include <stddef.h>
#include "stream.h"

/* The state of the one call that is running stands in variables, and not behind pointers: their addresses are known, so
   that no access to them has to be tested. */

/* Where the text goes: to a stream, or where that is none to memory: room bytes may be written there. All that would
   have been put out are counted. */
struct sink {
    FILE *stream;
    char *to;
    size_t room, count;
};

extern struct sink __sink;

void __sink_to(FILE *stream, char *to, size_t room);
void __sink_bytes(const char *from, size_t size);
void __sink_repeated(char c, size_t count);

enum flag { LEFT = 1, PLUS = 2, BLANK = 4, OTHER = 8, ZEROS = 16 };

/* What is asked of the conversion at hand. 'H' is hh, and 'q' is ll. */
struct conversion {
    unsigned flags;
    int width, precision; /* (no precision is -1) */
    char length, letter;
};

extern struct conversion __asked;

/* What is left of the arguments. */
extern va_list __print_arguments;

/* What stands before the digits of a number: a sign, 0x, both, or nothing. */
struct prefix {
    const char *text;
    size_t size;
};

/* Goes through the format from there on up to its end, and returns NULL; or up to a conversion of a double, and returns
   what follows it. So the functions that print no doubles have no reference to the ones that do. */
const char *__print_on(const char *at);
/* Prints a double by what is asked. */
void __print_double(double number);
/* What stands before the so many bytes of a number, and behind them, so that all has the width: blanks, prefix, and
   zeros. */
void __print_head(struct prefix prefix, size_t zeros, size_t size);
void __print_tail(struct prefix prefix, size_t size);
/* The sign, or what the flags ask for in its place. */
struct prefix __sign_of(int is_minus);

/* Both print to the sink. */
void __print_whole(const char *format, va_list arguments);
void __print_any(const char *format, va_list arguments);

#endif
