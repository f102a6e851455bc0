/* scanf's parts: where the text comes from, and the state between two conversions of doubles. */
#ifndef GEYSERPAN_SCAN_H
#define GEYSERPAN_SCAN_H

#include <stdarg.h>
#include <stddef.h>
#include "stream.h"

/* The state of the one call that is running: it stands in a variable, and not behind a pointer, so that no access to
   it has to be tested. */
struct scan {
    FILE *stream;     /* or none, where the text is in memory: */
    const char *text; /* what is left of it */
    size_t count;     /* bytes taken so far */
    const char *at;   /* what is left of the format */
    va_list arguments;
    int assigned;
    /* of the conversion at hand */
    int is_kept, left;   /* is it assigned; how many bytes more it may have */
    char length, letter; /* 'H' is hh, and 'q' is ll */
};

extern struct scan __scan;

/* How a conversion ended: as asked; the text says something else; or there is no more text. */
enum outcome { MATCHED, FAILED, ENDED };

/* The next byte of the text, or EOF. What was taken too much, one byte, is given back. */
static inline int take(void) {
    int c = __scan.stream ? next_byte(__scan.stream) : *__scan.text ? (unsigned char)*__scan.text++ : EOF;
    if (c >= 0) __scan.count++;
    return c;
}

static inline void give_back(int c) {
    if (c < 0) return;
    __scan.count--;
    if (__scan.stream) __scan.stream->pushed = c;
    else __scan.text--;
}

/* The next byte of a conversion, or EOF where it has all that it may have. */
static inline int take_of_field(void) {
    if (__scan.left == 0) return EOF;
    int c = take();
    if (c >= 0) __scan.left--;
    return c;
}

void __scan_begin(FILE *stream, const char *text, const char *format, va_list arguments);
/* Goes through the format up to its end, and returns 0; or up to a conversion of a double, and returns 1. */
int __scan_on(void);
/* Notes how a conversion ended, and whether to go on. */
int __scan_settle(enum outcome outcome);
enum outcome __scan_double(void);

int __scan_whole(FILE *stream, const char *text, const char *format, va_list arguments);
int __scan_any(FILE *stream, const char *text, const char *format, va_list arguments);

#endif
