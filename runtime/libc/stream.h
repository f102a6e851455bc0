/* What a stream is: one of three, and what has become of it. */
#ifndef GEYSERPAN_STREAM_H
#define GEYSERPAN_STREAM_H

#include <errno.h>
#include <stdio.h>
#include "plug.h"

enum kind { OUTPUT, NOWHERE, INPUT, CLOSED };

struct __stream {
    enum kind kind;
    int pushed; /* the byte that ungetc has pushed back, or EOF */
    int is_ended, has_failed;
};

/* Puts a byte where the stream goes; EOF, and the error is noted, where it is read from, or closed. */
static inline int put_byte(FILE *stream, int c) {
    if (stream->kind >= INPUT) {
        stream->has_failed = 1;
        errno = EBADF;
        return EOF;
    }
    if (stream->kind == OUTPUT) put(c);
    return (unsigned char)c;
}

/* The next byte of a stream, or EOF, and that is noted. */
static inline int next_byte(FILE *stream) {
    int c = stream->pushed;
    if (c >= 0) {
        stream->pushed = EOF;
        return c;
    }
    if (stream->kind != INPUT) {
        stream->has_failed = 1;
        errno = EBADF;
        return EOF;
    }
    c = get();
    if (c < 0) stream->is_ended = 1;
    return c;
}

#endif
