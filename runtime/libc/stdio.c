/* Bytes and lines of streams. */
#include <string.h>
#include "stream.h"

FILE __stdin = {INPUT, EOF, 0, 0}, __stdout = {OUTPUT, EOF, 0, 0}, __stderr = {NOWHERE, EOF, 0, 0};

/* (it would go to stderr) */
void perror(const char *text) { (void)text; }

int fgetc(FILE *stream) { return next_byte(stream); }
int getc(FILE *stream) { return next_byte(stream); }
int getchar(void) { return next_byte(stdin); }

int ungetc(int c, FILE *stream) {
    if (c == EOF || stream->pushed != EOF || stream->kind != INPUT) return EOF;
    stream->pushed = (unsigned char)c;
    stream->is_ended = 0;
    return (unsigned char)c;
}

char *fgets(char *to, int size, FILE *stream) {
    int i = 0, c = 0;
    while (i < size - 1 && c != '\n') {
        c = next_byte(stream);
        if (c < 0) break;
        to[i++] = (char)c;
    }
    if (size < 1 || (i == 0 && c < 0)) return NULL;
    to[i] = 0;
    return to;
}

size_t fread(void *to, size_t size, size_t count, FILE *stream) {
    size_t all = size * count, i = 0;
    for (; i < all; i++) {
        int c = next_byte(stream);
        if (c < 0) return i / size;
        ((unsigned char *)to)[i] = (unsigned char)c;
    }
    return all ? count : 0;
}

int fputc(int c, FILE *stream) { return put_byte(stream, c); }
int putc(int c, FILE *stream) { return put_byte(stream, c); }

int putchar(int c) {
    put(c);
    return (unsigned char)c;
}

/* (the kind is looked at once: whole texts come here) */
size_t fwrite(const void *from, size_t size, size_t count, FILE *stream) {
    const unsigned char *at = from, *end = at + size * count;
    if (stream->kind == OUTPUT)
        for (; at != end; at++) put(*at);
    else if (stream->kind != NOWHERE && at != end && put_byte(stream, *at) == EOF) return 0;
    return size ? count : 0;
}

int fputs(const char *text, FILE *stream) {
    size_t size = strlen(text);
    return fwrite(text, 1, size, stream) == size ? 0 : EOF;
}

int puts(const char *text) {
    fputs(text, stdout);
    put('\n');
    return 0;
}

int feof(FILE *stream) { return stream->is_ended; }
int ferror(FILE *stream) { return stream->has_failed; }

void clearerr(FILE *stream) { stream->is_ended = stream->has_failed = 0; }

int fflush(FILE *stream) {
    (void)stream;
    return 0;
}

int setvbuf(FILE *stream, char *buffer, int mode, size_t size) {
    (void)stream, (void)buffer, (void)size;
    return mode == _IOFBF || mode == _IOLBF || mode == _IONBF ? 0 : -1;
}

void setbuf(FILE *stream, char *buffer) { (void)stream, (void)buffer; }
void setlinebuf(FILE *stream) { (void)stream; }

int fileno(FILE *stream) {
    switch (stream->kind) {
    case INPUT: return 0;
    case OUTPUT: return 1;
    case NOWHERE: return 2;
    default: errno = EBADF; return -1;
    }
}
