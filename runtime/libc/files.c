/* Files, of which there are none: what fails as the standard has it where a file isn't there, or a stream can't be
   moved about. */
#include "stream.h"

FILE *fopen(const char *name, const char *mode) {
    (void)name, (void)mode;
    errno = ENOENT;
    return NULL;
}

FILE *freopen(const char *name, const char *mode, FILE *stream) {
    (void)name, (void)mode, (void)stream;
    errno = ENOENT;
    return NULL;
}

FILE *tmpfile(void) {
    errno = EROFS;
    return NULL;
}

int remove(const char *name) {
    (void)name;
    errno = ENOENT;
    return -1;
}

int rename(const char *from, const char *to) {
    (void)from, (void)to;
    errno = ENOENT;
    return -1;
}

int fseek(FILE *stream, long offset, int from) {
    (void)stream, (void)offset, (void)from;
    errno = ESPIPE;
    return -1;
}

long ftell(FILE *stream) {
    (void)stream;
    errno = ESPIPE;
    return -1;
}

int fgetpos(FILE *stream, fpos_t *place) {
    (void)stream, (void)place;
    errno = ESPIPE;
    return -1;
}

int fsetpos(FILE *stream, const fpos_t *place) {
    (void)stream, (void)place;
    errno = ESPIPE;
    return -1;
}

void rewind(FILE *stream) { (void)stream; }

/* What is closed is neither read nor written any more. */
int fclose(FILE *stream) {
    stream->kind = CLOSED;
    stream->pushed = EOF;
    return 0;
}
