/* getline and getdelim: lines of any length, in a block that grows. */
#include <stdlib.h>
#include "stream.h"

/* Room for so many bytes, by doubling; 0 where there is none. */
static int has_room(char **line, size_t *room, size_t wanted) {
    if (*line && *room >= wanted) return 1;
    size_t more = *line ? *room : 0;
    if (more < 60) more = 60;
    while (more < wanted) more *= 2;
    char *grown = realloc(*line, more);
    if (!grown) grown = realloc(*line, more = wanted);
    if (!grown) return 0;
    *line = grown;
    *room = more;
    return 1;
}

ssize_t getdelim(char **line, size_t *room, int end, FILE *stream) {
    size_t size = 0;
    int c = EOF;
    if (!line || !room) {
        errno = EINVAL;
        return -1;
    }
    do {
        if (!has_room(line, room, size + 2)) {
            stream->has_failed = 1;
            return -1;
        }
        c = next_byte(stream);
        if (c < 0) break;
        (*line)[size++] = (char)c;
    } while (c != (unsigned char)end);
    (*line)[size] = 0;
    return size ? (ssize_t)size : -1;
}

ssize_t getline(char **line, size_t *room, FILE *stream) { return getdelim(line, room, '\n', stream); }
