/* Of unistd.h and fcntl.h what isn't refused: the two ends of a run by number, and files, of which there are none. */
#include <errno.h>
#include <fcntl.h>
#include <stdlib.h>
#include <unistd.h>
#include "plug.h"

/* (as of a file that is read without a stop: up to the end of the input) */
ssize_t read(int number, void *to, size_t size) {
    unsigned char *at = to;
    if (number != STDIN_FILENO) {
        errno = EBADF;
        return -1;
    }
    for (size_t i = 0; i < size; i++) {
        int c = get();
        if (c < 0) return (ssize_t)i;
        at[i] = (unsigned char)c;
    }
    return (ssize_t)size;
}

ssize_t write(int number, const void *from, size_t size) {
    const unsigned char *at = from;
    if (number != STDOUT_FILENO && number != STDERR_FILENO) {
        errno = EBADF;
        return -1;
    }
    for (size_t i = 0; i < size && number == STDOUT_FILENO; i++) put(at[i]);
    return (ssize_t)size;
}

int close(int number) {
    if (number >= 0 && number <= 2) return 0;
    errno = EBADF;
    return -1;
}

int isatty(int number) {
    errno = number >= 0 && number <= 2 ? ENOTTY : EBADF;
    return 0;
}

static int no_file(void) {
    errno = ENOENT;
    return -1;
}

int open(const char *name, int how, ...) {
    (void)name, (void)how;
    return no_file();
}

int creat(const char *name, mode_t mode) {
    (void)name, (void)mode;
    return no_file();
}

int access(const char *name, int how) {
    (void)name, (void)how;
    return no_file();
}

int unlink(const char *name) {
    (void)name;
    return no_file();
}

off_t lseek(int number, off_t offset, int from) {
    (void)number, (void)offset, (void)from;
    errno = ESPIPE;
    return -1;
}
