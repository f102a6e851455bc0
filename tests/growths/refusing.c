/* Stands before the C library in a process: refuses one growth of memory, or lets one read or write of a file fail. Which one it is,
   REFUSED says, as `growth 7`, `read 2`, `write 1` or `error 1`, a write to standard error; the counts of all that were asked for go
   to the file COUNTS, which has room for them. the suite growths builds and uses it. */
#include <errno.h>
#include <fcntl.h>
#include <stdio.h>
#include <stdlib.h>
#include <string.h>
#include <sys/mman.h>
#include <sys/syscall.h>
#include <unistd.h>

enum { GROWTH, READ, WRITE, ERROR, KINDS };

static const char *const NAMES[KINDS] = {"growth", "read", "write", "error"};

static long unseen[KINDS];
static volatile long *counts = unseen;
static long refused[KINDS];

extern void *__libc_malloc(size_t size);
extern void *__libc_realloc(void *old, size_t size);

__attribute__((constructor)) static void begin(void) {
    const char *which = getenv("REFUSED"), *path = getenv("COUNTS");
    for (int kind = 0; which && kind < KINDS; kind++) {
        size_t length = strlen(NAMES[kind]);
        if (!strncmp(which, NAMES[kind], length) && which[length] == ' ') refused[kind] = strtol(which + length, NULL, 10);
    }
    int file = path ? open(path, O_RDWR) : -1;
    if (file < 0) return;
    void *seen = mmap(NULL, sizeof unseen, PROT_READ | PROT_WRITE, MAP_SHARED, file, 0);
    close(file);
    if (seen != MAP_FAILED) counts = seen;
}

/* Counts one that is asked for, and says whether it is the one to be refused. */
static int is_refused(int kind) { return ++counts[kind] == refused[kind]; }

void *malloc(size_t size) {
    if (!is_refused(GROWTH)) return __libc_malloc(size);
    errno = ENOMEM;
    return NULL;
}

void *realloc(void *old, size_t size) {
    if (!is_refused(GROWTH)) return __libc_realloc(old, size);
    errno = ENOMEM;
    return NULL;
}

ssize_t read(int file, void *to, size_t count) {
    if (!is_refused(READ)) return syscall(SYS_read, file, to, count);
    errno = EIO;
    return -1;
}

ssize_t write(int file, const void *from, size_t count) {
    if (!is_refused(file == STDERR_FILENO ? ERROR : WRITE)) return syscall(SYS_write, file, from, count);
    errno = EIO;
    return -1;
}

ssize_t __read(int file, void *to, size_t count) { return read(file, to, count); }

ssize_t __write(int file, const void *from, size_t count) { return write(file, from, count); }
