/* The ends of a run. */
#include <stdlib.h>
#include <unistd.h>
#include "plug.h"

/* Beside the words of the tests that fit puts in, 0001LLLL to 0005LLLL. */
#define ABORTED 0x00060000

#define MOST 64

/* What is to be called at the end: of atexit, or, with its object, of C++'s. */
struct {
    void (*function)(void *);
    void *object;
} __exit_told[MOST];
static unsigned count;
/* None as long as nobody has told of a function: such a program has no call through a pointer for it. cc looks whether
   this name or the list's is left in a program, and has main's return call exit then: a compiler that runs C++'s
   constructors by itself leaves the list alone. */
void (*__exit_functions)(void);

/* (a function may tell of further ones, which run next) */
static void run_all(void) {
    while (count > 0) {
        count--;
        void (*function)(void *) = __exit_told[count].function;
        if (function) function(__exit_told[count].object); /* (so that no call is left where nobody tells of one) */
    }
}

/* C++'s: what ends a static object. */
int __cxa_atexit(void (*function)(void *), void *object, void *of) {
    (void)of;
    if (count == MOST) return -1;
    __exit_told[count].function = function;
    __exit_told[count++].object = object;
    __exit_functions = run_all;
    return 0;
}

int atexit(void (*function)(void)) { return __cxa_atexit((void (*)(void *))function, NULL, NULL); }

void _Exit(int status) {
    quit(status);
    __builtin_unreachable();
}

/* (POSIX's other name of it, here since gcc, which knows the name, asks no archive for it) */
void _exit(int status) { _Exit(status); }

void exit(int status) {
    if (__exit_functions) __exit_functions();
    _Exit(status);
}

void abort(void) { _Exit(ABORTED); }
