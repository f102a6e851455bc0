/* The standard's, but what asks for an operating system or for characters of several bytes: there is no system, and
   no mblen and kin. The heap is an array of GEYSERPAN_ARENA bytes, 65,536 where the library is compiled without
   another number. */
#ifndef GEYSERPAN_STDLIB_H
#define GEYSERPAN_STDLIB_H

#include <stddef.h>

#ifdef __cplusplus
extern "C" {
#endif

#define EXIT_SUCCESS 0
#define EXIT_FAILURE 1
#define RAND_MAX 32767
#define MB_CUR_MAX 1

typedef struct { int quot, rem; } div_t;
typedef struct { long quot, rem; } ldiv_t;
typedef struct { long long quot, rem; } lldiv_t;

/* A size of 0 gives a block, too. Where there is no room they return NULL, and errno is ENOMEM. Each block lies at a
   multiple of 8. What free or realloc is given that isn't a block in use ends the run as abort does. */
void *malloc(size_t) __attribute__((__malloc__));
void *calloc(size_t, size_t) __attribute__((__malloc__));
void *realloc(void *, size_t);
void free(void *);
void *reallocarray(void *, size_t, size_t);
/* They take up to the alignment, a power of 2, in bytes beside the block. */
void *aligned_alloc(size_t, size_t);
int posix_memalign(void **, size_t, size_t);

/* The exit word is the status; what atexit has been told of runs before, the last one first. A program that returns
   from main without a call of exit runs it only where its start calls exit(main()). */
void exit(int) __attribute__((__noreturn__));
void _Exit(int) __attribute__((__noreturn__));
/* The exit word is 00060000. */
void abort(void) __attribute__((__noreturn__));
/* Up to 64 functions. */
int atexit(void (*)(void));
/* There is no environment: NULL for each name. */
char *getenv(const char *);

int abs(int);
long labs(long);
long long llabs(long long);
div_t div(int, int);
ldiv_t ldiv(long, long);
lldiv_t lldiv(long long, long long);

int atoi(const char *);
long atol(const char *);
long long atoll(const char *);
long strtol(const char *, char **, int);
unsigned long strtoul(const char *, char **, int);
long long strtoll(const char *, char **, int);
unsigned long long strtoull(const char *, char **, int);

/* Rounded to nearest, whatever the number of digits. */
double atof(const char *);
double strtod(const char *, char **);
float strtof(const char *, char **);
long double strtold(const char *, char **);

/* The standard's example of a generator, so that each seed gives the same numbers everywhere. */
int rand(void);
void srand(unsigned);
int rand_r(unsigned *);
/* Of POSIX, with 31 bits: three numbers of rand's. */
long random(void);
void srandom(unsigned);

/* By heapsort: in place, n log n comparisons at worst, and elements that are equal in no order. */
void qsort(void *, size_t, size_t, int (*)(const void *, const void *));
void *bsearch(const void *, const void *, size_t, size_t, int (*)(const void *, const void *));

#ifdef __cplusplus
}
#endif

#endif
