/* Cases that compute one thing twice: by the library under test, whose names begin with gp_, and by another one that
   is believed.

   Compiled natively, both are in one program, and each case compares. What can't stand in one program with another
   library, since it is another machine's, is compiled with OURS, and the other library alone with THEIRS: each prints
   a digest of its results, and these are compared. The cases are the same, since they come from a generator of their
   own. */
#ifndef BESIDE_H
#define BESIDE_H

#include <stddef.h>
#include <stdint.h>
#include "ours.h"

#ifndef CASES
#define CASES 100000
#endif
#ifndef SEED
#define SEED 1
#endif

struct test {
    const char *name;
    void (*run)(void);
    long cases;
};

#ifdef OURS
#define SAME(ours, theirs) note((uint64_t)(ours))
#elif defined THEIRS
#define SAME(ours, theirs) note((uint64_t)(theirs))
#else
#define SAME(ours, theirs) judge((uint64_t)(ours), (uint64_t)(theirs), __FILE__, __LINE__)
#endif

/* Runs one of both, or both; or one alone where it takes part. */
#ifdef OURS
#define BOTH(ours, theirs) (ours)
#elif defined THEIRS
#define BOTH(ours, theirs) (theirs)
#else
#define BOTH(ours, theirs) ((ours), (theirs))
#endif
#ifdef OURS
#define OF_THEIRS(what) ((void)0)
#else
#define OF_THEIRS(what) (what)
#endif
#ifdef THEIRS
#define OF_OURS(what) ((void)0)
#else
#define OF_OURS(what) (what)
#endif

void judge(uint64_t ours, uint64_t theirs, const char *file, int line);
void note(uint64_t result);
uint64_t hash(const void *from, size_t size);

/* Random: 64 bits, a number below another one, and a number of 64 bits that begins with up to so many zeros. (No two
   of these calls may stand in one expression or in one call's arguments, whose order C leaves open.) */
uint64_t random_bits(void);
unsigned below(unsigned end);
uint64_t some_bits(unsigned zeros);
/* The number of the case at hand. */
extern long case_number;

/* Memory for the case at hand, of exactly this size. */
void *fresh(size_t size);
/* A text of up to so many bytes out of a few, or out of all but 0. */
char *random_text(unsigned most);

uint64_t bits(double x);
uint64_t float_bits(float x);
/* Numbers of all kinds: edges, few bits, near each other, small whole ones, any bits. */
double random_double(void);
float random_float(void);
#define EDGES 58
double edge(unsigned which);

/* What the services take and give. */
extern const unsigned char *input;
extern size_t input_left, output_size;
extern unsigned char output[];
/* Runs a function that calls quit; the word. */
int quit_word(void (*function)(void));

extern const struct test text_tests[], number_tests[], memory_tests[], print_tests[], double_text_tests[],
    scan_tests[], soft_tests[], math_tests[];

#endif
