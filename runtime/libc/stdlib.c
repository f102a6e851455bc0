/* Of stdlib.h what is a line or two. */
#include <stdlib.h>

int abs(int number) { return number < 0 ? -number : number; }
long labs(long number) { return number < 0 ? -number : number; }
long long llabs(long long number) { return number < 0 ? -number : number; }

div_t div(int number, int by) {
    div_t both = {number / by, number % by};
    return both;
}

ldiv_t ldiv(long number, long by) {
    ldiv_t both = {number / by, number % by};
    return both;
}

lldiv_t lldiv(long long number, long long by) {
    lldiv_t both = {number / by, 0};
    both.rem = number - both.quot * by; /* (a division of 64 bits costs more than a product) */
    return both;
}

static unsigned state = 1;

void srand(unsigned seed) { state = seed; }

int rand_r(unsigned *seed) {
    *seed = *seed * 1103515245 + 12345;
    return (int)(*seed >> 16 & RAND_MAX);
}

int rand(void) { return rand_r(&state); }

void srandom(unsigned seed) { srand(seed); }

long random(void) {
    long high = rand(), middle = rand();
    return high << 16 | middle << 1 | (rand() & 1);
}

char *getenv(const char *name) {
    (void)name;
    return NULL;
}
