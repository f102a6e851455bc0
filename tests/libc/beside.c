/* Runs the cases: beside.h tells what they are. */
#include "beside.h"

#ifdef OURS
void show(const char *text);
void finish(int status) __attribute__((noreturn));
#else
#include <setjmp.h>
#include <stdio.h>
#include <stdlib.h>
static void show(const char *text) { fputs(text, stdout); }
static void finish(int status) { exit(status); }
#endif

long case_number;
static const struct test *current;
static long differences;
static uint64_t digest;
static uint64_t state;

static void show_number(uint64_t number, unsigned base) {
    char digits[24], *at = digits + sizeof digits;
    *--at = 0;
    do *--at = "0123456789abcdef"[number % base];
    while (number /= base);
    show(at);
}

void note(uint64_t result) {
    digest = (digest ^ result) * 0x9E3779B97F4A7C15ULL + (digest >> 29);
#ifdef EACH
    show(current->name), show(" case "), show_number((uint64_t)case_number, 10), show(" "), show_number(result, 16),
        show("\n");
#endif
}

void judge(uint64_t ours, uint64_t theirs, const char *file, int line) {
    if (ours == theirs) return;
    if (differences++ >= 10) return;
    show(file), show(":"), show_number((uint64_t)line, 10), show(": "), show(current->name);
    show(", case "), show_number((uint64_t)case_number, 10);
    show(": ours "), show_number(ours, 16), show(", theirs "), show_number(theirs, 16), show("\n");
}

uint64_t hash(const void *from, size_t size) {
    uint64_t sum = size;
    for (size_t i = 0; i < size; i++) sum = (sum ^ ((const unsigned char *)from)[i]) * 0x100000001B3ULL;
    return sum;
}

uint64_t random_bits(void) {
    state ^= state << 13;
    state ^= state >> 7;
    state ^= state << 17;
    return state * 0x2545F4914F6CDD1DULL;
}

unsigned below(unsigned end) { return (unsigned)((random_bits() >> 32) * end >> 32); }

uint64_t some_bits(unsigned zeros) {
    unsigned by = below(zeros + 1);
    return random_bits() >> by;
}

#ifdef OURS
static unsigned char room[1 << 18] __attribute__((aligned(16)));
static size_t taken;

void *fresh(size_t size) {
    void *memory = room + taken;
    taken += (size + 15) / 16 * 16;
    if (taken > sizeof room) finish(3);
    return memory;
}

static void release(void) { taken = 0; }
#else
static void *blocks[64];
static unsigned taken;

/* (a block of its own, so that a sanitizer sees what goes beyond it) */
void *fresh(size_t size) {
    if (taken == sizeof blocks / sizeof blocks[0]) finish(3);
    return blocks[taken++] = malloc(size ? size : 1);
}

static void release(void) {
    while (taken > 0) free(blocks[--taken]);
}
#endif

char *random_text(unsigned most) {
    static const unsigned alphabets[] = {1, 2, 4, 26, 255};
    unsigned size = below(most + 1), alphabet = alphabets[below(5)];
    char *text = fresh(size + 1);
    for (unsigned i = 0; i < size; i++) {
        char first = alphabet < 255 && below(8) ? 'a' : 'A';
        text[i] = (char)(alphabet == 255 ? 1 + below(255) : (unsigned)first + below(alphabet));
    }
    text[size] = 0;
    return text;
}

/* (no number has many kinds of bits: they are one) */
uint64_t bits(double x) {
    union {
        double number;
        uint64_t bits;
    } both = {x};
    return (both.bits << 1) > 0xFFE0000000000000ULL ? 0x7FF8000000000000ULL : both.bits;
}

uint64_t float_bits(float x) {
    union {
        float number;
        uint32_t bits;
    } both = {x};
    return (both.bits << 1) > 0xFF000000U ? 0x7FC00000U : both.bits;
}

static double from_bits(uint64_t number) {
    union {
        uint64_t bits;
        double number;
    } both = {number};
    return both.number;
}

static float from_float_bits(uint32_t number) {
    union {
        uint32_t bits;
        float number;
    } both = {number};
    return both.number;
}

/* Both zeros, the least and the greatest subnormal and normal numbers, of float too, 1 and its neighbours, 2^k and
   2^k - 1, infinite, and no number; each of both signs. */
double edge(unsigned which) {
    static const uint64_t edges[EDGES / 2] = {
        0,
        1,
        2,
        0x000FFFFFFFFFFFFFULL,
        0x0010000000000000ULL,
        0x0010000000000001ULL,
        0x0008000000000000ULL,
        0x001FFFFFFFFFFFFFULL,
        0x3FF0000000000000ULL,
        0x3FF0000000000001ULL,
        0x3FEFFFFFFFFFFFFFULL,
        0x3FE0000000000000ULL,
        0x3FF8000000000000ULL,
        0x4000000000000000ULL,
        0x4330000000000000ULL,
        0x4330000000000001ULL,
        0x433FFFFFFFFFFFFFULL,
        0x41DFFFFFFFC00000ULL,
        0x41E0000000000000ULL,
        0x43E0000000000000ULL,
        0x43EFFFFFFFFFFFFFULL,
        0x47EFFFFFE0000000ULL,
        0x47EFFFFFF0000000ULL,
        0x3810000000000000ULL,
        0x36A0000000000000ULL,
        0x3690000000000001ULL,
        0x7FEFFFFFFFFFFFFFULL,
        0x7FF0000000000000ULL,
        0x7FF8000000000000ULL,
    };
    return from_bits(edges[which / 2] | (uint64_t)(which % 2) << 63);
}

double random_double(void) {
    uint64_t number = random_bits();
    switch (below(10)) {
    case 0: return edge(below(EDGES));
    case 1: return from_bits(number & 0x800FFFFFFFFFFFFFULL);
    case 2: return from_bits(number & 0xFFFFFFFF00000000ULL);
    case 3: return from_bits(number & 0xFFFF000000000000ULL);
    case 4: return (double)((int)(number & 0xFFFFF) - 0x80000) / (below(2) ? 1 : 8);
    case 5: return (double)(int)number / 1000;
    case 6:
    case 7: return from_bits((number & 0x800FFFFFFFFFFFFFULL) | (uint64_t)(1023 - 40 + below(80)) << 52);
    default: return from_bits(number);
    }
}

float random_float(void) {
    uint32_t number = (uint32_t)random_bits();
    switch (below(8)) {
    case 0: return (float)edge(below(EDGES));
    case 1: return from_float_bits(number & 0x807FFFFFU);
    case 2: return from_float_bits(number & 0xFFFF0000U);
    case 3: return (float)((int)(number & 0xFFFF) - 0x8000);
    case 4: return from_float_bits((number & 0x807FFFFFU) | (127 - 20 + below(40)) << 23);
    default: return from_float_bits(number);
    }
}

const unsigned char *input;
size_t input_left, output_size;
unsigned char output[1 << 16];

int get(void) {
    if (input_left == 0) return -1;
    input_left--;
    return *input++;
}

void put(int c) {
    if (output_size == sizeof output) finish(3);
    output[output_size++] = (unsigned char)c;
}

#ifdef OURS
void quit(int word) { finish(word != 0); }
#else
static jmp_buf back;
static int word_of_quit;

void quit(int word) {
    word_of_quit = word;
    longjmp(back, 1);
}

int quit_word(void (*function)(void)) {
    if (setjmp(back) == 0) {
        function();
        return -1;
    }
    return word_of_quit;
}
#endif

static int run(const struct test *test) {
    current = test;
    differences = 0;
    digest = 0;
    state = SEED * 0x9E3779B97F4A7C15ULL + hash(test->name, 3);
    for (case_number = 0; case_number < test->cases; case_number++) {
        test->run();
        release();
    }
    show(test->name), show(" "), show_number((uint64_t)test->cases, 10), show(" ");
#if defined OURS || defined THEIRS
    show_number(digest, 16);
#else
    show_number((uint64_t)differences, 10);
#endif
    show("\n");
    return differences != 0;
}

int main(void) {
    static const struct test *const all[] = {text_tests,        number_tests, memory_tests, print_tests,
                                             double_text_tests, scan_tests,   soft_tests,   math_tests};
    int failed = 0;
    for (size_t i = 0; i < sizeof all / sizeof all[0]; i++)
        for (const struct test *test = all[i]; test->name; test++)
            if (test->cases > 0) failed |= run(test);
    finish(failed);
}
