/* malloc and kin with an arena that is always nearly full; qsort and bsearch. */
#include "beside.h"

#ifndef OURS
#include <stdlib.h>
#include <string.h>
#endif

/* As malloc.c is compiled for this test. */
#define ARENA 4096
#define BLOCKS 64

static struct {
    unsigned char *memory;
    size_t size;
    unsigned char mark;
} blocks[BLOCKS];

static int is_whole(int i) {
    for (size_t at = 0; at < blocks[i].size; at++)
        if (blocks[i].memory[at] != blocks[i].mark) return 0;
    return 1;
}

static void mark(int i, unsigned char *memory, size_t size) {
    blocks[i].memory = memory;
    blocks[i].size = size;
    blocks[i].mark = (unsigned char)below(256);
    for (size_t at = 0; at < size; at++) memory[at] = blocks[i].mark;
}

static size_t some_size(void) {
    switch (below(8)) {
    case 0: return below(8);
    case 1: return below(1200);
    case 2: return 4 + 8 * below(20);
    case 3: return (size_t)-1 - below(64);
    default: return below(100);
    }
}

/* A block at a multiple of 8; where there is none, all that is free together may be less. */
static void allocate(int i) {
    size_t size = some_size();
    unsigned char *memory = below(4) ? gp_malloc(size) : gp_calloc(size, 1);
    if (!memory) return;
    SAME((uintptr_t)memory % 8, 0);
    mark(i, memory, size);
}

static void resize(int i) {
    size_t size = some_size(), kept = size < blocks[i].size ? size : blocks[i].size;
    unsigned char *memory = gp_realloc(blocks[i].memory, size);
    if (!memory) {
        SAME(is_whole(i), 1);
        return;
    }
    SAME((uintptr_t)memory % 8, 0);
    for (size_t at = 0; at < kept; at++)
        if (memory[at] != blocks[i].mark) SAME(memory[at], blocks[i].mark);
    mark(i, memory, size);
}

/* No block has changed, which it would have where two overlapped. */
static void heap(void) {
    int i = (int)below(BLOCKS);
    if (!blocks[i].memory) {
        allocate(i);
        return;
    }
    SAME(is_whole(i), 1);
    if (below(3) == 0) {
        resize(i);
    } else {
        gp_free(blocks[i].memory);
        blocks[i].memory = NULL;
    }
}

static void free_all(void) {
    for (int i = 0; i < BLOCKS; i++) {
        if (blocks[i].memory) SAME(is_whole(i), 1);
        gp_free(blocks[i].memory);
        blocks[i].memory = NULL;
    }
    gp_free(NULL);
}

/* What has been freed in whatever order is one block again: nearly all of the arena can be had at once, and not
   more. */
static void coalesce(void) {
    free_all();
    unsigned char *all = gp_malloc(ARENA - 16);
    SAME(all != NULL, 1);
    SAME(gp_malloc(1) == NULL, 1);
    SAME(gp_realloc(NULL, 1) == NULL, 1);
    SAME(gp_errno, 12);
    SAME(gp_realloc(all, ARENA) == NULL, 1);
    gp_free(all);
    SAME(gp_malloc(ARENA) == NULL, 1);
    SAME(gp_calloc((size_t)-1 / 2, 3) == NULL, 1);
    /* as many small blocks as there is room for, and every second one freed: no larger one fits */
    int count = 0;
    while (count < BLOCKS && (blocks[count].memory = gp_malloc(ARENA / 80)))
        mark(count, blocks[count].memory, ARENA / 80), count++;
    for (int i = 0; i < count; i += 2) {
        gp_free(blocks[i].memory);
        blocks[i].memory = NULL;
    }
    for (int i = 1; i < count; i += 2) SAME(is_whole(i), 1);
    free_all();
    unsigned char *zeros = gp_calloc(ARENA / 2, 1);
    for (size_t at = 0; at < ARENA / 2; at++)
        if (zeros[at] != 0) SAME(zeros[at], 0);
    gp_free(zeros);
}

/* Blocks at multiples of up to 256 bytes; what lies before them is free again. */
static void align(void) {
    free_all();
    for (int i = 0; i < 6; i++) {
        size_t size = below(200), alignment = (size_t)8 << below(6);
        void *block;
        int failed = below(2) ? gp_posix_memalign(&block, alignment, size)
                              : (block = gp_aligned_alloc(alignment, size)) == NULL;
        SAME(failed, 0);
        SAME((uintptr_t)block % alignment, 0);
        mark(i, block, size);
    }
    free_all();
    SAME(gp_aligned_alloc(24, 8) == NULL, 1);
    SAME(gp_aligned_alloc(ARENA, 8) == NULL, 1);
    SAME(gp_reallocarray(NULL, (size_t)-1 / 4, 8) == NULL, 1);
    void *all = gp_reallocarray(NULL, ARENA / 8 - 2, 8);
    SAME(all == NULL, 0);
    gp_free(all);
}

#ifndef OURS
static void *bad;
static void free_bad(void) { gp_free(bad); }
static void fail(void) { gp_wrapped_assert(0); }
static void exit_5(void) { gp_exit(5); }
static int order;
static void first(void) { order = order % 1000 * 10 + 1; }
static void second(void) { order = order % 1000 * 10 + 2; }

/* What is no block in use ends the run by abort's word. */
static void ends(void) {
    unsigned char *block = gp_malloc(40);
    bad = block + 8;
    SAME(quit_word(free_bad), 0x00060000);
    bad = block + 1;
    SAME(quit_word(free_bad), 0x00060000);
    bad = &bad;
    SAME(quit_word(free_bad), 0x00060000);
    gp_free(block);
    bad = block;
    SAME(quit_word(free_bad), 0x00060000);
    SAME(quit_word(gp_abort), 0x00060000);
    SAME(quit_word(fail), 0x00060000);
    SAME(gp_wrapped_assert(1), 1);
    gp_atexit(first);
    gp_atexit(second);
    SAME(quit_word(exit_5), 5);
    SAME(order, 21);
    for (int i = 0; i < 64; i++) SAME(gp_atexit(first), 0);
    SAME(gp_atexit(first) != 0, 1);
    SAME(quit_word(exit_5), 5);
}
#endif

static size_t width;

static int by_bytes(const void *a, const void *b) {
    const unsigned char *one = a, *other = b;
    for (size_t i = 0; i < width; i++)
        if (one[i] != other[i]) return one[i] < other[i] ? -1 : 1;
    return 0;
}

static void sort(void) {
    size_t count = below(below(10) ? 20 : 300);
    width = 1 + below(24);
    unsigned char *ours = fresh(count * width + 1), *theirs = fresh(count * width + 1);
    unsigned skew = below(2), values = below(2) ? 3 : 256; /* (at an odd address, too) */
    for (size_t i = 0; i <= count * width; i++) ours[i] = theirs[i] = (unsigned char)below(values);
    BOTH(gp_qsort(ours + skew, count, width, by_bytes), qsort(theirs + skew, count, width, by_bytes));
    SAME(hash(ours, count * width + 1), hash(theirs, count * width + 1));
#ifdef THEIRS
    unsigned char *sorted = theirs + skew;
#else
    unsigned char *sorted = ours + skew;
#endif
    unsigned char *key = fresh(width);
    for (size_t i = 0; i < width; i++) key[i] = (unsigned char)below(values);
    if (count && below(2)) {
        size_t which = below((unsigned)count);
        for (size_t i = 0; i < width; i++) key[i] = sorted[which * width + i];
    }
    const unsigned char *found = gp_bsearch(key, sorted, count, width, by_bytes);
    int is_there = 0;
    for (size_t i = 0; i < count; i++) is_there |= by_bytes(key, sorted + i * width) == 0;
    SAME(found != NULL, is_there);
    if (found) SAME(by_bytes(found, key), 0);
}

const struct test memory_tests[] = {
    {"qsort,bsearch", sort, CASES / 2},
    {"malloc at random", heap, CASES * 20L},
    {"malloc, full", coalesce, CASES / 100},
    {"aligned_alloc", align, CASES / 10},
#ifndef OURS
#ifndef THEIRS
    {"abort,exit,assert", ends, 1},
#endif
#endif
    {NULL, NULL, 0},
};
