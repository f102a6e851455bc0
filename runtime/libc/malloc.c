/* The heap: one array of units of 8 bytes, which the blocks fill without a gap. Before each block stands its head, a
   word: how many units it takes with its head, and whether it is used. Free neighbours become one when a search
   passes them. A search begins where the last one ended ("next fit"), so that it is short while there is room. */
#include <errno.h>
#include <stdint.h>
#include <stdlib.h>
#include <string.h>

#ifndef GEYSERPAN_ARENA
#define GEYSERPAN_ARENA 65536
#endif

#define UNIT 8
/* A head lies at 4 bytes behind a multiple of 8, so that its block lies at one: the first word of the arena, and the
   last, are no block's. */
#define HEAD (sizeof(unsigned))
#define UNITS ((GEYSERPAN_ARENA) / UNIT - 1)
#define USED 1U

_Static_assert((GEYSERPAN_ARENA) % UNIT == 0 && (GEYSERPAN_ARENA) >= 4 * UNIT,
               "GEYSERPAN_ARENA is a multiple of 8, and at least 32");
_Static_assert(sizeof(unsigned) == 4, "heads are words of 4 bytes");

/* (a block holds any type, and its head lies among them) */
typedef unsigned __attribute__((__may_alias__)) __word;

static __word arena[GEYSERPAN_ARENA / sizeof(__word)] __attribute__((__aligned__(UNIT)));
static unsigned next, is_begun;

/* The head of the block that begins at a unit. */
static __word *head_at(unsigned unit) { return &arena[unit * 2 + 1]; }
static unsigned size_at(unsigned unit) { return *head_at(unit) >> 1; }
static int is_used(unsigned unit) { return *head_at(unit) & USED; }
static void set(unsigned unit, unsigned size, unsigned used) { *head_at(unit) = size << 1 | used; }

/* The units that a block of so many bytes takes. */
static unsigned units_for(size_t size) { return (unsigned)((size + HEAD + UNIT - 1) / UNIT); }

/* The unit where a block begins. What is no block in use ends the run: its memory may be another's by now. */
static unsigned unit_of(void *block) {
    uintptr_t offset = (uintptr_t)block - (uintptr_t)arena;
    if (offset % UNIT != 0 || offset == 0 || offset > UNITS * UNIT || !is_begun) abort();
    unsigned unit = (unsigned)(offset / UNIT) - 1;
    if (!is_used(unit) || size_at(unit) == 0 || size_at(unit) > UNITS - unit) abort();
    return unit;
}

/* The size of a free block with the free ones behind it, which become a part of it. */
static unsigned merged(unsigned unit) {
    unsigned size = size_at(unit);
    while (unit + size < UNITS && !is_used(unit + size)) {
        unsigned other = unit + size;
        size += size_at(other);
        *head_at(other) = 0; /* (no block's head any more) */
    }
    set(unit, size, 0);
    return size;
}

/* Takes so many units of a block, and leaves what is behind them free. */
static void take(unsigned unit, unsigned has, unsigned wanted) {
    if (has > wanted) set(unit + wanted, has - wanted, 0);
    set(unit, wanted, USED);
}

/* The first free block with room in a part of the arena, or its end where there is none. */
static unsigned found(unsigned from, unsigned end, unsigned wanted) {
    while (from < end) {
        unsigned size = is_used(from) ? size_at(from) : merged(from);
        if (!is_used(from) && size >= wanted) return from;
        from += size;
    }
    return UNITS;
}

void *malloc(size_t size) {
    if (!is_begun) {
        is_begun = 1;
        set(0, UNITS, 0);
    }
    unsigned wanted = size <= GEYSERPAN_ARENA ? units_for(size) : UNITS + 1;
    unsigned unit = found(next, UNITS, wanted);
    if (unit == UNITS) unit = found(0, next, wanted);
    if (unit == UNITS) {
        next = 0; /* (a block may have been merged over where the search began) */
        errno = ENOMEM;
        return NULL;
    }
    take(unit, size_at(unit), wanted);
    next = unit + wanted < UNITS ? unit + wanted : 0;
    return head_at(unit) + 1;
}

void free(void *block) {
    if (!block) return;
    unsigned unit = unit_of(block);
    set(unit, size_at(unit), 0);
}

void *calloc(size_t count, size_t size) {
    if (size != 0 && count > (size_t)-1 / size) {
        errno = ENOMEM;
        return NULL;
    }
    void *block = malloc(count * size);
    if (block) memset(block, 0, count * size);
    return block;
}

/* A block lies right from its first unit on, or from a later one: the units before that are a free block. */
void *aligned_alloc(size_t alignment, size_t size) {
    if (alignment == 0 || (alignment & (alignment - 1)) != 0) {
        errno = EINVAL;
        return NULL;
    }
    if (alignment <= UNIT) return malloc(size);
    int has_room = alignment <= GEYSERPAN_ARENA && size <= GEYSERPAN_ARENA;
    char *block = malloc(has_room ? size + alignment : GEYSERPAN_ARENA + 1);
    unsigned before = (unsigned)(-(uintptr_t)block & (alignment - 1)) / UNIT;
    if (!block || before == 0) return block;
    unsigned unit = unit_of(block), has = size_at(unit);
    set(unit, before, 0);
    set(unit + before, has - before, USED);
    return block + before * UNIT;
}

int posix_memalign(void **to, size_t alignment, size_t size) {
    if (alignment % sizeof(void *) != 0 || alignment == 0 || (alignment & (alignment - 1)) != 0) return EINVAL;
    void *block = aligned_alloc(alignment, size);
    if (!block) return ENOMEM;
    *to = block;
    return 0;
}

/* The units of a block in use and of the free ones behind it, which become a part of it. */
static unsigned grown(unsigned unit) {
    unsigned size = size_at(unit);
    if (unit + size < UNITS && !is_used(unit + size)) {
        unsigned other = unit + size;
        size += merged(other);
        *head_at(other) = 0;
        if (next > unit && next < unit + size) next = unit;
    }
    return size;
}

void *realloc(void *block, size_t size) {
    if (!block) return malloc(size);
    unsigned unit = unit_of(block), has = size_at(unit),
             wanted = size <= GEYSERPAN_ARENA ? units_for(size) : UNITS + 1;
    if (wanted > has) {
        unsigned room = grown(unit);
        take(unit, room, wanted <= room ? wanted : has);
    } else {
        take(unit, has, wanted);
    }
    if (wanted <= size_at(unit)) return block;
    void *other = malloc(size);
    if (!other) return NULL;
    memcpy(other, block, has * UNIT - HEAD);
    free(block);
    return other;
}

void *reallocarray(void *block, size_t count, size_t size) {
    if (size != 0 && count > (size_t)-1 / size) {
        errno = ENOMEM;
        return NULL;
    }
    return realloc(block, count * size);
}
