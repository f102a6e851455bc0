/* The three functions by which libgeyserpan asks for memory, with counters. */
#include <stdatomic.h>
#include <stddef.h>
#include <stdint.h>
#include <stdlib.h>

typedef struct {
    uint8_t ok;
    void *at;
} block;

static char none;
static atomic_long blocks, asked, refused = -1;

long heap_blocks(void) { return blocks; }
long heap_asked(void) { return asked; }

void heap_refuse(long after)
{
    asked = 0;
    refused = after;
}

static block grown(void *old, size_t bytes, size_t align)
{
    void *at = asked++ == refused ? NULL : realloc(old, bytes ? bytes : align);
    blocks += at && !old;
    return (block){ at != NULL, at ? at : &none };
}

block rattle_alloc(size_t bytes, size_t align) { return grown(NULL, bytes, align); }

block rattle_realloc(void *at, size_t kept, size_t bytes, size_t align)
{
    (void)kept;
    return grown(at, bytes, align);
}

void rattle_dealloc(void *at)
{
    blocks--;
    free(at);
}
