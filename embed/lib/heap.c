/* The three functions by which libgeyserpan asks for memory, over malloc, realloc and free. */
#include "geyserpan.h"
#include <stdlib.h>

static char none;

static geyserpan_block told(void *at)
{
    return (geyserpan_block){ at != NULL, at ? at : &none };
}

geyserpan_block rattle_alloc(size_t bytes, size_t align)
{
    return told(malloc(bytes ? bytes : align));
}

geyserpan_block rattle_realloc(void *at, size_t kept, size_t bytes, size_t align)
{
    (void)kept;
    return told(realloc(at, bytes ? bytes : align));
}

void rattle_dealloc(void *at)
{
    free(at);
}
