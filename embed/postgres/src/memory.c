/* The library's memory: a memory context of its own, bounded by geyserpan.max_memory. */
#include "extension.h"

#include "utils/memutils.h"

static MemoryContext library_memory;
static Size held;				/* bytes in blocks that live */
static char nothing;

/* palloc aligns to 8 bytes and the library asks for up to 16, so each block has a head in front of it. */
typedef struct Head
{
	void	   *given;
	Size		bytes;
} Head;

#define ALIGNMENT 16

StaticAssertDecl(sizeof(Head) % ALIGNMENT == 0, "a block begins behind its head");

static Head *
head_of(void *at)
{
	return (Head *) at - 1;
}

/* Refuses a growth in the place of raising an error, which may not leave a call of the library. */
geyserpan_block
rattle_alloc(size_t bytes, size_t align)
{
	Size		limit = (Size) settings.max_memory * 1024;
	char	   *given = NULL;
	char	   *at;

	Assert(align <= ALIGNMENT);
	if (held <= limit && bytes <= limit - held)
		given = MemoryContextAllocExtended(library_memory, bytes + sizeof(Head) + ALIGNMENT,
										   MCXT_ALLOC_HUGE | MCXT_ALLOC_NO_OOM);
	if (given == NULL)
		return (geyserpan_block) {0, &nothing};
	at = (char *) TYPEALIGN(ALIGNMENT, given + sizeof(Head));
	*head_of(at) = (Head) {given, bytes};
	held += bytes;
	return (geyserpan_block) {1, at};
}

void
rattle_dealloc(void *at)
{
	held -= head_of(at)->bytes;
	pfree(head_of(at)->given);
}

geyserpan_block
rattle_realloc(void *at, size_t kept, size_t bytes, size_t align)
{
	geyserpan_block made = rattle_alloc(bytes, align);

	if (made.ok)
	{
		memcpy(made.at, at, kept);
		rattle_dealloc(at);
	}
	return made;
}

void
begin_memory(void)
{
	library_memory = AllocSetContextCreate(TopMemoryContext, "geyserpan", ALLOCSET_DEFAULT_SIZES);
}
