/* Refuses one growth of the extension's memory: linked into it by a test, with --wrap for the two functions that ask
   for memory. refuse_growth(n) has the n-th growth from now on refused, none where n is negative, and tells how many
   were asked for since it was called last. */
#include "extension.h"

static int64 asked = 0;
static int64 refused = -1;
static char nothing;

geyserpan_block __real_rattle_alloc(size_t bytes, size_t align);
geyserpan_block __real_rattle_realloc(void *at, size_t kept, size_t bytes, size_t align);
geyserpan_block __wrap_rattle_alloc(size_t bytes, size_t align);
geyserpan_block __wrap_rattle_realloc(void *at, size_t kept, size_t bytes, size_t align);

geyserpan_block
__wrap_rattle_alloc(size_t bytes, size_t align)
{
	if (asked++ == refused)
		return (geyserpan_block) {0, &nothing};
	return __real_rattle_alloc(bytes, align);
}

geyserpan_block
__wrap_rattle_realloc(void *at, size_t kept, size_t bytes, size_t align)
{
	if (asked++ == refused)
		return (geyserpan_block) {0, &nothing};
	return __real_rattle_realloc(at, kept, bytes, align);
}

PG_FUNCTION_INFO_V1(sql_refuse_growth);
Datum
sql_refuse_growth(PG_FUNCTION_ARGS)
{
	int64		before = asked;

	asked = 0;
	refused = PG_GETARG_INT64(0);
	PG_RETURN_INT64(before);
}
