/* What is done when the server loads the module: settings, memory, callbacks. */
#include "extension.h"

#include <limits.h>

#include "utils/guc.h"
#include "utils/memutils.h"

PG_MODULE_MAGIC;

void		_PG_init(void);

#define MOST_TURNS 1099511627776.0	/* 2^40, the most that an image can declare */

Settings	settings;
uint64		native_changes = 0;

static void
at_native_directory(const char *path, void *none)
{
	native_changes++;
}

static const char *
show_turns(void)
{
	static char words[24];

	snprintf(words, sizeof words, "%.0f", settings.max_turns);
	return words;
}

static void
define_settings(void)
{
	DefineCustomIntVariable("geyserpan.max_memory", "Sets the memory that images and runs of a session may take.",
							"Images that are kept and not in use are let go first.",
							&settings.max_memory, 65536, 64, MAX_KILOBYTES, PGC_SUSET, GUC_UNIT_KB,
							NULL, NULL, NULL);
	DefineCustomIntVariable("geyserpan.max_output", "Sets how much a run may put out, or a line of geyserpan_lines.",
							NULL, &settings.max_output, 1024, 1, MaxAllocSize / 1024 - 1, PGC_SUSET, GUC_UNIT_KB,
							NULL, NULL, NULL);
	DefineCustomRealVariable("geyserpan.max_turns", "Sets how many turns a run may ask for.",
							 "What asks for more isn't run.",
							 &settings.max_turns, 10000000, 0, MOST_TURNS, PGC_SUSET, 0,
							 NULL, NULL, show_turns);
	DefineCustomStringVariable("geyserpan.native_directory", "Sets where objects of native code are looked for.",
							   "An image runs by the file that is named by its SHA-256, with .so behind it.",
							   &settings.native_directory, "", PGC_SUSET, 0,
							   NULL, at_native_directory, NULL);
	MarkGUCPrefixReserved("geyserpan");
}

void
_PG_init(void)
{
	if (geyserpan_abi() != GEYSERPAN_ABI)
		elog(ERROR, "geyserpan: the library inside is of another ABI");
	define_settings();
	begin_memory();
	begin_runs();
	begin_language();
}
