/* What the files of the extension share.

   No call of the library is left by a longjmp: it asks for memory by functions that raise no error, and all errors
   are raised, and interrupts served, between calls. A run that an error leaves behind is let go with its transaction
   (runs.c) or with its memory context. */
#ifndef GEYSERPAN_EXTENSION_H
#define GEYSERPAN_EXTENSION_H

#include "postgres.h"

#include "fmgr.h"
#include "lib/ilist.h"
#include "lib/stringinfo.h"

#include <geyserpan.h>

/* ---- module.c: settings, which a superuser sets ---- */

typedef struct Settings
{
	int			max_memory;		/* kB of the library and of the images that are kept */
	int			max_output;		/* kB of a run's output, or of one line of it */
	double		max_turns;		/* turns that a run may ask for */
	char	   *native_directory;	/* where objects of native code stand, or nothing */
} Settings;

extern Settings settings;

/* How often native_directory was set: an image of another count was opened before that. */
extern uint64 native_changes;

/* ---- memory.c ---- */

extern void begin_memory(void);

/* ---- errors.c: an SQLSTATE for each status ---- */

extern void fail(uint32 status, const geyserpan_why *why) pg_attribute_noreturn();
extern void deny(uint32 status, const geyserpan_facts *facts, const geyserpan_terms *terms) pg_attribute_noreturn();
extern text *verdict_of(uint32 status, const geyserpan_why *why);
extern const char *name_of_test(uint32 exit);

/* ---- images.c: images that are verified once a session ---- */

typedef struct Image
{
	dlist_node	node;
	geyserpan_image handle;
	geyserpan_facts facts;
	uint64		hash;
	Size		length;
	uint8	   *bytes;
	int			users;			/* the list of kept images, call sites and groups */
	uint64		native_changes;
	bool		is_native;		/* its runs go by an object */
} Image;

/* An image that is in use until its memory context ends. */
typedef struct Hold
{
	Image	   *image;
	MemoryContextCallback at_end;
} Hold;

extern Image *find_image(const char *bytes, Size length, geyserpan_why *why, uint32 *status);
extern Image *image_of(const char *bytes, Size length);
extern Image *image_argument(FunctionCallInfo fcinfo, int which);
extern bool is_same_image(const Image *one, const Image *other);
extern bytea *assembled(const char *source, Size length);
extern void hold(Hold *held, Image *image);
extern Hold *new_hold(MemoryContext context);

/* ---- runs.c ---- */

typedef struct Run
{
	geyserpan_engine engine;
	geyserpan_facts facts;
	geyserpan_terms terms;
	const uint8 *input;			/* the rest of the piece */
	Size		length;
	bool		is_last;
	bool		has_ended;
	StringInfo	out;			/* what is put out goes behind it, or nowhere where it is NULL */
	uint64		turns;
	uint32		exit;
} Run;

extern void begin_runs(void);
extern geyserpan_terms terms_of(int64 max_turns);
extern void begin_run(Run *run, Image *image, const geyserpan_terms *terms);
extern uint32 step_run(Run *run);
extern void run_whole(Run *run, Image *image, const geyserpan_terms *terms, const char *input, Size length,
					  StringInfo out);
extern void begin_varlena(StringInfo out);
extern bytea *as_bytea(StringInfo out);
extern text *as_text(StringInfo out);
extern void check_text(const char *bytes, Size length);

/* ---- language.c ---- */

extern void begin_language(void);

#endif
