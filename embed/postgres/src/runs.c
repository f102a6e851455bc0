/* Runs, in steps between which interrupts are served. */
#include "extension.h"

#include "access/xact.h"
#include "mb/pg_wchar.h"
#include "miscadmin.h"
#include "utils/memutils.h"

#define STEP_TURNS 1000000		/* some milliseconds */
#define SCRATCH 4096

/* The engine of all runs that end within one call. What an error leaves in it is let go where the transaction, or the
   subtransaction, that it ends is cleaned up. */
static geyserpan_engine shared_engine;
static bool has_engine = false;

static void
let_go(void)
{
	if (has_engine)
		geyserpan_engine_end(&shared_engine);
}

static void
at_transaction_end(XactEvent event, void *none)
{
	if (event == XACT_EVENT_ABORT || event == XACT_EVENT_PARALLEL_ABORT)
		let_go();
}

static void
at_subtransaction_end(SubXactEvent event, SubTransactionId own, SubTransactionId outer, void *none)
{
	if (event == SUBXACT_EVENT_ABORT_SUB)
		let_go();
}

void
begin_runs(void)
{
	RegisterXactCallback(at_transaction_end, NULL);
	RegisterSubXactCallback(at_subtransaction_end, NULL);
}

/* What a run is granted: the call's turns, where the settings don't say less. */
geyserpan_terms
terms_of(int64 max_turns)
{
	geyserpan_terms terms = {(uint64) settings.max_turns, (uint64) settings.max_output * 1024,
	GEYSERPAN_ALL_SERVICES, 8};

	if (max_turns < 0)
		ereport(ERROR,
				errcode(ERRCODE_INVALID_PARAMETER_VALUE),
				errmsg("geyserpan: \"max_turns\" is less than 0"));
	terms.turns = Min(terms.turns, (uint64) max_turns);
	return terms;
}

/* Begins a run on the engine that stands in `run`. */
void
begin_run(Run *run, Image *image, const geyserpan_terms *terms)
{
	uint32		status = geyserpan_engine_begin_with(&run->engine, &image->handle, terms);

	run->facts = image->facts;
	run->terms = *terms;
	if (status != GEYSERPAN_OK)
		deny(status, &run->facts, terms);
}

/* Goes on for a step, and returns why it stopped: ENDED, WANTS, FULL or PAUSED. */
uint32
step_run(Run *run)
{
	uint8		scratch[SCRATCH];
	uint8	   *room = scratch;
	size_t		size = sizeof scratch;
	geyserpan_done done;
	uint32		status;

	if (run->out != NULL)
	{
		room = (uint8 *) run->out->data + run->out->len;
		size = run->out->maxlen - run->out->len - 1;
	}
	status = geyserpan_engine_step(&run->engine, STEP_TURNS, run->input, run->length, run->is_last, room, size, &done);
	run->input += done.read;
	run->length -= done.read;
	run->turns = done.turns;
	run->exit = done.exit;
	if (run->out != NULL)
	{
		run->out->len += done.written;
		run->out->data[run->out->len] = '\0';
	}
	if (status == GEYSERPAN_ENDED)
		run->has_ended = true;
	else if (status == GEYSERPAN_FULL || status == GEYSERPAN_PAUSED || status == GEYSERPAN_WANTS)
	{
		CHECK_FOR_INTERRUPTS();
		if (status == GEYSERPAN_FULL && run->out != NULL)
			enlargeStringInfo(run->out, Min(run->out->maxlen, (int) MaxAllocSize - run->out->len - 1));
	}
	else
		deny(status, &run->facts, &run->terms);
	return status;
}

/* Makes a run to its end. Where `out` is NULL its output is thrown away, and may be of any length. */
void
run_whole(Run *run, Image *image, const geyserpan_terms *terms, const char *input, Size length, StringInfo out)
{
	geyserpan_terms granted = *terms;

	if (!has_engine)
	{
		uint32		status = geyserpan_engine_new(&shared_engine);

		if (status != GEYSERPAN_OK)
			deny(status, &image->facts, terms);
		has_engine = true;
	}
	if (out == NULL)
		granted.output = UINT64_MAX;
	run->engine = shared_engine;
	run->input = (const uint8 *) input;
	run->length = length;
	run->is_last = true;
	run->has_ended = false;
	run->out = out;
	begin_run(run, image, &granted);
	while (step_run(run) != GEYSERPAN_ENDED)
		;
	geyserpan_engine_end(&shared_engine);
}

/* ---- outputs as values ---- */

/* A room that begins with the head of a bytea or a text. */
void
begin_varlena(StringInfo out)
{
	initStringInfo(out);
	out->len = VARHDRSZ;
}

bytea *
as_bytea(StringInfo out)
{
	SET_VARSIZE(out->data, out->len);
	return (bytea *) out->data;
}

/* Raises an error where bytes are no text of the database's encoding. */
void
check_text(const char *bytes, Size length)
{
	(void) pg_verify_mbstr(GetDatabaseEncoding(), bytes, (int) length, false);
}

text *
as_text(StringInfo out)
{
	check_text(out->data + VARHDRSZ, out->len - VARHDRSZ);
	return as_bytea(out);
}
