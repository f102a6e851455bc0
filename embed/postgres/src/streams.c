/* Runs that live from call to call: lines that are put out as rows are asked for, and a run over the rows of a
   group. */
#include "extension.h"

#include "funcapi.h"
#include "utils/builtins.h"
#include "utils/memutils.h"

/* A run that is let go when its memory context ends. */
typedef struct Stream
{
	Run			run;
	StringInfoData out;
	int			shown;			/* bytes of `out` that were given as rows */
	int64		max_turns;
	Hold	   *held;			/* the image, to compare later rows with */
	MemoryContextCallback at_end;
} Stream;

static void
end_stream(void *at)
{
	geyserpan_engine_free(((Stream *) at)->run.engine);
}

static Stream *
new_stream(MemoryContext context, Image *image, int64 max_turns, uint64 output)
{
	Stream	   *stream = MemoryContextAllocZero(context, sizeof(Stream));
	MemoryContext before = MemoryContextSwitchTo(context);
	geyserpan_terms terms = terms_of(max_turns);
	uint32		status;

	initStringInfo(&stream->out);
	MemoryContextSwitchTo(before);
	stream->run.out = &stream->out;
	stream->max_turns = max_turns;
	stream->held = new_hold(context);
	hold(stream->held, image);
	terms.output = output;
	status = geyserpan_engine_new(&stream->run.engine);
	if (status != GEYSERPAN_OK)
		deny(status, &image->facts, &terms);
	stream->at_end.func = end_stream;
	stream->at_end.arg = stream;
	MemoryContextRegisterResetCallback(context, &stream->at_end);
	begin_run(&stream->run, image, &terms);
	return stream;
}

static void
give(Stream *stream, const char *bytes, Size length, bool is_last)
{
	stream->run.input = (const uint8 *) bytes;
	stream->run.length = length;
	stream->run.is_last = is_last;
}

/* ---- lines ---- */

static Stream *
begin_lines(FunctionCallInfo fcinfo, MemoryContext context)
{
	bytea	   *bytes = PG_GETARG_BYTEA_PP(0);
	Image	   *image = image_of(VARDATA_ANY(bytes), VARSIZE_ANY_EXHDR(bytes));
	Stream	   *stream = new_stream(context, image, PG_GETARG_INT64(2), UINT64_MAX);
	MemoryContext before = MemoryContextSwitchTo(context);
	text	   *input = PG_GETARG_TEXT_P_COPY(1);

	MemoryContextSwitchTo(before);
	give(stream, VARDATA(input), VARSIZE(input) - VARHDRSZ, true);
	return stream;
}

/* Raises an error where a line, or the front of one, is too long. */
static void
check_length(Stream *stream, Size length)
{
	geyserpan_terms of_line = stream->run.terms;

	of_line.output = (uint64) settings.max_output * 1024;
	if (length > of_line.output)
		deny(GEYSERPAN_OUTPUT, &stream->run.facts, &of_line);
}

/* The next line that is whole, or the last one; NULL where there is none yet. */
static text *
next_line(Stream *stream)
{
	char	   *from = stream->out.data + stream->shown;
	Size		left = stream->out.len - stream->shown;
	char	   *end = memchr(from, '\n', left);
	Size		length = end ? end - from : left;

	if (end == NULL && (!stream->run.has_ended || left == 0))
		return NULL;
	stream->shown += end ? length + 1 : length;
	check_length(stream, length);
	check_text(from, length);
	return cstring_to_text_with_len(from, length);
}

/* Puts out more behind a line that isn't whole. */
static void
lengthen(Stream *stream)
{
	StringInfo	out = &stream->out;

	memmove(out->data, out->data + stream->shown, out->len - stream->shown);
	out->len -= stream->shown;
	stream->shown = 0;
	check_length(stream, out->len);
	(void) step_run(&stream->run);
}

PG_FUNCTION_INFO_V1(sql_lines);
Datum
sql_lines(PG_FUNCTION_ARGS)
{
	FuncCallContext *call;
	Stream	   *stream;
	text	   *line;

	if (SRF_IS_FIRSTCALL())
	{
		call = SRF_FIRSTCALL_INIT();
		call->user_fctx = begin_lines(fcinfo, call->multi_call_memory_ctx);
	}
	call = SRF_PERCALL_SETUP();
	stream = call->user_fctx;
	while ((line = next_line(stream)) == NULL && !stream->run.has_ended)
		lengthen(stream);
	if (line != NULL)
		SRF_RETURN_NEXT(call, PointerGetDatum(line));
	if (stream->run.exit != 0)
		ereport(ERROR,
				errcode(ERRCODE_EXTERNAL_ROUTINE_EXCEPTION),
				errmsg("geyserpan: the run ended with exit word %u", stream->run.exit),
				errdetail("The lines before are what it had put out."));
	SRF_RETURN_DONE(call);
}

/* ---- the aggregate ---- */

/* The run of a group, which its first row begins. */
static Stream *
stream_of_group(FunctionCallInfo fcinfo, MemoryContext group)
{
	Stream	   *stream = PG_ARGISNULL(0) ? NULL : (Stream *) PG_GETARG_POINTER(0);
	Image	   *image = image_argument(fcinfo, 1);
	int64		max_turns = PG_NARGS() > 3 ? PG_GETARG_INT64(3) : PG_INT64_MAX;

	if (stream == NULL)
		return new_stream(group, image, max_turns, (uint64) settings.max_output * 1024);
	if (!is_same_image(stream->held->image, image) || stream->max_turns != max_turns)
		ereport(ERROR,
				errcode(ERRCODE_INVALID_PARAMETER_VALUE),
				errmsg("geyserpan: image or max_turns differ within a group"),
				errhint("Put them into GROUP BY: each image has a run of its own."));
	return stream;
}

/* A row whose piece is null is passed over; one whose image or max_turns is null is an error. */
PG_FUNCTION_INFO_V1(sql_fold_step);
Datum
sql_fold_step(PG_FUNCTION_ARGS)
{
	MemoryContext group;
	Stream	   *stream;
	text	   *piece;

	if (!AggCheckCallContext(fcinfo, &group))
		elog(ERROR, "geyserpan: the function is an aggregate's");
	if (PG_ARGISNULL(1) || (PG_NARGS() > 3 && PG_ARGISNULL(3)))
		ereport(ERROR,
				errcode(ERRCODE_NULL_VALUE_NOT_ALLOWED),
				errmsg("geyserpan: image or max_turns of an aggregate is null"));
	stream = stream_of_group(fcinfo, group);
	if (PG_ARGISNULL(2))
		PG_RETURN_POINTER(stream);
	piece = PG_GETARG_TEXT_PP(2);
	give(stream, VARDATA_ANY(piece), VARSIZE_ANY_EXHDR(piece), false);
	while (stream->run.length > 0 && !stream->run.has_ended)
		(void) step_run(&stream->run);
	PG_FREE_IF_COPY(piece, 2);
	PG_RETURN_POINTER(stream);
}

PG_FUNCTION_INFO_V1(sql_fold_end);
Datum
sql_fold_end(PG_FUNCTION_ARGS)
{
	Stream	   *stream = PG_ARGISNULL(0) ? NULL : (Stream *) PG_GETARG_POINTER(0);

	if (stream == NULL)
		PG_RETURN_NULL();
	give(stream, "", 0, true);
	while (!stream->run.has_ended)
		(void) step_run(&stream->run);
	if (stream->run.exit != 0)
		PG_RETURN_NULL();
	check_text(stream->out.data, stream->out.len);
	PG_RETURN_TEXT_P(cstring_to_text_with_len(stream->out.data, stream->out.len));
}
