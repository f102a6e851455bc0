/* Functions of an image and an input: verdicts, facts, runs. */
#include "extension.h"

#include "access/htup_details.h"
#include "catalog/pg_type.h"
#include "funcapi.h"
#include "utils/array.h"
#include "utils/builtins.h"

#define MOST_COLUMNS 8

/* A row of the function's result type. */
static Datum
row_of(FunctionCallInfo fcinfo, Datum *values, bool *nulls)
{
	TupleDesc	shape;

	if (get_call_result_type(fcinfo, NULL, &shape) != TYPEFUNC_COMPOSITE)
		elog(ERROR, "geyserpan: the function has to return a row");
	return HeapTupleGetDatum(heap_form_tuple(BlessTupleDesc(shape), values, nulls));
}

PG_FUNCTION_INFO_V1(sql_version);
Datum
sql_version(PG_FUNCTION_ARGS)
{
	char		words[32];

	PG_RETURN_TEXT_P(cstring_to_text_with_len(words, geyserpan_version((uint8 *) words, sizeof words)));
}

/* ---- verdicts ---- */

PG_FUNCTION_INFO_V1(sql_check);
Datum
sql_check(PG_FUNCTION_ARGS)
{
	bytea	   *bytes = PG_GETARG_BYTEA_PP(0);
	geyserpan_why why = {0, 0, 0};
	uint32		status;

	(void) find_image(VARDATA_ANY(bytes), VARSIZE_ANY_EXHDR(bytes), &why, &status);
	if (status == GEYSERPAN_MEMORY)
		fail(status, &why);
	PG_RETURN_TEXT_P(verdict_of(status, &why));
}

PG_FUNCTION_INFO_V1(sql_verify);
Datum
sql_verify(PG_FUNCTION_ARGS)
{
	(void) image_argument(fcinfo, 0);
	PG_RETURN_BOOL(true);
}

static Datum
names_of_services(uint32 services)
{
	static const struct
	{
		uint32		service;
		const char *name;
	}			known[] = {{GEYSERPAN_EXIT, "exit"}, {GEYSERPAN_GET, "get"}, {GEYSERPAN_PUT, "put"}};
	Datum		names[lengthof(known)];
	int			count = 0;

	for (int i = 0; i < lengthof(known); i++)
		if (services & known[i].service)
			names[count++] = CStringGetTextDatum(known[i].name);
	return PointerGetDatum(construct_array(names, count, TEXTOID, -1, false, TYPALIGN_INT));
}

PG_FUNCTION_INFO_V1(sql_facts);
Datum
sql_facts(PG_FUNCTION_ARGS)
{
	const geyserpan_facts facts = image_argument(fcinfo, 0)->facts;
	Datum		values[MOST_COLUMNS] = {
		Int64GetDatum((int64) facts.budget),
		names_of_services(facts.services),
		Int32GetDatum((int32) facts.version),
		Int32GetDatum((int32) facts.words),
		Int32GetDatum((int32) facts.data_bytes),
		Int32GetDatum((int32) facts.stack_pages),
		Int32GetDatum((int32) facts.functions),
		Int32GetDatum((int32) facts.depth),
	};
	bool		nulls[MOST_COLUMNS] = {false};

	return row_of(fcinfo, values, nulls);
}

PG_FUNCTION_INFO_V1(sql_assemble);
Datum
sql_assemble(PG_FUNCTION_ARGS)
{
	text	   *source = PG_GETARG_TEXT_PP(0);

	PG_RETURN_BYTEA_P(assembled(VARDATA_ANY(source), VARSIZE_ANY_EXHDR(source)));
}

PG_FUNCTION_INFO_V1(sql_is_native);
Datum
sql_is_native(PG_FUNCTION_ARGS)
{
	PG_RETURN_BOOL(image_argument(fcinfo, 0)->is_native);
}

/* ---- runs ---- */

/* The run of a call, whose arguments are image, input and max_turns. */
static void
run_call(FunctionCallInfo fcinfo, Run *run, StringInfo out)
{
	Image	   *image = image_argument(fcinfo, 0);
	geyserpan_terms terms = terms_of(PG_GETARG_INT64(2));
	bytea	   *input = PG_GETARG_BYTEA_PP(1);

	run_whole(run, image, &terms, VARDATA_ANY(input), VARSIZE_ANY_EXHDR(input), out);
	PG_FREE_IF_COPY(input, 1);
}

PG_FUNCTION_INFO_V1(sql_match);
Datum
sql_match(PG_FUNCTION_ARGS)
{
	Run			run;

	run_call(fcinfo, &run, NULL);
	if (run.exit > 1)
		PG_RETURN_NULL();
	PG_RETURN_BOOL(run.exit == 0);
}

PG_FUNCTION_INFO_V1(sql_run);
Datum
sql_run(PG_FUNCTION_ARGS)
{
	StringInfoData out;
	Run			run;

	begin_varlena(&out);
	run_call(fcinfo, &run, &out);
	if (run.exit != 0)
		PG_RETURN_NULL();
	PG_RETURN_BYTEA_P(as_bytea(&out));
}

PG_FUNCTION_INFO_V1(sql_run_text);
Datum
sql_run_text(PG_FUNCTION_ARGS)
{
	StringInfoData out;
	Run			run;

	begin_varlena(&out);
	run_call(fcinfo, &run, &out);
	if (run.exit != 0)
		PG_RETURN_NULL();
	PG_RETURN_TEXT_P(as_text(&out));
}

PG_FUNCTION_INFO_V1(sql_report);
Datum
sql_report(PG_FUNCTION_ARGS)
{
	StringInfoData out;
	Run			run;
	const char *test;
	Datum		values[MOST_COLUMNS];
	bool		nulls[MOST_COLUMNS] = {false};

	begin_varlena(&out);
	run_call(fcinfo, &run, &out);
	test = name_of_test(run.exit);
	values[0] = PointerGetDatum(as_bytea(&out));
	values[1] = Int64GetDatum((int64) run.exit);
	values[2] = Int64GetDatum((int64) run.turns);
	values[3] = test ? CStringGetTextDatum(test) : (Datum) 0;
	values[4] = Int32GetDatum((int32) (run.exit & 0xFFFF));
	nulls[3] = nulls[4] = test == NULL;
	return row_of(fcinfo, values, nulls);
}
