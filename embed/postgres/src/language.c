/* LANGUAGE geyserpan: functions whose body is an image in hex, or an annotated source.

   Arguments are read as text, with a zero byte between two; a text or bytea that stands alone is read as it is. Where
   one is null the result is null, and nothing runs. The result is true, false or null by the exit word 0, 1 or
   another one; of any type but boolean it is what is put out, where the exit word is 0. */
#include "extension.h"

#include "access/htup_details.h"
#include "catalog/pg_proc.h"
#include "catalog/pg_type.h"
#include "utils/builtins.h"
#include "utils/guc.h"
#include "utils/inval.h"
#include "utils/lsyscache.h"
#include "utils/syscache.h"

/* What a call site remembers of its function. */
typedef struct Shape
{
	Hold	   *held;			/* the image */
	uint64		version;
	Oid			result;
	Oid			result_parameter;
	FmgrInfo	read_result;
	int			count;
	bool		is_raw;			/* the one argument is read as it is */
	FmgrInfo	write_argument[FUNC_MAX_ARGS];
} Shape;

/* How often a function was changed in this session's sight: a shape of another version is made anew. */
static uint64 version_of_functions = 1;

static void
at_change(Datum none, int cache, uint32 hash)
{
	version_of_functions++;
}

/* ---- a function, as the catalog has it ---- */

static void
refuse_shape(const char *what)
{
	ereport(ERROR,
			errcode(ERRCODE_FEATURE_NOT_SUPPORTED),
			errmsg("geyserpan: a function of the language %s", what));
}

static void
check_form(Form_pg_proc form)
{
	if (form->prokind != PROKIND_FUNCTION)
		refuse_shape("is no procedure, and no window function");
	if (form->proretset)
		refuse_shape("returns no set: geyserpan_lines does");
	if (get_typtype(form->prorettype) == TYPTYPE_PSEUDO)
		refuse_shape("returns a value of a type that is stored");
	for (int i = 0; i < form->pronargs; i++)
		if (get_typtype(form->proargtypes.values[i]) == TYPTYPE_PSEUDO)
			refuse_shape("takes values of types that are stored");
}

/* The image that the body of a function is. */
static Image *
image_of_body(HeapTuple row)
{
	bool		is_null;
	char	   *body = TextDatumGetCString(SysCacheGetAttr(PROCOID, row, Anum_pg_proc_prosrc, &is_null));
	bytea	   *bytes;

	body += strspn(body, " \t\r\n");
	if (strncmp(body, "\\x", 2) == 0)
		bytes = DatumGetByteaPP(DirectFunctionCall1(byteain, CStringGetDatum(body)));
	else
		bytes = assembled(body, strlen(body));
	return image_of(VARDATA_ANY(bytes), VARSIZE_ANY_EXHDR(bytes));
}

static void
read_form(Shape *shape, Form_pg_proc form, MemoryContext context)
{
	Oid			call;
	bool		is_varlena;

	shape->result = form->prorettype;
	getTypeInputInfo(shape->result, &call, &shape->result_parameter);
	fmgr_info_cxt(call, &shape->read_result, context);
	shape->count = form->pronargs;
	for (int i = 0; i < shape->count; i++)
	{
		getTypeOutputInfo(form->proargtypes.values[i], &call, &is_varlena);
		fmgr_info_cxt(call, &shape->write_argument[i], context);
	}
	shape->is_raw = shape->count == 1 &&
		(form->proargtypes.values[0] == TEXTOID || form->proargtypes.values[0] == BYTEAOID);
}

static Shape *
new_shape(Oid function, MemoryContext context)
{
	MemoryContext before = MemoryContextSwitchTo(context);
	HeapTuple	row = SearchSysCache1(PROCOID, ObjectIdGetDatum(function));
	Shape	   *shape = palloc0(sizeof(Shape));

	if (!HeapTupleIsValid(row))
		elog(ERROR, "cache lookup failed for function %u", function);
	shape->version = version_of_functions;
	check_form((Form_pg_proc) GETSTRUCT(row));
	read_form(shape, (Form_pg_proc) GETSTRUCT(row), context);
	shape->held = new_hold(context);
	hold(shape->held, image_of_body(row));
	ReleaseSysCache(row);
	MemoryContextSwitchTo(before);
	return shape;
}

/* What is known of the function that is called. */
static Shape *
shape_of_call(FmgrInfo *call)
{
	Shape	   *shape = call->fn_extra;

	if (shape != NULL && shape->version == version_of_functions)
		return shape;
	if (shape != NULL)
		hold(shape->held, NULL);
	call->fn_extra = NULL;
	shape = new_shape(call->fn_oid, call->fn_mcxt);
	call->fn_extra = shape;
	return shape;
}

/* ---- calls ---- */

static bool
has_null(FunctionCallInfo fcinfo)
{
	for (int i = 0; i < PG_NARGS(); i++)
		if (PG_ARGISNULL(i))
			return true;
	return false;
}

/* The arguments as text, with a zero byte between two. */
static void
write_arguments(FunctionCallInfo fcinfo, Shape *shape, StringInfo in)
{
	initStringInfo(in);
	for (int i = 0; i < shape->count; i++)
	{
		if (i > 0)
			appendStringInfoChar(in, '\0');
		appendStringInfoString(in, OutputFunctionCall(&shape->write_argument[i], PG_GETARG_DATUM(i)));
	}
}

static void
run_function(FunctionCallInfo fcinfo, Shape *shape, Run *run, StringInfo out)
{
	geyserpan_terms terms = terms_of(PG_INT64_MAX);

	if (shape->is_raw)
	{
		bytea	   *only = PG_GETARG_BYTEA_PP(0);

		run_whole(run, shape->held->image, &terms, VARDATA_ANY(only), VARSIZE_ANY_EXHDR(only), out);
		PG_FREE_IF_COPY(only, 0);
	}
	else
	{
		StringInfoData in;

		write_arguments(fcinfo, shape, &in);
		run_whole(run, shape->held->image, &terms, in.data, in.len, out);
		pfree(in.data);
	}
}

/* The value of the result type whose text was put out. */
static Datum
read_output(Shape *shape, StringInfo out)
{
	char	   *words = out->data + VARHDRSZ;

	if (shape->result == BYTEAOID)
		return PointerGetDatum(as_bytea(out));
	if (shape->result == TEXTOID)
		return PointerGetDatum(as_text(out));
	check_text(words, out->len - VARHDRSZ);
	return InputFunctionCall(&shape->read_result, words, shape->result_parameter, -1);
}

PG_FUNCTION_INFO_V1(sql_call);
Datum
sql_call(PG_FUNCTION_ARGS)
{
	Shape	   *shape = shape_of_call(fcinfo->flinfo);
	StringInfoData out;
	Run			run;

	if (has_null(fcinfo))
		PG_RETURN_NULL();
	if (shape->result == BOOLOID)
	{
		run_function(fcinfo, shape, &run, NULL);
		if (run.exit > 1)
			PG_RETURN_NULL();
		PG_RETURN_BOOL(run.exit == 0);
	}
	begin_varlena(&out);
	run_function(fcinfo, shape, &run, &out);
	if (run.exit != 0)
		PG_RETURN_NULL();
	return read_output(shape, &out);
}

/* CREATE FUNCTION refuses what the verifier refuses, and what asks for more turns than are granted. */
PG_FUNCTION_INFO_V1(sql_validate);
Datum
sql_validate(PG_FUNCTION_ARGS)
{
	Oid			function = PG_GETARG_OID(0);
	geyserpan_terms terms;
	Shape	   *shape;

	if (!CheckFunctionValidatorAccess(fcinfo->flinfo->fn_oid, function) || !check_function_bodies)
		PG_RETURN_VOID();
	shape = new_shape(function, CurrentMemoryContext);
	terms = terms_of(PG_INT64_MAX);
	if (shape->held->image->facts.budget > terms.turns)
		deny(GEYSERPAN_TURNS, &shape->held->image->facts, &terms);
	PG_RETURN_VOID();
}

void
begin_language(void)
{
	CacheRegisterSyscacheCallback(PROCOID, at_change, (Datum) 0);
}
