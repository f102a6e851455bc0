/* The rule of answers.py as a function of PostgreSQL in C, to measure beside it. */
#include "postgres.h"

#include "fmgr.h"

PG_MODULE_MAGIC;

PG_FUNCTION_INFO_V1(native_failed);
Datum
native_failed(PG_FUNCTION_ARGS)
{
	text	   *line = PG_GETARG_TEXT_PP(0);
	const char *at = VARDATA_ANY(line);
	const char *end = at + VARSIZE_ANY_EXHDR(line);
	int			quotes = 0;
	int			status = 0;
	int			digits = 0;

	for (; digits < 3 && at < end; at++)
	{
		if (*at == '"')
			quotes++;
		else if (quotes == 2 && *at >= '0' && *at <= '9')
		{
			status = status * 10 + *at - '0';
			digits++;
		}
	}
	PG_RETURN_BOOL(status >= 500);
}
