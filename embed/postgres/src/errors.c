/* Statuses of the library as errors of the server. */
#include "extension.h"

#include "utils/builtins.h"

#define LONGEST_TEXT 96

static int
sqlstate_of(uint32 status)
{
	switch (status)
	{
		case GEYSERPAN_NO_IMAGE:
			return ERRCODE_INVALID_BINARY_REPRESENTATION;
		case GEYSERPAN_REFUSED:
			return ERRCODE_INVALID_FUNCTION_DEFINITION;
		case GEYSERPAN_SOURCE:
			return ERRCODE_SYNTAX_ERROR;
		case GEYSERPAN_MEMORY:
			return ERRCODE_OUT_OF_MEMORY;
		case GEYSERPAN_TURNS:
			return ERRCODE_CONFIGURATION_LIMIT_EXCEEDED;
		case GEYSERPAN_OUTPUT:
			return ERRCODE_PROGRAM_LIMIT_EXCEEDED;
		default:
			return ERRCODE_INTERNAL_ERROR;
	}
}

static int
hint_of(uint32 status)
{
	switch (status)
	{
		case GEYSERPAN_REFUSED:
			return errhint("\"inspect why IMAGE\" tells what is broken there, and what mends it.");
		case GEYSERPAN_MEMORY:
			return errhint("\"geyserpan.max_memory\" grants %d kB.", settings.max_memory);
		case GEYSERPAN_TURNS:
			return errhint("\"max_turns\" of the call and \"geyserpan.max_turns\" grant them; the lesser counts.");
		case GEYSERPAN_OUTPUT:
			return errhint("\"geyserpan.max_output\" grants %d kB.", settings.max_output);
		default:
			return 0;
	}
}

static void
raise(uint32 status, const char *words, size_t length)
{
	ereport(ERROR,
			errcode(sqlstate_of(status)),
			status == GEYSERPAN_MEMORY ? errmsg("geyserpan: memory was refused") :
			errmsg("geyserpan: %.*s", (int) length, words),
			hint_of(status));
}

/* Raises the error of a status that `why` explains. */
void
fail(uint32 status, const geyserpan_why *why)
{
	char		words[LONGEST_TEXT];

	raise(status, words, geyserpan_why_text(status, why, (uint8 *) words, sizeof words));
	pg_unreachable();
}

/* Raises the error of a status that compares an image with terms. */
void
deny(uint32 status, const geyserpan_facts *facts, const geyserpan_terms *terms)
{
	char		words[LONGEST_TEXT];

	raise(status, words, geyserpan_terms_text(status, facts, terms, (uint8 *) words, sizeof words));
	pg_unreachable();
}

/* A verdict in words. */
text *
verdict_of(uint32 status, const geyserpan_why *why)
{
	char		words[LONGEST_TEXT];

	if (status == GEYSERPAN_OK)
		return cstring_to_text("accepted");
	return cstring_to_text_with_len(words, geyserpan_why_text(status, why, (uint8 *) words, sizeof words));
}

/* The test of the front end's by which a run with this exit word ended, or NULL. */
const char *
name_of_test(uint32 exit)
{
	switch (geyserpan_exit_kind(exit))
	{
		case GEYSERPAN_TEST_NONE:
			return NULL;
		case GEYSERPAN_TEST_INDEX:
			return "index";
		case GEYSERPAN_TEST_POINTER:
			return "pointer";
		case GEYSERPAN_TEST_DIVISOR:
			return "divisor";
		case GEYSERPAN_TEST_LOOPS:
			return "loops";
		case GEYSERPAN_TEST_DEPTH:
			return "depth";
		case GEYSERPAN_TEST_CALL:
			return "call";
		default:
			return "other";
	}
}
