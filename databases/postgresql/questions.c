/*
 * questions.c
 *		What is asked of texts, which changes with a raise.
 */
#include "npss_pg.h"

#include "access/htup_details.h"
#include "funcapi.h"
#include "mb/pg_wchar.h"
#include "miscadmin.h"
#include "utils/builtins.h"

bool
is_same(text *one, text *other)
{
	Bytes		left = bytes_of(one),
				right = bytes_of(other);

	return left.length == right.length && memcmp(left.at, right.at, left.length) == 0;
}

PG_FUNCTION_INFO_V1(npss_pg_is_normalized);
Datum
npss_pg_is_normalized(PG_FUNCTION_ARGS)
{
	text	   *given = PG_GETARG_TEXT_PP(0);
	Bytes		input = bytes_of(given);
	uint8		form = form_of(PG_GETARG_TEXT_PP(1));
	Version    *version = version_for_question(fcinfo);
	npss_answer answer;

	if (version == NULL)
		PG_RETURN_NULL();
	if (input.length > LONG_TEXT)
		PG_RETURN_BOOL(is_same(given, normal_form(version, form, input)));
	answer = npss_is_form(&version->handle, form, input.at, input.length);
	if (answer.status != NPSS_DONE && answer.status != NPSS_DIFFERENT)
		refuse(answer, input, version);
	PG_RETURN_BOOL(answer.status == NPSS_DONE);
}

PG_FUNCTION_INFO_V1(npss_pg_equivalent);
Datum
npss_pg_equivalent(PG_FUNCTION_ARGS)
{
	Bytes		left = bytes_of(PG_GETARG_TEXT_PP(0)),
				right = bytes_of(PG_GETARG_TEXT_PP(1));
	uint8		form = form_of(PG_GETARG_TEXT_PP(2));
	Version    *version = version_for_question(fcinfo);
	npss_answer answer;

	if (version == NULL)
		PG_RETURN_NULL();
	if (left.length + right.length > LONG_TEXT)
		PG_RETURN_BOOL(is_same(normal_form(version, form, left), normal_form(version, form, right)));
	answer = npss_equivalent(&version->handle, form == NPSS_NFKC || form == NPSS_NFKD, left.at, left.length, right.at, right.length);
	if (answer.status != NPSS_DONE && answer.status != NPSS_DIFFERENT)
		refuse(answer, left, version);
	PG_RETURN_BOOL(answer.status == NPSS_DONE);
}

/* How many bytes the front of a text has that is a piece, and ends where a character ends. */
static size_t
piece_of(Bytes input)
{
	size_t		length = Min(PIECE, input.length);

	while (length < input.length && length > PIECE - MAX_MULTIBYTE_CHAR_LEN && (input.at[length] & 0xC0) == 0x80)
		length--;
	return length;
}

/* The first code point of a text that is not assigned. */
npss_answer
first_unassigned(Version *version, Bytes input)
{
	npss_answer answer = {0};
	size_t		at = 0;

	while (at < input.length && answer.status == NPSS_DONE)
	{
		size_t		length = piece_of((Bytes) {input.at + at, input.length - at});

		CHECK_FOR_INTERRUPTS();
		answer = npss_first_unassigned(&version->handle, input.at + at, length);
		answer.place += at;
		at += length;
	}
	return answer;
}

/* The first code point that is not assigned, its place in characters from 1 and in bytes from 0; NULL if each is. */
PG_FUNCTION_INFO_V1(npss_pg_first_unassigned);
Datum
npss_pg_first_unassigned(PG_FUNCTION_ARGS)
{
	Bytes		input = bytes_of(PG_GETARG_TEXT_PP(0));
	Version    *version = version_for_question(fcinfo);
	npss_answer answer;
	TupleDesc	shape;
	Datum		values[3];
	bool		nulls[3] = {false, false, false};

	if (version == NULL)
		PG_RETURN_NULL();
	answer = first_unassigned(version, input);
	if (answer.status == NPSS_DONE)
		PG_RETURN_NULL();
	if (answer.status != NPSS_UNASSIGNED)
		refuse(answer, input, version);
	if (get_call_result_type(fcinfo, NULL, &shape) != TYPEFUNC_COMPOSITE)
		elog(ERROR, "return type must be a row type");
	values[0] = CStringGetTextDatum(psprintf("U+%04X", answer.code));
	values[1] = Int32GetDatum(characters_before(input, answer.place) + 1);
	values[2] = Int32GetDatum((int32) answer.place);
	PG_RETURN_DATUM(HeapTupleGetDatum(heap_form_tuple(BlessTupleDesc(shape), values, nulls)));
}
