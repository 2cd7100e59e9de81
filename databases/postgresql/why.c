/*
 * why.c
 *		What a version says of each code point of a text.
 */
#include "npss_pg.h"

#include "funcapi.h"
#include "lib/stringinfo.h"
#include "mb/pg_wchar.h"
#include "miscadmin.h"
#include "utils/builtins.h"
#include "utils/tuplestore.h"

/* The full compatibility decomposition of a code point, as code points in hex digits; the empty text of one without. */
static text *
decomposition_of(Version *version, pg_wchar code)
{
	uint8		room[1024],
				own[8];
	npss_answer answer = npss_decomposition(&version->handle, true, code, room, sizeof room);
	StringInfoData digits;

	initStringInfo(&digits);
	unicode_to_utf8(code, own);
	if (answer.status == NPSS_DONE && !(answer.length == pg_utf_mblen(own) && memcmp(room, own, answer.length) == 0))
		for (size_t at = 0; at < answer.length; at += pg_utf_mblen(room + at))
			appendStringInfo(&digits, "%s%04X", at > 0 ? " " : "", utf8_to_unicode(room + at));
	return cstring_to_text_with_len(digits.data, digits.len);
}

/* Where a function puts its rows: what InitMaterializedSRF does, which PostgreSQL 15.0 and those before lack. */
static ReturnSetInfo *
begin_rows(FunctionCallInfo call)
{
	ReturnSetInfo *result = (ReturnSetInfo *) call->resultinfo;
	MemoryContext before;

	if (result == NULL || !IsA(result, ReturnSetInfo) || !(result->allowedModes & SFRM_Materialize))
		ereport(ERROR,
				(errcode(ERRCODE_FEATURE_NOT_SUPPORTED),
				 errmsg("set-valued function called in context that cannot accept a set")));
	before = MemoryContextSwitchTo(result->econtext->ecxt_per_query_memory);
	if (get_call_result_type(call, NULL, &result->setDesc) != TYPEFUNC_COMPOSITE)
		elog(ERROR, "return type must be a row type");
	result->setResult = tuplestore_begin_heap((result->allowedModes & SFRM_Materialize_Random) != 0, false, work_mem);
	result->returnMode = SFRM_Materialize;
	MemoryContextSwitchTo(before);
	return result;
}

/* A row: what the version says of a code point, which is a number from 1 of the text. */
static void
put_row(ReturnSetInfo *result, Version *version, int number, pg_wchar code)
{
	static const char *const mappings[] = {NULL, "canonical", "compatibility"};
	npss_answer facts = npss_property(&version->handle, code);
	bool		assigned = facts.status == NPSS_DONE;
	const char *mapping = assigned && facts.fault < lengthof(mappings) ? mappings[facts.fault] : NULL;
	Datum		values[7];
	bool		nulls[7] = {false};

	values[0] = Int32GetDatum(number);
	values[1] = CStringGetTextDatum(psprintf("U+%04X", code));
	values[2] = BoolGetDatum(assigned);
	values[3] = Int32GetDatum(assigned ? (int32) facts.code : 0);
	nulls[4] = mapping == NULL;
	values[4] = nulls[4] ? (Datum) 0 : CStringGetTextDatum(mapping);
	values[5] = PointerGetDatum(decomposition_of(version, code));
	values[6] = BoolGetDatum(assigned && facts.place != 0);
	tuplestore_putvalues(result->setResult, result->setDesc, values, nulls);
}

/* What the version says of each code point of a text, a row each. */
PG_FUNCTION_INFO_V1(npss_pg_why);
Datum
npss_pg_why(PG_FUNCTION_ARGS)
{
	Bytes		input = bytes_of(PG_GETARG_TEXT_PP(0));
	Version    *version = version_for_question(fcinfo);
	ReturnSetInfo *result = begin_rows(fcinfo);
	int			number = 0,
				length;

	for (size_t at = 0; version != NULL && at < input.length; at += length)
	{
		CHECK_FOR_INTERRUPTS();
		length = pg_utf_mblen(input.at + at);
		if ((size_t) length > input.length - at)
			refuse((npss_answer) {.status = NPSS_NOT_UTF8, .place = at}, input, version);
		put_row(result, version, ++number, utf8_to_unicode(input.at + at));
	}
	return (Datum) 0;
}
