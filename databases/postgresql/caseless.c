/*
 * caseless.c
 *		Caseless keys (The Unicode Standard, D145 and D146), and which texts match caselessly.
 */
#include "npss_pg.h"

#include "lib/stringinfo.h"
#include "mb/pg_wchar.h"
#include "miscadmin.h"
#include "utils/builtins.h"

/* ---------- long texts, which are made step by step, as the definition has it, so that they can be interrupted */

/* Appends what a code point of a text folds to: itself where it is not assigned. */
static void
append_folding(Version *version, const uint8 *at, int length, StringInfo made)
{
	uint8		room[256];
	npss_answer answer = npss_folding(&version->handle, utf8_to_unicode(at), room, sizeof room);

	if (answer.status == NPSS_DONE)
		appendBinaryStringInfo(made, (const char *) room, (int) answer.length);
	else if (answer.status == NPSS_UNASSIGNED)
		appendBinaryStringInfo(made, (const char *) at, length);
	else
		refuse(answer, (Bytes) {at, length}, version);
}

/* The folding of a text that is a form of some text, and so UTF-8; it goes. */
static text *
folded(Version *version, text *given)
{
	Bytes		input = bytes_of(given);
	StringInfoData made;
	int			length;

	initStringInfo(&made);
	appendStringInfoSpaces(&made, VARHDRSZ);
	for (size_t at = 0; at < input.length; at += length)
	{
		CHECK_FOR_INTERRUPTS();
		length = pg_utf_mblen(input.at + at);
		append_folding(version, input.at + at, length, &made);
	}
	pfree(given);
	SET_VARSIZE(made.data, made.len);
	return (text *) made.data;
}

/* A form of a text; that goes. */
static text *
reformed(Version *version, uint8 form, text *given)
{
	text	   *made = normal_form(version, form, bytes_of(given));

	pfree(given);
	return made;
}

/* The caseless form of a text, whether or not its code points are assigned. */
static text *
caseless_form(Version *version, uint8 form, Bytes input)
{
	text	   *made = folded(version, normal_form(version, NPSS_NFD, input));

	if (form == NPSS_NFKC || form == NPSS_NFKD)
		made = folded(version, reformed(version, NPSS_NFKD, made));
	return reformed(version, form, made);
}

/* The caseless key of a long text; NULL where the answer isn't done. */
text *
make_long_caseless(Version *version, uint8 form, Bytes input, npss_answer *answer)
{
	*answer = first_unassigned(version, input);
	return answer->status == NPSS_DONE ? caseless_form(version, form, input) : NULL;
}

/* ---------- the calls */

/* One function for each form, so that an index is never missed for the spelling of a word. */
PG_FUNCTION_INFO_V1(npss_pg_caseless_nfc);
Datum
npss_pg_caseless_nfc(PG_FUNCTION_ARGS)
{
	return made_or_null(fcinfo, (Wanted) {npss_caseless_key, NPSS_NFC, false});
}

PG_FUNCTION_INFO_V1(npss_pg_caseless_nfd);
Datum
npss_pg_caseless_nfd(PG_FUNCTION_ARGS)
{
	return made_or_null(fcinfo, (Wanted) {npss_caseless_key, NPSS_NFD, false});
}

PG_FUNCTION_INFO_V1(npss_pg_caseless_nfkc);
Datum
npss_pg_caseless_nfkc(PG_FUNCTION_ARGS)
{
	return made_or_null(fcinfo, (Wanted) {npss_caseless_key, NPSS_NFKC, false});
}

PG_FUNCTION_INFO_V1(npss_pg_caseless_nfkd);
Datum
npss_pg_caseless_nfkd(PG_FUNCTION_ARGS)
{
	return made_or_null(fcinfo, (Wanted) {npss_caseless_key, NPSS_NFKD, false});
}

PG_FUNCTION_INFO_V1(npss_pg_caseless_key);
Datum
npss_pg_caseless_key(PG_FUNCTION_ARGS)
{
	return made_or_null(fcinfo, (Wanted) {npss_caseless_key, form_of(PG_GETARG_TEXT_PP(1)), false});
}

PG_FUNCTION_INFO_V1(npss_pg_try_caseless_key);
Datum
npss_pg_try_caseless_key(PG_FUNCTION_ARGS)
{
	return made_or_null(fcinfo, (Wanted) {npss_caseless_key, form_of(PG_GETARG_TEXT_PP(1)), true});
}

/* Whether two texts match caselessly, by the kind of a form. */
PG_FUNCTION_INFO_V1(npss_pg_caseless_match);
Datum
npss_pg_caseless_match(PG_FUNCTION_ARGS)
{
	Bytes		left = bytes_of(PG_GETARG_TEXT_PP(0)),
				right = bytes_of(PG_GETARG_TEXT_PP(1));
	uint8		form = form_of(PG_GETARG_TEXT_PP(2));
	bool		compatible = form == NPSS_NFKC || form == NPSS_NFKD;
	Version    *version = version_for_question(fcinfo);
	npss_answer answer;

	if (version != NULL)
		version = version_with_foldings(fcinfo);
	if (version == NULL)
		PG_RETURN_NULL();
	if (left.length + right.length > LONG_TEXT)
	{
		uint8		kind = compatible ? NPSS_NFKD : NPSS_NFD;

		PG_RETURN_BOOL(is_same(caseless_form(version, kind, left), caseless_form(version, kind, right)));
	}
	answer = npss_caseless_match(&version->handle, compatible, left.at, left.length, right.at, right.length);
	if (answer.status != NPSS_DONE && answer.status != NPSS_DIFFERENT)
		refuse(answer, left, version);
	PG_RETURN_BOOL(answer.status == NPSS_DONE);
}
