/*
 * keys.c
 *		Keys and normal forms.
 */
#include "npss_pg.h"

#include "lib/stringinfo.h"
#include "miscadmin.h"
#include "utils/builtins.h"
#include "utils/memutils.h"

/* The room for what is made of shorter texts. */
#define ROOM (64 * 1024)

/* ---------- long texts */

/* A stream that is closed where its memory context ends, also at an error. */
typedef struct Stream
{
	npss_stream stream;
	MemoryContextCallback end;
} Stream;

static void
close_stream(void *stream)
{
	npss_stream_close(stream);
}

static npss_stream *
begin_stream(Version *version, uint8 form, Bytes input)
{
	Stream	   *made = palloc0(sizeof(Stream));
	npss_answer answer;

	made->end.func = close_stream;
	made->end.arg = &made->stream;
	MemoryContextRegisterResetCallback(CurrentMemoryContext, &made->end);
	answer = npss_stream_new(&made->stream, &version->handle, form);
	if (answer.status != NPSS_DONE)
		refuse(answer, input, version);
	return &made->stream;
}

/* Appends all that is ready. */
static void
append_ready(npss_stream *stream, uint64 ready, StringInfo made)
{
	if (ready > MaxAllocSize - VARHDRSZ - made->len - 1)
		ereport(ERROR,
				(errcode(ERRCODE_PROGRAM_LIMIT_EXCEEDED),
				 errmsg("the text is too long"),
				 errdetail("What is made of it has %llu bytes or more.", (unsigned long long) (ready + made->len))));
	enlargeStringInfo(made, (int) ready);
	made->len += (int) npss_stream_take(stream, (uint8 *) made->data + made->len, (size_t) ready).length;
}

/* The normal form of a long text behind a varlena's head, piece by piece; what the stream's end told is the answer. */
static npss_answer
make_long(Version *version, uint8 form, Bytes input, StringInfo made)
{
	npss_stream *stream = begin_stream(version, form, input);
	npss_answer answer;

	initStringInfo(made);
	appendStringInfoSpaces(made, VARHDRSZ);
	for (size_t at = 0; at < input.length; at += PIECE)
	{
		CHECK_FOR_INTERRUPTS();
		answer = npss_stream_feed(stream, input.at + at, Min(PIECE, input.length - at));
		if (answer.status != NPSS_DONE)
			refuse(answer, input, version);
		append_ready(stream, answer.length, made);
	}
	answer = npss_stream_finish(stream);
	if (answer.status == NPSS_DONE || answer.status == NPSS_UNASSIGNED)
		append_ready(stream, answer.length, made);
	npss_stream_close(stream);
	return answer;
}

static text *
text_of(StringInfo made)
{
	SET_VARSIZE(made->data, made->len);
	return (text *) made->data;
}

/* ---------- making */

/* A short text: into a room, and where that is too small into a text of the length that was told. */
static text *
make_short(Version *version, const Wanted *wanted, Bytes input, npss_answer *answer)
{
	static uint8 *room = NULL;
	text	   *made;

	if (room == NULL)
		room = MemoryContextAlloc(TopMemoryContext, ROOM);
	*answer = wanted->make(&version->handle, wanted->form, input.at, input.length, room, ROOM);
	if (answer->status == NPSS_DONE)
		return cstring_to_text_with_len((const char *) room, (int) answer->length);
	if (answer->status != NPSS_NO_ROOM)
		return NULL;
	made = palloc(VARHDRSZ + answer->length);
	*answer = wanted->make(&version->handle, wanted->form, input.at, input.length, (uint8 *) VARDATA(made), answer->length);
	SET_VARSIZE(made, VARHDRSZ + answer->length);
	return answer->status == NPSS_DONE ? made : NULL;
}

static text *
make_once(Version *version, const Wanted *wanted, Bytes input, npss_answer *answer)
{
	StringInfoData made;

	if (input.length <= LONG_TEXT)
		return make_short(version, wanted, input, answer);
	if (wanted->make == npss_caseless_key)
		return make_long_caseless(version, wanted->form, input, answer);
	*answer = make_long(version, wanted->form, input, &made);
	if (answer->status == NPSS_UNASSIGNED && wanted->make == npss_normalize)
		answer->status = NPSS_DONE;	/* it is the normal form, which was asked for */
	return answer->status == NPSS_DONE ? text_of(&made) : NULL;
}

/* The version for what is wanted.  What is an error for a key is followed before it is told. */
static Version *
version_for(FunctionCallInfo fcinfo, Maker make)
{
	if (make == npss_caseless_key)
		return version_with_foldings(fcinfo);
	return make == npss_key ? version_in_force(fcinfo) : version_for_question(fcinfo);
}

/* What is wanted of a text; NULL where it has no key and may, and in ANALYZE where there are no tables, or older ones. */
static text *
make(FunctionCallInfo fcinfo, Wanted wanted)
{
	text	   *given = PG_GETARG_TEXT_PP(0);
	Bytes		input = bytes_of(given);
	npss_answer answer;
	Version    *version,
			   *newer;
	text	   *made;

	if (wanted.make != npss_caseless_key && needs_no_tables(fcinfo, (const char *) input.at, input.length))
		return given;
	version = version_for(fcinfo, wanted.make);
	if (version == NULL)
		return NULL;
	made = make_once(version, &wanted, input, &answer);
	if (made == NULL && answer.status == NPSS_UNASSIGNED)
	{
		newer = wanted.may_lack ? version_for_question(fcinfo) : newer_version(fcinfo, version);
		if (newer != NULL && newer != version && wanted.make == npss_caseless_key)
			newer = version_with_foldings(fcinfo);
		if (newer != NULL && newer != version)
			made = make_once(version = newer, &wanted, input, &answer);
	}
	if (made == NULL && !(answer.status == NPSS_UNASSIGNED && (wanted.may_lack || lags_in_analyze())))
		refuse(answer, input, version);
	return made;
}

Datum
made_or_null(FunctionCallInfo fcinfo, Wanted wanted)
{
	text	   *made = make(fcinfo, wanted);

	if (made == NULL)
		PG_RETURN_NULL();
	PG_RETURN_TEXT_P(made);
}

/* One function for each form, so that an index is never missed for the spelling of a word. */
PG_FUNCTION_INFO_V1(npss_pg_nfc);
Datum
npss_pg_nfc(PG_FUNCTION_ARGS)
{
	return made_or_null(fcinfo, (Wanted) {npss_key, NPSS_NFC, false});
}

PG_FUNCTION_INFO_V1(npss_pg_nfd);
Datum
npss_pg_nfd(PG_FUNCTION_ARGS)
{
	return made_or_null(fcinfo, (Wanted) {npss_key, NPSS_NFD, false});
}

PG_FUNCTION_INFO_V1(npss_pg_nfkc);
Datum
npss_pg_nfkc(PG_FUNCTION_ARGS)
{
	return made_or_null(fcinfo, (Wanted) {npss_key, NPSS_NFKC, false});
}

PG_FUNCTION_INFO_V1(npss_pg_nfkd);
Datum
npss_pg_nfkd(PG_FUNCTION_ARGS)
{
	return made_or_null(fcinfo, (Wanted) {npss_key, NPSS_NFKD, false});
}

PG_FUNCTION_INFO_V1(npss_pg_key);
Datum
npss_pg_key(PG_FUNCTION_ARGS)
{
	return made_or_null(fcinfo, (Wanted) {npss_key, form_of(PG_GETARG_TEXT_PP(1)), false});
}

PG_FUNCTION_INFO_V1(npss_pg_try_key);
Datum
npss_pg_try_key(PG_FUNCTION_ARGS)
{
	return made_or_null(fcinfo, (Wanted) {npss_key, form_of(PG_GETARG_TEXT_PP(1)), true});
}

PG_FUNCTION_INFO_V1(npss_pg_normalize);
Datum
npss_pg_normalize(PG_FUNCTION_ARGS)
{
	return made_or_null(fcinfo, (Wanted) {npss_normalize, form_of(PG_GETARG_TEXT_PP(1)), false});
}

/* The normal form of a text, or an error. */
text *
normal_form(Version *version, uint8 form, Bytes input)
{
	npss_answer answer;
	text	   *made = make_once(version, &(Wanted) {npss_normalize, form, false}, input, &answer);

	if (made == NULL)
		refuse(answer, input, version);
	return made;
}
