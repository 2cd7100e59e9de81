/*
 * owner.c
 *		For whoever runs the database: what is in use, and what may come next.
 */
#include "npss_pg.h"

#include "access/htup_details.h"
#include "funcapi.h"
#include "utils/builtins.h"

PG_FUNCTION_INFO_V1(npss_pg_version);
Datum
npss_pg_version(PG_FUNCTION_ARGS)
{
	Version    *version = version_for_question(fcinfo);
	TupleDesc	shape;
	Datum		values[5];
	bool		nulls[5] = {false, false, false, false, false};

	if (version == NULL)
		PG_RETURN_NULL();
	if (get_call_result_type(fcinfo, NULL, &shape) != TYPEFUNC_COMPOSITE)
		elog(ERROR, "return type must be a row type");
	values[0] = CStringGetTextDatum(version->label);
	values[1] = CStringGetTextDatum(version->digest);
	values[2] = Int64GetDatum(version->assigned);
	values[3] = BoolGetDatum(version->preloaded);
	values[4] = BoolGetDatum(label_not_here() != NULL);	/* the extension's SQL before 0.3 has no place for it */
	PG_RETURN_DATUM(HeapTupleGetDatum(heap_form_tuple(BlessTupleDesc(shape), values, nulls)));
}

/* The version of a label, or an error. */
static Version *
opened(const char *label)
{
	Failure		failure;
	Version    *version = open_version(label, NULL, &failure);

	if (version == NULL)
		report(ERROR, &failure);
	return version;
}

/* What an audit found: `extends`, the first break, or that foldings are missing. */
static text *
found(npss_answer answer)
{
	npss_name	kind = break_kind(answer);

	if (answer.status == NPSS_DONE)
		return cstring_to_text("extends");
	if (answer.status == NPSS_NO_FOLDING)
		return cstring_to_text(psprintf("no %s", file_names[FOLDING_FILE]));
	return cstring_to_text(psprintf("%s %04X", kind.text, answer.code));
}

/*
 * What raising to a label would break: `extends`, or the first break.  Changes nothing.  Where an earlier version than that in
 * force serves, it is audited against that one, which is told; and so it is where the recorded foldings are not here.
 */
PG_FUNCTION_INFO_V1(npss_pg_audit);
Datum
npss_pg_audit(PG_FUNCTION_ARGS)
{
	Version    *now = version_for_question(fcinfo),
			   *then = opened(text_to_cstring(PG_GETARG_TEXT_PP(0)));
	npss_answer answer = {0};

	if (now != NULL && label_not_here() != NULL)
		ereport(WARNING,
				(errmsg("npss: audited against Unicode version \"%s\", not against \"%s\", which is in force and whose files are not here",
						now->label, label_not_here())));
	if (now != NULL && lacks_foldings())
		ereport(WARNING, (errmsg("npss: audited without the recorded %s of Unicode version \"%s\", which is not here",
								 file_names[FOLDING_FILE], now->label)));
	if (now != NULL)
		answer = keeps_keys(&now->handle, &then->handle, folds());
	shut_version(then);
	PG_RETURN_TEXT_P(found(answer));
}

/* Why the files of a version are not those that are recorded under its label, or lack foldings; NULL where they are right. */
static const char *
why_unlike(const List *rows, const Version *version)
{
	const Row  *force = linitial(rows);
	bool		is_recorded = false;
	ListCell   *at;

	foreach(at, rows)
	{
		const Row  *row = lfirst(at);

		if (strcmp(row->label, version->label) != 0)
			continue;
		is_recorded = true;
		if (strcmp(row->digest, version->digest) != 0)
			return psprintf("the files are not those that this database recorded as \"%s\"", row->label);
		if (row->folding[0] != '\0' && strcmp(row->folding, version->folding) != 0)
			return psprintf("its %s is not the one that this database recorded as \"%s\", or is not here", file_names[FOLDING_FILE], row->label);
	}
	if (!is_recorded && force->folding[0] != '\0' && version->folding[0] == '\0')
		return psprintf("version %s has no %s, which version %s has", version->label, file_names[FOLDING_FILE], force->label);
	return NULL;
}

/* Whether a version can be raised to, or is recorded, on this very server: its files are here, whole and right. */
PG_FUNCTION_INFO_V1(npss_pg_ready);
Datum
npss_pg_ready(PG_FUNCTION_ARGS)
{
	char	   *label = text_to_cstring(PG_GETARG_TEXT_PP(0));
	List	   *rows = rows_beside(fcinfo->flinfo->fn_oid);
	Failure		failure;
	Version    *version = open_version(label, NULL, &failure);
	const char *why;
	TupleDesc	shape;
	Datum		values[2];
	bool		nulls[2] = {false, false};

	if (version != NULL)
		why = why_unlike(rows, version);
	else
		why = failure.detail != NULL ? psprintf("%s: %s", failure.message, failure.detail) : failure.message;
	if (version != NULL)
		shut_version(version);
	if (get_call_result_type(fcinfo, NULL, &shape) != TYPEFUNC_COMPOSITE)
		elog(ERROR, "return type must be a row type");
	values[0] = BoolGetDatum(why == NULL);
	nulls[1] = why == NULL;
	values[1] = why == NULL ? (Datum) 0 : CStringGetTextDatum(why);
	PG_RETURN_DATUM(HeapTupleGetDatum(heap_form_tuple(BlessTupleDesc(shape), values, nulls)));
}

/* The label with the greatest count in the folder, or that of npss.version: for CREATE EXTENSION. */
PG_FUNCTION_INFO_V1(npss_pg_newest);
Datum
npss_pg_newest(PG_FUNCTION_ARGS)
{
	char		newest[LABEL_SIZE] = "";
	int64		assigned = -1;
	Failure		failure;
	List	   *labels;
	ListCell   *at;

	if (npss_wanted_version()[0] != '\0')
		PG_RETURN_TEXT_P(cstring_to_text(npss_wanted_version()));
	labels = labels_in_folder(&failure);
	foreach(at, labels)
	{
		Version    *version = open_version(lfirst(at), NULL, &failure);

		if (version == NULL)
		{
			report(WARNING, &failure);
			continue;
		}
		if (version->assigned > assigned)
		{
			assigned = version->assigned;
			strlcpy(newest, version->label, LABEL_SIZE);
		}
		shut_version(version);
	}
	if (assigned < 0)
		report(ERROR, &failure);
	/* Not NOTICE, which CREATE EXTENSION holds back. */
	ereport(INFO, (errmsg("npss: this database uses Unicode version \"%s\", the newest in npss.folder", newest)));
	PG_RETURN_TEXT_P(cstring_to_text(newest));
}
