/*
 * raise.c
 *		What gets into the record, and past which audit.
 */
#include "npss_pg.h"

#include "access/htup_details.h"
#include "commands/trigger.h"
#include "executor/spi.h"
#include "mb/pg_wchar.h"
#include "storage/lmgr.h"
#include "utils/builtins.h"
#include "utils/inval.h"
#include "utils/rel.h"
#include "utils/snapmgr.h"

/* A CaseFolding.txt that isn't the one that was recorded is refused, and so is none. */
static void
refuse_other_folding(const char *label, const char *folding)
{
	ereport(ERROR,
			(errcode(ERRCODE_OBJECT_NOT_IN_PREREQUISITE_STATE),
			 errmsg("npss: the %s of Unicode version \"%s\" is not the one that was recorded, or is not here", file_names[FOLDING_FILE], label),
			 errdetail("The recorded digest is %s.", folding),
			 errhint("Put the recorded file into npss.folder.")));
}

static void
want_utf8(void)
{
	if (GetDatabaseEncoding() != PG_UTF8)
		ereport(ERROR,
				(errcode(ERRCODE_FEATURE_NOT_SUPPORTED),
				 errmsg("npss works in databases of encoding UTF8 only"),
				 errdetail("This database has encoding %s.", GetDatabaseEncodingName())));
}

/* The version of a recorded row, with the foldings that are recorded, or an error. */
static Version *
held_version(const Row *row)
{
	Failure		failure;
	Version    *held = open_recorded(row, &failure);

	if (held == NULL)
		report(ERROR, &failure);
	if (row->folding[0] != '\0' && strcmp(held->folding, row->folding) != 0)
		refuse_other_folding(row->label, row->folding);
	return held;
}

/*
 * Whether the keys that may be stored stay keys under the newer of two versions.  Caseless keys may be where the older one has
 * foldings that are recorded, or are to be.
 */
static npss_answer
audit(Version *fresh, Version *held, const Row *force, bool is_newer)
{
	const char *older = is_newer ? force->folding : fresh->folding,
			   *newer = is_newer ? fresh->folding : force->folding;
	npss_handle *first = is_newer ? &held->handle : &fresh->handle,
			   *second = is_newer ? &fresh->handle : &held->handle;

	if (older[0] != '\0' && newer[0] == '\0')
		refuse_without_folding(is_newer ? fresh->label : held->label, is_newer ? held->label : fresh->label);
	return keeps_keys(first, second, older[0] != '\0');
}

/* Refuses a version that neither extends the one in force nor is extended by it. */
void
check_extends(Version *fresh, const Row *force)
{
	Version    *held = held_version(force);
	bool		is_newer = fresh->assigned >= force->assigned;
	npss_answer answer = audit(fresh, held, force, is_newer);
	npss_name	kind = break_kind(answer);

	if (answer.status != NPSS_DONE)
		ereport(ERROR,
				(errcode(ERRCODE_OBJECT_NOT_IN_PREREQUISITE_STATE),
				 errmsg("Unicode version \"%s\" does not extend \"%s\"",
						(is_newer ? fresh : held)->label, (is_newer ? held : fresh)->label),
				 errdetail("First break: %s %04X.", kind.text, answer.code),
				 errhint("Keys that are stored could change.  Keep the version in use.")));
}

/* Refuses a version that comes late, unless it is restored, which is told; and one that doesn't fit the one in force. */
static void
check_row(Version *fresh, const Row *force, bool is_restored)
{
	bool		is_newer = fresh->assigned >= force->assigned;

	if (!is_newer && !is_restored)
		ereport(ERROR,
				(errcode(ERRCODE_OBJECT_NOT_IN_PREREQUISITE_STATE),
				 errmsg("Unicode version \"%s\" is older than \"%s\", which this database uses", fresh->label, force->label),
				 errhint("There is no way back: stored keys may need the newer version.")));
	check_extends(fresh, force);
	if (is_newer)
		return;
	ereport(WARNING,
			(errmsg("the dump comes from Unicode version \"%s\", and this database uses \"%s\"", fresh->label, force->label),
			 errhint("To stay with the older version, restore into an empty database with npss.version = '%s'.", fresh->label)));
}

/*
 * With which foldings a row's version is opened: a row that is restored has those that it had.  One that had none gets those that
 * are here where the row in force has some, and so does a row that is raised to in any case.
 */
static const char *
foldings_wanted(const char *given, bool is_restored, const List *rows, TupleDesc shape)
{
	if (shape->natts < FOLDING_COLUMN)
		return "";
	if (!is_restored)
		return NULL;
	return given[0] == '\0' && rows != NIL && ((Row *) linitial(rows))->folding[0] != '\0' ? NULL : given;
}

/* The version of a row that is to be recorded: of its label, and where it has a digest, of these files. */
static Version *
version_of_row(HeapTuple row, TupleDesc shape, const List *rows, bool *is_restored)
{
	Failure		failure;
	Version    *fresh;
	bool		is_null;
	char	   *label;
	char		folding[DIGEST_SIZE];
	Datum		value = SPI_getbinval(row, shape, LABEL_COLUMN, &is_null);

	if (is_null)
		ereport(ERROR, (errcode(ERRCODE_NOT_NULL_VIOLATION), errmsg("npss_record wants a label")));
	label = TextDatumGetCString(value);
	value = SPI_getbinval(row, shape, DIGEST_COLUMN, &is_null);
	*is_restored = !is_null;
	put_column(row, shape, FOLDING_COLUMN, folding, DIGEST_SIZE);
	fresh = open_version(label, foldings_wanted(folding, *is_restored, rows, shape), &failure);
	if (fresh == NULL)
		report(ERROR, &failure);
	if (*is_restored && folding[0] != '\0' && strcmp(fresh->folding, folding) != 0)
		refuse_other_folding(label, folding);
	if (*is_restored && strcmp(fresh->digest, TextDatumGetCString(value)) != 0)
		ereport(ERROR,
				(errcode(ERRCODE_OBJECT_NOT_IN_PREREQUISITE_STATE),
				 errmsg("npss: the files of Unicode version \"%s\" are not those that were recorded", label),
				 errdetail("The recorded digest is %s.", TextDatumGetCString(value)),
				 errhint("Put the recorded files into npss.folder.")));
	return fresh;
}

/* The row that records these files, or NULL. */
static const Row *
row_of_digest(const List *rows, const char *digest)
{
	ListCell   *at;

	foreach(at, rows)
		if (strcmp(((Row *) lfirst(at))->digest, digest) == 0)
			return lfirst(at);
	return NULL;
}

/* What is to be done of a row whose files are recorded already: foldings that the row in force lacks are recorded. */
static void
meet_again(Relation relation, const Version *fresh, const Row *recorded, bool is_in_force)
{
	bool		is_own = strcmp(recorded->label, fresh->label) == 0;

	if (!is_own)
		ereport(NOTICE,
				(errmsg("the files of Unicode version \"%s\" are recorded already as \"%s\"", fresh->label, recorded->label)));
	else if (is_in_force && recorded->folding[0] == '\0' && fresh->folding[0] != '\0')
		record_folding(relation, fresh);
}

/* The row with what is told of its version. */
static HeapTuple
filled_in(HeapTuple row, TupleDesc shape, const Version *fresh)
{
	int			columns[] = {DIGEST_COLUMN, ASSIGNED_COLUMN, ASCII_COLUMN, FOLDING_COLUMN};
	bool		nulls[] = {false, false, false, fresh->folding[0] == '\0'};
	Datum		values[] = {CStringGetTextDatum(fresh->digest), Int64GetDatum(fresh->assigned), BoolGetDatum(fresh->ascii),
	CStringGetTextDatum(fresh->folding)};

	return heap_modify_tuple_by_cols(row, shape, shape->natts < FOLDING_COLUMN ? 3 : 4, columns, values, nulls);
}

/* Before a row gets into the record: audits it against the row in force; NULL where its files are recorded already. */
static HeapTuple
check_insert(TriggerData *call)
{
	Relation	relation = call->tg_relation;
	bool		is_restored;
	List	   *rows = read_rows(relation, SnapshotSelf);	/* with the rows that this very statement has put in */
	Version    *fresh = version_of_row(call->tg_trigtuple, RelationGetDescr(relation), rows, &is_restored);
	const Row  *recorded = row_of_digest(rows, fresh->digest);
	HeapTuple	row = NULL;

	if (rows != NIL && strcmp(((Row *) linitial(rows))->digest, fresh->digest) != 0)
		check_row(fresh, linitial(rows), is_restored);
	if (recorded != NULL && recorded->folding[0] != '\0' && !(is_restored && fresh->folding[0] == '\0') &&
		strcmp(recorded->folding, fresh->folding) != 0)
		refuse_other_folding(recorded->label, recorded->folding);
	if (recorded != NULL)
		meet_again(relation, fresh, recorded, recorded == linitial(rows));
	else
		row = filled_in(call->tg_trigtuple, RelationGetDescr(relation), fresh);
	shut_version(fresh);
	if (row != NULL)
		CacheInvalidateRelcache(relation);
	return row;
}

/* Before the record changes. */
PG_FUNCTION_INFO_V1(npss_pg_record_check);
Datum
npss_pg_record_check(PG_FUNCTION_ARGS)
{
	TriggerData *call = (TriggerData *) fcinfo->context;

	if (!CALLED_AS_TRIGGER(fcinfo))
		elog(ERROR, "npss_record_check is a trigger");
	if (!TRIGGER_FIRED_BY_INSERT(call->tg_event) && !TRIGGER_FIRED_BY_UPDATE(call->tg_event))
		ereport(ERROR,
				(errcode(ERRCODE_OBJECT_NOT_IN_PREREQUISITE_STATE),
				 errmsg("npss_record only grows"),
				 errdetail("Stored keys may need each version that was recorded.")));
	want_utf8();
	/* It keeps other raises away, but not their INSERT, which has its lock already: no two wait for one another. */
	LockRelationOid(RelationGetRelid(call->tg_relation), ShareUpdateExclusiveLock);
	if (TRIGGER_FIRED_BY_UPDATE(call->tg_event))
		PG_RETURN_POINTER(check_update(call));
	PG_RETURN_POINTER(check_insert(call));
}
