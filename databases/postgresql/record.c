/*
 * record.c
 *		The record of the versions that a database has used, and which is in force.
 */
#include "npss_pg.h"

#include "access/genam.h"
#include "access/table.h"
#include "access/xact.h"
#include "catalog/namespace.h"
#include "commands/progress.h"
#include "executor/spi.h"
#include "miscadmin.h"
#if PG_VERSION_NUM >= 140000
#include "utils/backend_status.h"
#else
#include "pgstat.h"
#endif
#include "utils/builtins.h"
#include "utils/inval.h"
#include "utils/lsyscache.h"
#include "utils/plancache.h"
#include "utils/rel.h"
#include "utils/syscache.h"
#include "utils/timestamp.h"

/* What this process knows of the record, until the record changes. */
static struct
{
	Oid			table;			/* npss_record, where it was read and has not changed since; else invalid */
	bool		ascii;			/* texts of ASCII are their own keys under the version in force */
	bool		lags;			/* the files of the version in force were not here: another one serves */
	bool		folds;			/* what serves was recorded with foldings, and has them */
	bool		unfolded;		/* what serves was recorded with foldings, which were not here */
	bool		late;			/* what serves was recorded without foldings, and the version in force with some */
	TimestampTz looked;			/* the beginning of the statement that last looked whether they are here by now */
	Version    *version;		/* what serves; NULL where no text has wanted it yet */
	char		label[LABEL_SIZE];	/* of the version in force */
	char		folding[DIGEST_SIZE];	/* of what serves, as recorded; empty where none is */
}			known;

static Oid	watched = InvalidOid;	/* the table whose changes are listened to */

/* ---------- the rows */

/* Of rows with as many code points one with foldings comes first: caseless keys are made by it. */
static int
by_folding(const Row *left, const Row *right)
{
	return (right->folding[0] != '\0') - (left->folding[0] != '\0');
}

static int
by_count(const ListCell *left, const ListCell *right)
{
	int64		a = ((Row *) lfirst(left))->assigned,
				b = ((Row *) lfirst(right))->assigned;

	return a > b ? -1 : a < b ? 1 : by_folding(lfirst(left), lfirst(right));
}

/* The text of a column of a row; the empty one where it is NULL, or where the SQL of before has no such column. */
void
put_column(HeapTuple tuple, TupleDesc shape, int column, char *room, size_t size)
{
	bool		is_null = true;
	Datum		value = column <= shape->natts ? SPI_getbinval(tuple, shape, column, &is_null) : (Datum) 0;

	strlcpy(room, is_null ? "" : TextDatumGetCString(value), size);
}

/*
 * The rows of the record, from the greatest count: the first is in force, and extends each other one.  Without a snapshot
 * they are those that were committed last.
 */
List *
read_rows(Relation relation, Snapshot snapshot)
{
	SysScanDesc scan = systable_beginscan(relation, InvalidOid, false, snapshot, 0, NULL);
	TupleDesc	shape = RelationGetDescr(relation);
	List	   *rows = NIL;
	HeapTuple	tuple;

	while (HeapTupleIsValid(tuple = systable_getnext(scan)))
	{
		Row		   *row = palloc(sizeof(Row));
		bool		is_null;

		put_column(tuple, shape, LABEL_COLUMN, row->label, LABEL_SIZE);
		put_column(tuple, shape, DIGEST_COLUMN, row->digest, DIGEST_SIZE);
		put_column(tuple, shape, FOLDING_COLUMN, row->folding, DIGEST_SIZE);
		row->assigned = DatumGetInt64(SPI_getbinval(tuple, shape, ASSIGNED_COLUMN, &is_null));
		row->ascii = DatumGetBool(SPI_getbinval(tuple, shape, ASCII_COLUMN, &is_null));
		rows = lappend(rows, row);
	}
	systable_endscan(scan);
	list_sort(rows, by_count);
	return rows;
}

/* The record beside a function, and its rows. */
List *
rows_beside(Oid function)
{
	Oid			found = get_relname_relid("npss_record", get_func_namespace(function));
	Relation	relation;
	List	   *rows;

	if (!OidIsValid(found))
		ereport(ERROR,
				(errcode(ERRCODE_UNDEFINED_TABLE),
				 errmsg("npss_record is not beside this function"),
				 errhint("CREATE EXTENSION npss makes both.")));
	relation = table_open(found, AccessShareLock);
	watched = found;
	known.table = found;		/* before the rows are read, so that no change is missed */
	known.version = NULL;
	rows = read_rows(relation, NULL);
	table_close(relation, AccessShareLock);
	if (rows == NIL)
	{
		known.table = InvalidOid;
		ereport(ERROR,
				(errcode(ERRCODE_OBJECT_NOT_IN_PREREQUISITE_STATE),
				 errmsg("npss_record is empty"),
				 errhint("SELECT npss_raise('15.0') records the version of that folder.")));
	}
	known.ascii = ((Row *) linitial(rows))->ascii;
	strlcpy(known.label, ((Row *) linitial(rows))->label, LABEL_SIZE);
	return rows;
}

/* ---------- the version in force */

/*
 * The version of a row, where its files have the digest that was recorded; it is kept.  NULL where it fails.  It has the
 * recorded foldings where these are here.
 */
Version *
open_recorded(const Row *row, Failure *failure)
{
	Version    *version = find_version(row->digest, row->folding);

	if (version != NULL || (version = open_version(row->label, row->folding, failure)) == NULL)
		return version;
	if (strcmp(version->digest, row->digest) == 0)
	{
		keep_version(version);
		return version;
	}
	shut_version(version);
	failure->sqlstate = ERRCODE_OBJECT_NOT_IN_PREREQUISITE_STATE;
	failure->message = psprintf("npss: the files of Unicode version \"%s\" are not those that this database recorded", row->label);
	failure->detail = psprintf("The recorded digest is %s.", row->digest);
	failure->hint = "Put the recorded files back.  Newer files go into a folder of their own, and npss_raise() lets them in.";
	return NULL;
}

/*
 * Whether the present command is ANALYZE, which asks for keys of rows that are stored already, and stores none.  The process
 * tells that by itself, unless it tracks no activities; PostgreSQL 13 keeps it to itself.  VACUUM is another command: it
 * stores what it asks for in BRIN indexes.
 */
static bool
is_analyzing(void)
{
#if PG_VERSION_NUM >= 140000
	return MyBEEntry != NULL && MyBEEntry->st_progress_command == PROGRESS_COMMAND_ANALYZE;
#else
	return false;
#endif
}

/* Takes note of what serves beside the row in force, and whether it makes caseless keys. */
static void
serve(Version *version, const Row *row, const Row *force)
{
	known.version = version;
	known.lags = row != force;
	strlcpy(known.folding, row->folding, DIGEST_SIZE);
	known.folds = row->folding[0] != '\0' && strcmp(version->folding, row->folding) == 0;
	known.unfolded = row->folding[0] != '\0' && !known.folds;
	known.late = row->folding[0] == '\0' && force->folding[0] != '\0';
}

/*
 * Opens the version in force.  Where its files are not here, as on a standby that got them late, the newest recorded one
 * whose files are here serves, which is told as loudly as `level` says: its keys are the same, but it refuses more.  Where
 * none is here it is an error; in ANALYZE a warning and NULL.
 */
static Version *
open_in_force(Oid function, int level)
{
	List	   *rows = rows_beside(function);
	Version    *version = NULL;
	Failure		failure;
	ListCell   *at;

	foreach(at, rows)
	{
		version = open_recorded(lfirst(at), &failure);
		if (version != NULL)
		{
			serve(version, lfirst(at), linitial(rows));
			break;
		}
		report(lnext(rows, at) != NULL ? level : is_analyzing() ? WARNING : ERROR, &failure);
	}
	if (version == NULL)
	{
		known.table = InvalidOid;
		return NULL;
	}
	known.looked = GetCurrentStatementStartTimestamp();
	list_free_deep(rows);
	shut_versions_but(version);
	return version;
}

/* The version in force; NULL in ANALYZE alone, where its files are missing. */
Version *
version_in_force(FunctionCallInfo call)
{
	if (likely(OidIsValid(known.table) && known.version != NULL))
		return known.version;
	return open_in_force(call->flinfo->fn_oid, WARNING);
}

/* What serves, where it lags behind the record: once in a statement it is looked whether the newer files are here by now. */
static Version *
followed(FunctionCallInfo call, int level)
{
	if (!known.lags || known.looked == GetCurrentStatementStartTimestamp())
		return known.version;
	return open_in_force(call->flinfo->fn_oid, level);
}

/* The version in force, for an answer that a newer one gives otherwise; NULL as version_in_force. */
Version *
version_for_question(FunctionCallInfo call)
{
	Version    *version = version_in_force(call);

	return version == NULL || likely(!known.lags) ? version : followed(call, DEBUG1);
}

/* Before a refusal: the version that serves now. */
Version *
newer_version(FunctionCallInfo call, Version *version)
{
	return likely(!known.lags) ? version : followed(call, WARNING);
}

/* Whether what serves makes caseless keys. */
bool
folds(void)
{
	return known.folds;
}

/* Whether what serves was recorded with foldings, which were not here. */
bool
lacks_foldings(void)
{
	return known.unfolded;
}

/* Tells why what serves makes no caseless key, as loudly as `level` says. */
static void
report_unfolded(int level)
{
	if (known.unfolded)
		ereport(level,
				(errcode(ERRCODE_OBJECT_NOT_IN_PREREQUISITE_STATE),
				 errmsg("npss: the %s of Unicode version \"%s\" is not the one that this database recorded, or is not here",
						file_names[FOLDING_FILE], known.version->label),
				 errdetail("The recorded digest is %s.", known.folding),
				 errhint("Put the recorded file back.")));
	else if (known.late)
		ereport(level,
				(errcode(ERRCODE_OBJECT_NOT_IN_PREREQUISITE_STATE),
				 errmsg("npss: the files of Unicode version \"%s\" are not here, and \"%s\" was recorded without %s",
						known.label, known.version->label, file_names[FOLDING_FILE]),
				 errhint("Put the recorded files back.")));
	else
		ereport(level,
				(errcode(ERRCODE_OBJECT_NOT_IN_PREREQUISITE_STATE),
				 errmsg("Unicode version \"%s\" was recorded without %s, and makes no caseless keys",
						known.label, file_names[FOLDING_FILE]),
				 errhint("Put %s into its folder: npss_raise('%s') takes it.", file_names[FOLDING_FILE], known.label)));
}

/*
 * The version in force, for a caseless key; an error where it has no foldings.  NULL as version_in_force, and in ANALYZE, which
 * goes on without.  Where the recorded foldings were not here, or the version that has them, it is looked once in a statement
 * whether they are by now.
 */
Version *
version_with_foldings(FunctionCallInfo call)
{
	static TimestampTz warned = 0;
	Version    *version = version_in_force(call);

	if (version == NULL || likely(known.folds))
		return version;
	if ((known.unfolded || known.late) && known.looked != GetCurrentStatementStartTimestamp())
		version = open_in_force(call->flinfo->fn_oid, WARNING);
	if (version == NULL || known.folds)
		return version;
	if (!is_analyzing())
		report_unfolded(ERROR);
	if (warned != GetCurrentStatementStartTimestamp())
		report_unfolded(WARNING);
	warned = GetCurrentStatementStartTimestamp();
	return NULL;
}

/* The label of the version in force, where its files are not here and an earlier version serves; else NULL. */
const char *
label_not_here(void)
{
	return known.lags ? known.label : NULL;
}

/* Whether a text that is refused may have a key all the same, and ANALYZE asks for it, which goes on without. */
bool
lags_in_analyze(void)
{
	static TimestampTz warned = 0;

	if (!known.lags || !is_analyzing())
		return false;
	if (warned != GetCurrentStatementStartTimestamp())
		ereport(WARNING,
				(errmsg("npss: ANALYZE leaves out names that are new in Unicode version \"%s\", whose files are not here", known.label)));
	warned = GetCurrentStatementStartTimestamp();
	return true;
}

static bool
is_ascii(const char *text, size_t length)
{
	uint64		seen = 0,
				chunk;
	size_t		at = 0;

	for (; at + sizeof chunk <= length; at += sizeof chunk)
	{
		memcpy(&chunk, text + at, sizeof chunk);
		seen |= chunk;
	}
	for (; at < length; at++)
		seen |= (unsigned char) text[at];
	return (seen & UINT64CONST(0x8080808080808080)) == 0;
}

/*
 * Whether a text is its own key and form without tables, since it is ASCII.  So a session that meets no other text opens no
 * files.
 */
bool
needs_no_tables(FunctionCallInfo call, const char *text, size_t length)
{
	if (likely(OidIsValid(known.table) && known.version != NULL))
		return false;
	if (!is_ascii(text, length))
		return false;
	if (!OidIsValid(known.table))
		list_free_deep(rows_beside(call->flinfo->fn_oid));
	return known.ascii;
}

/*
 * The record may have changed: the next call reads it again.  Comes by commits of others, here and on standbys, and where a raise
 * of this session is rolled back: plans and constraints of domains may have keys that were made by what it had recorded, so none
 * is kept.
 */
static void
record_changed(Datum unused, Oid relation)
{
	if (relation == watched || relation == InvalidOid)
	{
		known.table = InvalidOid;
		known.version = NULL;
	}
	if (relation == watched && OidIsValid(watched))
	{
		ResetPlanCache();
		CallSyscacheCallbacks(CONSTROID, 0);
	}
}

void
listen_to_record(void)
{
	CacheRegisterRelcacheCallback(record_changed, (Datum) 0);
}
