/*
 * folding.c
 *		How a row of the record comes to foldings that it was recorded without.
 *
 * Without them no caseless key was made, so none is wrong: the row in force may get the digest of its CaseFolding.txt later, and
 * keeps it from then on.
 */
#include "npss_pg.h"

#include "access/htup_details.h"
#include "catalog/pg_type.h"
#include "commands/trigger.h"
#include "executor/spi.h"
#include "miscadmin.h"
#include "utils/builtins.h"
#include "utils/datum.h"
#include "utils/inval.h"
#include "utils/lsyscache.h"
#include "utils/rel.h"
#include "utils/snapmgr.h"

/* A version behind one with foldings has to have some. */
void
refuse_without_folding(const char *newer, const char *older)
{
	ereport(ERROR,
			(errcode(ERRCODE_OBJECT_NOT_IN_PREREQUISITE_STATE),
			 errmsg("version %s has no %s, which version %s has", newer, file_names[FOLDING_FILE], older),
			 errdetail("Stored caseless keys need it."),
			 errhint("Put %s of that version into its folder: npss_raise('%s') takes it.", file_names[FOLDING_FILE], newer)));
}

/* Whether two rows have one value in a column. */
static bool
is_kept_in(HeapTuple before, HeapTuple after, TupleDesc shape, int column)
{
	Form_pg_attribute attribute = TupleDescAttr(shape, column - 1);
	bool		was_null,
				is_null;
	Datum		was = SPI_getbinval(before, shape, column, &was_null),
				is = SPI_getbinval(after, shape, column, &is_null);

	if (was_null || is_null)
		return was_null && is_null;
	return datum_image_eq(was, is, attribute->attbyval, attribute->attlen);
}

static bool
has_folding(HeapTuple row, TupleDesc shape)
{
	char		folding[DIGEST_SIZE];

	put_column(row, shape, FOLDING_COLUMN, folding, DIGEST_SIZE);
	return folding[0] != '\0';
}

/* Whether a row changes in its foldings alone, of which it had none. */
static bool
gets_folding(HeapTuple before, HeapTuple after, TupleDesc shape)
{
	if (shape->natts < FOLDING_COLUMN)
		return false;
	for (int column = 1; column <= shape->natts; column++)
		if (column != FOLDING_COLUMN && !is_kept_in(before, after, shape, column))
			return false;
	return !has_folding(before, shape) && !is_kept_in(before, after, shape, FOLDING_COLUMN);
}

/* The version of a row's label with its foldings; NULL where what is here isn't what it records. */
static Version *
version_here(HeapTuple row, TupleDesc shape)
{
	Failure		failure;
	Version    *version;
	char		label[LABEL_SIZE],
				digest[DIGEST_SIZE],
				folding[DIGEST_SIZE + 1];	/* so that a longer one is another one */

	put_column(row, shape, LABEL_COLUMN, label, LABEL_SIZE);
	put_column(row, shape, DIGEST_COLUMN, digest, DIGEST_SIZE);
	put_column(row, shape, FOLDING_COLUMN, folding, sizeof folding);
	version = open_version(label, NULL, &failure);
	if (version == NULL)
		report(ERROR, &failure);
	if (strcmp(version->digest, digest) == 0 && strcmp(version->folding, folding) == 0)
		return version;
	shut_version(version);
	return NULL;
}

/* Whether this is a subscriber, and a publisher sends what it recorded of the files of a row. */
static bool
is_sent(TriggerData *call, TupleDesc shape)
{
	return SessionReplicationRole == SESSION_REPLICATION_ROLE_REPLICA && shape->natts >= FOLDING_COLUMN &&
		is_kept_in(call->tg_trigtuple, call->tg_newtuple, shape, DIGEST_COLUMN);
}

/* A row with the foldings of another one, and nothing else of it: the rest is this database's own. */
static HeapTuple
with_folding_of(HeapTuple sent, HeapTuple row, TupleDesc shape)
{
	int			column = FOLDING_COLUMN;
	bool		is_null;
	Datum		folding = SPI_getbinval(sent, shape, column, &is_null);

	return heap_modify_tuple_by_cols(row, shape, 1, &column, &folding, &is_null);
}

/*
 * Before a row of the record is updated: refuses all but the row in force that gets the foldings that are here.  A subscriber takes
 * those of its publisher, past the audit also for a row that it has left; NULL where it has them already.
 */
HeapTuple
check_update(TriggerData *call)
{
	TupleDesc	shape = RelationGetDescr(call->tg_relation);
	List	   *rows = read_rows(call->tg_relation, SnapshotSelf);
	bool		sent = rows != NIL && is_sent(call, shape),
				is_in_force;
	HeapTuple	before = call->tg_trigtuple,
				row = sent ? with_folding_of(call->tg_newtuple, before, shape) : call->tg_newtuple;
	Version    *version;
	char		digest[DIGEST_SIZE];

	if (sent && has_folding(before, shape) && is_kept_in(before, row, shape, FOLDING_COLUMN))
		return NULL;
	put_column(before, shape, DIGEST_COLUMN, digest, DIGEST_SIZE);
	is_in_force = rows != NIL && strcmp(((Row *) linitial(rows))->digest, digest) == 0;
	if (!(is_in_force || sent) || !gets_folding(before, row, shape) || (version = version_here(row, shape)) == NULL)
		ereport(ERROR,
				(errcode(ERRCODE_OBJECT_NOT_IN_PREREQUISITE_STATE),
				 errmsg("npss_record only grows"),
				 errdetail("The row in force may get the digest of the %s that is here, where it has none.  Nothing else changes.",
						   file_names[FOLDING_FILE])));
	if (!is_in_force)
		check_extends(version, linitial(rows));
	shut_version(version);
	CacheInvalidateRelcache(call->tg_relation);
	return row;
}

/* Records the foldings of a version in the row of its files, as the table's owner: who may raise may do that. */
void
record_folding(Relation relation, const Version *version)
{
	const char *table = quote_qualified_identifier(get_namespace_name(RelationGetNamespace(relation)), RelationGetRelationName(relation));
	char	   *text = psprintf("UPDATE ONLY %s SET folding = $1 WHERE digest OPERATOR(pg_catalog.=) $2", table);
	Oid			types[] = {TEXTOID, TEXTOID};
	Datum		values[] = {CStringGetTextDatum(version->folding), CStringGetTextDatum(version->digest)};
	Oid			user;
	int			context;

	SPI_connect();
	GetUserIdAndSecContext(&user, &context);
	SetUserIdAndSecContext(relation->rd_rel->relowner, context | SECURITY_LOCAL_USERID_CHANGE | SECURITY_NOFORCE_RLS);
	if (SPI_execute_with_args(text, 2, types, values, NULL, false, 0) != SPI_OK_UPDATE || SPI_processed != 1)
		elog(ERROR, "npss: the foldings of \"%s\" were not recorded", version->label);
	SetUserIdAndSecContext(user, context);
	SPI_finish();
}
