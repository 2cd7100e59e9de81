/*
 * npss_pg.h
 *		Stabilized keys of text (UAX #15, section 12) in PostgreSQL, by the proved library libnpss.
 *
 * Three rules carry this extension:
 *
 * - The database records in the table npss_record which versions of Unicode it has used: label, digest of the two files,
 *	 count of assigned code points, digest of CaseFolding.txt where there is one.  The row of the greatest count is in force.
 *	 Tables are used only where the digest of the files that they were made of is a recorded one.
 * - A row gets into the record only past npss_record_check, which audits it against the row in force.
 * - A key stays the same under each version that extends the one under which it was made; that is proved, of caseless keys
 *	 where the foldings are extended too.  So a process whose tables are older than the record refuses more, and never makes
 *	 another key.  No lock is needed.
 */
#ifndef NPSS_PG_H
#define NPSS_PG_H

#include "postgres.h"

#include "commands/trigger.h"
#include "fmgr.h"
#include "nodes/pg_list.h"
#include "utils/relcache.h"
#include "utils/snapshot.h"

#include "../common.h"

#if PG_VERSION_NUM < 130000
#error "PostgreSQL 13 or later is wanted"
#endif

#define LABEL_SIZE 32
/* SHA-256, as hex digits. */
#define DIGEST_SIZE (2 * 32 + 1)
/* Texts of more bytes go through a stream, in pieces, so that they can be interrupted. */
#define LONG_TEXT (1024 * 1024)
#define PIECE (64 * 1024)

typedef struct bytes Bytes;

static inline Bytes
bytes_of(text *input)
{
	Bytes		bytes = {(const uint8 *) VARDATA_ANY(input), VARSIZE_ANY_EXHDR(input)};

	return bytes;
}

/* The tables of a version, in a memory context of their own, whose end closes the handle. */
typedef struct Version
{
	struct Version *next;
	MemoryContext context;
	bool		preloaded;		/* opened by the postmaster: its pages are shared, so it is kept */
	int64		assigned;		/* how many code points it assigns */
	bool		ascii;			/* ASCII is its own key under each form */
	npss_handle handle;
	char		label[LABEL_SIZE];
	char		digest[DIGEST_SIZE];
	char		folding[DIGEST_SIZE];	/* of CaseFolding.txt; empty where it was opened without */
} Version;

/* Why something failed, before it is known how loudly that is to be told. */
typedef struct Failure
{
	int			sqlstate;
	char	   *message;
	char	   *detail;			/* or NULL */
	char	   *hint;			/* or NULL */
	bool		is_of_folder;	/* whoever reads the log is told where npss.folder is; nobody else is */
} Failure;

/* A row of npss_record. */
typedef struct Row
{
	int64		assigned;
	bool		ascii;
	char		label[LABEL_SIZE];
	char		digest[DIGEST_SIZE];
	char		folding[DIGEST_SIZE];	/* empty where none is recorded */
} Row;

/* The columns of npss_record, by their numbers.  The SQL before 0.4 has no foldings. */
enum
{
	LABEL_COLUMN = 1, DIGEST_COLUMN, ASSIGNED_COLUMN, ASCII_COLUMN, SINCE_COLUMN, BY_WHOM_COLUMN, FOLDING_COLUMN
};

typedef npss_answer (*Maker) (npss_handle *, uint8_t, const uint8_t *, size_t, uint8_t *, size_t);

/* What is wanted of a text. */
typedef struct Wanted
{
	Maker		make;			/* npss_key, npss_normalize or npss_caseless_key */
	uint8		form;
	bool		may_lack;		/* NULL in place of the error of a code point that is not assigned */
} Wanted;

/* npss_pg.c */
extern const char *npss_folder(void);
extern const char *npss_wanted_version(void);

/* files.c */
extern bool read_named(const char *label, int which, Bytes *bytes, Failure *failure);
extern void make_digest(char *digest, const Bytes *files);
extern void make_folding_digest(char *digest, const Bytes *files);
extern bool has_folder(Failure *failure);
extern List *labels_in_folder(Failure *failure);
extern bool fail(Failure *failure, int sqlstate, char *message, char *detail, char *hint);
extern void report(int level, const Failure *failure);

/* versions.c */
extern Version *open_version(const char *label, const char *folding, Failure *failure);
extern Version *find_version(const char *digest, const char *folding);
extern void keep_version(Version *version);
extern void shut_version(Version *version);
extern void shut_versions_but(Version *kept);
extern void preload_versions(void);

/* record.c */
extern void put_column(HeapTuple tuple, TupleDesc shape, int column, char *room, size_t size);
extern List *read_rows(Relation relation, Snapshot snapshot);
extern List *rows_beside(Oid function);
extern Version *open_recorded(const Row *row, Failure *failure);
extern Version *version_in_force(FunctionCallInfo call);
extern Version *version_for_question(FunctionCallInfo call);
extern Version *newer_version(FunctionCallInfo call, Version *version);
extern Version *version_with_foldings(FunctionCallInfo call);
extern bool folds(void);
extern bool lacks_foldings(void);
extern const char *label_not_here(void);
extern bool lags_in_analyze(void);
extern bool needs_no_tables(FunctionCallInfo call, const char *text, size_t length);
extern void listen_to_record(void);

/* raise.c */
extern void check_extends(Version *fresh, const Row *force);

/* folding.c */
extern HeapTuple check_update(TriggerData *call);
extern void record_folding(Relation relation, const Version *version);
extern void refuse_without_folding(const char *newer, const char *older);

/* refusals.c */
extern uint8 form_of(text *form);
extern int	characters_before(Bytes input, uint64 place);
extern void refuse(npss_answer answer, Bytes input, Version *version);

/* questions.c */
extern npss_answer first_unassigned(Version *version, Bytes input);
extern bool is_same(text *one, text *other);

/* keys.c */
extern Datum made_or_null(FunctionCallInfo fcinfo, Wanted wanted);
extern text *normal_form(Version *version, uint8 form, Bytes input);

/* caseless.c */
extern text *make_long_caseless(Version *version, uint8 form, Bytes input, npss_answer *answer);

#endif
