/* Which tables a connection uses: those of the record, as its transaction sees it. */
#include "npss_sqlite.h"

#include <string.h>

SQLITE_EXTENSION_INIT3

/* Where a statement keeps the number of the tables that were seen to: `npss`, as a number that is no argument's. */
#define SEEN_TO (-0x6E707373)

/* ---- the state of a database */

/* The number that a statement tells first: SQLITE_ROW; else how it ended. */
int ask_number(sqlite3 *db, const char *text, sqlite3_int64 *number) {
    sqlite3_stmt *ask = NULL;
    int code = sqlite3_prepare_v2(db, text, -1, &ask, NULL);
    if (code == SQLITE_OK && (code = sqlite3_step(ask)) == SQLITE_ROW) *number = sqlite3_column_int64(ask, 0);
    sqlite3_finalize(ask);
    return code & 0xFF;
}

/* Whether the record of a database has a column for foldings: SQLITE_OK; SQLITE_ERROR where it was made before the extension knew
 * them; else why that can't be told. */
int folding_column(sqlite3 *db, const char *schema) {
    sqlite3_stmt *ask = NULL;
    char *text = sqlite3_mprintf("SELECT folding FROM \"%w\".npss_record", schema);
    int code = text ? sqlite3_prepare_v2(db, text, -1, &ask, NULL) : SQLITE_NOMEM;
    sqlite3_finalize(ask);
    sqlite3_free(text);
    return code & 0xFF;
}

/* The data version of a database, of the main one where none is named. */
unsigned data_version(sqlite3 *db, const char *schema) {
    unsigned version = 0;
    sqlite3_file_control(db, schema, SQLITE_FCNTL_DATA_VERSION, &version);
    return version;
}

/* Whether a database is read or written in the present transaction. Before SQLite 3.34, which doesn't tell, it counts as
 * neither, and so each call looks at it. */
int transaction_of(sqlite3 *db, const char *schema) {
#if SQLITE_VERSION_NUMBER >= 3034000
    if (sqlite3_libversion_number() >= 3034000) return sqlite3_txn_state(db, schema);
#endif
    (void)db, (void)schema;
    return 0;
}

/* Whether the main database is as it was when the record was looked at. Where a statement of its own reads no table of it, SQLite
 * looks at the file first, unless another connection keeps that locked. Within a transaction it doesn't: it would begin to read
 * there. */
static int is_as_seen(connection *self) {
    if (sqlite3_get_autocommit(self->db)) {
        sqlite3_int64 none;
        int transaction = transaction_of(self->db, "main");
        if (transaction == 0) ask_number(self->db, "PRAGMA main.data_version", &none);
        else if (transaction < self->seen.transaction) return 0;
    }
    return data_version(self->db, NULL) == self->seen.pager;
}

/* Whether nothing was told that may have changed the record since it was looked at, and will be where a transaction writes. */
static int is_told(connection *self) {
    if (self->watch.is_undone || self->watch.turns != self->seen.turns) return 0;
    return self->watch.takes_part || sqlite3_get_autocommit(self->db) || transaction_of(self->db, "main") < 2;
}

/* What stands for a number that isn't told, as where an authorizer lets no PRAGMA pass. */
#define UNTOLD INT64_MIN

/* The main database as it is now. From now on it is told what the transaction takes back. */
static state state_now(connection *self) {
    state now = {0, UNTOLD, UNTOLD, 0, 0};
    if (!sqlite3_get_autocommit(self->db)) is_watched(self);
    now.turns = self->watch.turns;
    ask_number(self->db, "PRAGMA main.data_version", &now.data);
    ask_number(self->db, "PRAGMA main.schema_version", &now.schema);
    now.pager = data_version(self->db, NULL);
    now.transaction = transaction_of(self->db, "main");
    return now;
}

/* ---- the tables in use */

/* Takes tables into use in place of those that there are, as they are read at this place of the transaction; 0 where an error is
 * set. Then none are in use. */
int use(sqlite3_context *call, connection *self, npss_handle *tables, int is_recorded) {
    npss_answer a = npss_share(tables, &self->tables);
    self->number++;
    forget_attached(self);
    if (a.status != NPSS_DONE) {
        npss_close(&self->tables);
        return refuse(call, a);
    }
    self->assigned = (sqlite3_int64)npss_count(tables).length;
    self->is_recorded = is_recorded;
    self->is_folded = has_foldings(tables);
    note_read(self);
    return 1;
}

/* The bytes of a column, which live as long as the row. */
static bytes blob(sqlite3_stmt *row, int column) {
    const uint8_t *at = sqlite3_column_blob(row, column);
    return (bytes){at ? at : (const uint8_t *)"", (size_t)sqlite3_column_bytes(row, column)};
}

/* The files of a row of the record, which live as long as the row. */
static files files_in(sqlite3_stmt *row) {
    int has_folding = sqlite3_column_type(row, FOLDING_FILE) != SQLITE_NULL;
    return (files){{blob(row, DATA_FILE), blob(row, EXCLUSIONS_FILE), has_folding ? blob(row, FOLDING_FILE) : (bytes){NULL, 0}}};
}

/* Whether a record's tables may take the place of those of npss_open, whose keys may be stored; 0 where an error is set. Foldings
 * count where both have some. Without any a record takes no caseless key over. */
static int fits_own(sqlite3_context *call, connection *self, npss_handle *recorded) {
    int folds = has_foldings(recorded), both = folds && has_foldings(&self->own);
    if (!self->own.is_open) return 1;
    if ((folds || !self->folded_own) && (keeps_keys(&self->own, recorded, both).status == NPSS_DONE ||
                                         keeps_keys(recorded, &self->own, both).status == NPSS_DONE))
        return 1;
    npss_close(&self->tables);
    return fail(call, sqlite3_mprintf("npss: neither this database's record nor the files of npss_open extend the other: close this "
                                      "connection, and build anew what it indexed"));
}

/* Takes the record's tables into use: 1; 0 where an error is set; -1 where there is no record. */
int use_record(sqlite3_context *call, connection *self) {
    static const char text[] = "SELECT data, exclusions, folding FROM main.npss_record";
    static const char older[] = "SELECT data, exclusions, NULL FROM main.npss_record";
    npss_handle fresh = {0, NULL};
    sqlite3_stmt *ask = NULL;
    int done = -1, code = sqlite3_prepare_v2(self->db, text, -1, &ask, NULL);
    if (code == SQLITE_ERROR) code = sqlite3_prepare_v2(self->db, older, -1, &ask, NULL); /* there is no such column */
    if (code == SQLITE_ERROR) return -1;                                                  /* nor such a table */
    if (code == SQLITE_OK) code = sqlite3_step(ask);
    if (code == SQLITE_ROW) {
        files found = files_in(ask);
        done = opened(call, &fresh, &found) && fits_own(call, self, &fresh) && use(call, self, &fresh, 1);
    } else if (code != SQLITE_DONE) {
        done = fail_by_database(call);
    }
    sqlite3_finalize(ask);
    npss_close(&fresh);
    return done;
}

/* Takes the tables of npss_open into use, since there is no record; 0 where an error is set. */
static int use_own(sqlite3_context *call, connection *self) {
    if (self->own.is_open) return use(call, self, &self->own, 0);
    npss_close(&self->tables);
    self->is_recorded = 0;
    return fail(call, sqlite3_mprintf("npss: this database records no version of Unicode: SELECT npss_raise(FOLDER) records one; "
                                      "where a dump comes back, SELECT npss_open(FOLDER) first"));
}

/* Whether the record still has the tables in use, where its schema hasn't changed: 1; 0 where it hasn't; -1 where an error is
 * set. A version of as many code points that extends another one makes the same keys, and as many caseless ones where it folds.
 * One that a rollback took back needn't be extended by the next one: `look` sees to that. */
static int is_in_use(sqlite3_context *call, connection *self) {
    sqlite3_int64 recorded = 0;
    int code = SQLITE_ERROR;
    if (self->is_recorded) code = ask_number(self->db, "SELECT 2 * assigned + (folding IS NOT NULL) FROM main.npss_record", &recorded);
    if (code == SQLITE_ERROR) code = ask_number(self->db, "SELECT 2 * assigned FROM main.npss_record", &recorded);
    if (code == SQLITE_ROW) return self->is_recorded && recorded == 2 * self->assigned + self->is_folded;
    if (code == SQLITE_ERROR || code == SQLITE_DONE) return !self->is_recorded;
    fail_by_database(call);
    return -1;
}

/* Remembers the database as it is, whose record is in use. Behind a record that nobody can take back, the tables of npss_open
 * are done with. */
static void settle(connection *self, const state *now, int may_be_undone) {
    sqlite3_int64 dirty = 0;
    ask_number(self->db, "PRAGMA read_uncommitted", &dirty);
    self->may_be_undone = may_be_undone || dirty != 0;
    self->seen = *now;
    if (self->is_recorded && !self->may_be_undone && sqlite3_get_autocommit(self->db)) {
        npss_close(&self->own);
        self->folded_own = 0;
    }
}

/* Takes tables into use that npss_raise has recorded; 0 where an error is set. */
int use_raised(sqlite3_context *call, connection *self, npss_handle *tables) {
    state now = state_now(self);
    if (!use(call, self, tables, 1)) return 0;
    settle(self, &now, !sqlite3_get_autocommit(self->db) && !self->watch.takes_part);
    return 1;
}

/* Whether the transaction that is open may take the record back that is in use, and nobody tells of it. That transaction may be
 * over where the file has changed since. */
static int may_undo(connection *self, const state *now, int is_new) {
    if (sqlite3_get_autocommit(self->db) || self->watch.takes_part) return 0;
    return (self->may_be_undone && now->pager == self->seen.pager) || (is_new && self->is_recorded && now->transaction > 1);
}

/* Whether the connection itself changes no record but by npss_raise. Where there is none, a dump that comes back may bring one. */
static int is_kept(const connection *self) {
    return !self->may_be_undone && self->is_recorded;
}

/* Looks at the record, where the database may be another one; 0 where an error is set. */
static int look(sqlite3_context *call, connection *self) {
    state now = state_now(self);
    int found = 1, is_new = !self->tables.is_open || self->watch.is_undone || now.schema == UNTOLD || now.schema != self->seen.schema;
    int is_sure = is_kept(self) && !self->own.is_open && now.data == self->seen.data && now.transaction >= self->seen.transaction;
    /* Another one may be recorded behind its rollback, and what is told from now on is of what is read from now on. */
    if (self->may_be_undone && (now.pager != self->seen.pager || self->watch.takes_part)) is_new = 1;
    if (!is_new && is_sure) {
        self->seen = now; /* the connection's own commits, none of which wrote the record */
        return 1;
    }
    if (!is_new) {
        if ((found = is_in_use(call, self)) < 0) return 0;
        is_new = !found;
    }
    if (is_new && !(found = use_record(call, self))) return 0;
    if (found < 0 && !use_own(call, self)) return 0;
    settle(self, &now, may_undo(self, &now, is_new));
    return 1;
}

/* Whether the tables in use are those of the record; 0 where that has to be looked at, or where it fails, which `ended` tells. */
static int is_ready(sqlite3_context *call, connection *self, int *ended) {
    int found, is_seen = self->tables.is_open && is_told(self) && is_as_seen(self);
    if (!is_seen || is_kept(self)) return is_seen;
    if (!self->may_be_undone && sqlite3_get_autocommit(self->db)) return 1;
    found = is_in_use(call, self); /* only a rollback can have taken it back, and only a dump brought it */
    *ended = found < 0;
    return found > 0 && !sqlite3_get_autocommit(self->db) && is_as_seen(self); /* as it is read now */
}

/* Sees to it that the tables in use are those of the record as this transaction sees it; 0 where an error is set. Where the
 * statement is a transaction of its own, SQLite keeps for it the number of the tables. (A negative number is for the whole
 * statement. Where SQLite doesn't keep it, each call sees to it.) */
int ready(sqlite3_context *call, connection *self) {
    int is_alone = sqlite3_get_autocommit(self->db), ended = 0;
    if (is_alone && self->tables.is_open && sqlite3_get_auxdata(call, SEEN_TO) == (void *)self->number) return 1;
    if (!is_ready(call, self, &ended) && (ended || !look(call, self))) return 0;
    if (!fits_attached(call, self)) return 0;
    if (is_alone && !self->may_be_undone) sqlite3_set_auxdata(call, SEEN_TO, (void *)self->number, NULL);
    return 1;
}
