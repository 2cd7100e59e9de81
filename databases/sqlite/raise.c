/* How a database comes to another version: audits, raises, and what a dump needs that comes back. */
#include "npss_sqlite.h"

#include <string.h>

SQLITE_EXTENSION_INIT3

/* How long a raise waits for other connections where no busy timeout is set, and how often it tries, in milliseconds. */
#define PATIENCE 5000
#define STEP 50

void do_version(sqlite3_context *call, int count, sqlite3_value **given) {
    (void)count, (void)given;
    if (ready(call, connection_of(call))) sqlite3_result_int64(call, connection_of(call)->assigned);
}

/* What newer files break first, of sqlite3_mprintf. */
static char *break_text(npss_answer a) {
    if (a.status == NPSS_NO_FOLDING) return sqlite3_mprintf("no %s", file_names[FOLDING_FILE]);
    return sqlite3_mprintf("%s %04X", break_kind(a).text, a.code);
}

/* npss_audit(FOLDER): `extends`, or what the files would break first, or that they lack the foldings that there are. Changes
 * nothing. */
void do_audit(sqlite3_context *call, int count, sqlite3_value **given) {
    connection *self = connection_of(call);
    npss_handle fresh = {0, NULL};
    npss_answer a;
    files held;
    if (files_of(call, count, given, &held) && opened(call, &fresh, &held) && ready(call, self)) {
        a = keeps_own(&self->tables, &fresh);
        if (a.status == NPSS_DONE) {
            sqlite3_result_text(call, "extends", -1, SQLITE_STATIC);
        } else {
            char *text = break_text(a);
            if (text) sqlite3_result_text(call, text, -1, sqlite3_free);
            else fail_memory(call);
        }
    }
    npss_close(&fresh);
    free_files(&held);
}

/* Sees to it that newer tables extend those that keys are made by; 0 where an error is set. */
static int extends(sqlite3_context *call, npss_handle *older, npss_handle *newer) {
    npss_answer a = keeps_own(older, newer);
    if (a.status == NPSS_DONE) return 1;
    if (a.status == NPSS_NO_FOLDING)
        return fail(call, sqlite3_mprintf("npss: the files have no %s, which this database's version has", file_names[FOLDING_FILE]));
    return fail(call, sqlite3_mprintf("npss: the files do not extend this database's version: %s %04X", break_kind(a).text, a.code));
}

/* npss_open(FOLDER): tables of this connection alone, while the database has no record: where a dump comes back. */
void do_open(sqlite3_context *call, int count, sqlite3_value **given) {
    connection *self = connection_of(call);
    npss_handle fresh = {0, NULL};
    sqlite3_int64 recorded;
    files held = {0};
    int code = ask_number(self->db, "SELECT assigned FROM main.npss_record", &recorded);
    if (code == SQLITE_ROW) {
        fail(call, sqlite3_mprintf("npss: this database has its version; npss_raise goes on to another"));
    } else if (code != SQLITE_ERROR && code != SQLITE_DONE) {
        fail_by_database(call);
    } else if (files_of(call, count, given, &held) && opened(call, &fresh, &held) &&
               (!self->own.is_open || extends(call, &self->own, &fresh))) {
        npss_answer a = npss_share(&fresh, &self->own);
        if (a.status != NPSS_DONE)
            refuse(call, a);
        else if (use(call, self, &fresh, 0))
            sqlite3_result_int64(call, self->assigned);
    }
    npss_close(&fresh);
    free_files(&held);
}

/* ---- the record, which npss_raise alone writes: triggers ask npss_is_raising. In a dump they come behind the data. */

static const char insert_text[] = "INSERT INTO main.npss_record (one, assigned, data, exclusions, folding) VALUES (1, ?1, ?2, ?3, ?4)";
static const char update_text[] = "UPDATE main.npss_record SET assigned = ?1, data = ?2, exclusions = ?3, folding = ?4";
/* An extension that knows no foldings lacks the function that this one asks. So it doesn't raise, which would leave those of the
 * version before. */
#define UPDATE_TRIGGER \
    "main.npss_record_update BEFORE UPDATE ON npss_record WHEN NOT npss_is_raising_folding() " \
    "BEGIN SELECT RAISE(ABORT, 'npss: npss_record is written by npss_raise alone'); END;"
static const char column_text[] =
    "ALTER TABLE main.npss_record ADD COLUMN folding BLOB; DROP TRIGGER IF EXISTS main.npss_record_update; CREATE TRIGGER " UPDATE_TRIGGER;
static const char record_text[] =
    "CREATE TABLE IF NOT EXISTS main.npss_record (one INTEGER PRIMARY KEY CHECK (one = 1), assigned INTEGER NOT NULL, "
    "data BLOB NOT NULL, exclusions BLOB NOT NULL, folding BLOB);"
    "CREATE TRIGGER IF NOT EXISTS main.npss_record_insert BEFORE INSERT ON npss_record WHEN NOT npss_is_raising() "
    "BEGIN SELECT RAISE(ABORT, 'npss: npss_record is written by npss_raise alone'); END;"
    "CREATE TRIGGER IF NOT EXISTS " UPDATE_TRIGGER
    "CREATE TRIGGER IF NOT EXISTS main.npss_record_delete BEFORE DELETE ON npss_record WHEN NOT npss_is_raising() "
    "BEGIN SELECT RAISE(ABORT, 'npss: npss_record is written by npss_raise alone'); END";

/* Whether npss_raise makes this write. It tells how many it makes, so that no trigger of somebody else's makes one more. */
void do_is_raising(sqlite3_context *call, int count, sqlite3_value **given) {
    connection *self = connection_of(call);
    (void)count, (void)given;
    sqlite3_result_int(call, self->writes > 0);
    if (self->writes > 0) self->writes--;
}

/* Whether a file is bound to a statement's place, or NULL where it isn't there. */
static int bound(sqlite3_stmt *put, int place, const bytes *file) {
    if (!file->at) return sqlite3_bind_null(put, place) == SQLITE_OK;
    return sqlite3_bind_blob64(put, place, file->at, file->length, SQLITE_STATIC) == SQLITE_OK;
}

/* Writes the record, by a statement that writes one row: behind an audit, and while nobody else writes. */
static int write_record(sqlite3_context *call, connection *self, const char *text, sqlite3_int64 assigned, const files *held) {
    sqlite3_stmt *put = NULL;
    int done = sqlite3_prepare_v2(self->db, text, -1, &put, NULL) == SQLITE_OK &&
               sqlite3_bind_int64(put, 1, assigned) == SQLITE_OK &&
               bound(put, 2, &held->each[DATA_FILE]) && bound(put, 3, &held->each[EXCLUSIONS_FILE]) &&
               bound(put, 4, &held->each[FOLDING_FILE]);
    self->writes = 1;
    if (!done || sqlite3_step(put) != SQLITE_DONE) done = fail_by_database(call);
    self->writes = 0;
    sqlite3_finalize(put);
    return done;
}

/* How long a raise waits for other connections, in milliseconds: by itself where it stands alone, and no busy timeout is set.
 * Within somebody's transaction another one may be waiting for that. */
static int patience_of(sqlite3 *db) {
    sqlite3_int64 timeout = 0;
    return sqlite3_get_autocommit(db) && ask_number(db, "PRAGMA busy_timeout", &timeout) == SQLITE_ROW && timeout == 0 ? PATIENCE : 0;
}

/* Runs statements, again and again while another connection is in the way; how they ended. */
static int run(sqlite3 *db, const char *text, int patience) {
    int code = sqlite3_exec(db, text, NULL, NULL, NULL);
    for (int waited = 0; code == SQLITE_BUSY && waited < patience; waited += STEP) {
        sqlite3_sleep(STEP);
        code = sqlite3_exec(db, text, NULL, NULL, NULL);
    }
    return code & 0xFF;
}

/* The same; 0 where an error is set. */
static int did(sqlite3_context *call, sqlite3 *db, const char *text, int patience) {
    return run(db, text, patience) == SQLITE_OK || fail_by_database(call);
}

/* Records a version within a savepoint. The update that changes nothing comes first: it waits for other writers, and keeps
 * them away until the record is written. Where there is no record yet, it fails, and the table is made. */
static int raise_within(sqlite3_context *call, connection *self, npss_handle *fresh, const files *held, int patience) {
    int recorded, code;
    self->writes = 1;
    code = run(self->db, "UPDATE main.npss_record SET assigned = assigned", patience);
    self->writes = 0;
    if ((code != SQLITE_OK && code != SQLITE_ERROR) || run(self->db, record_text, patience) != SQLITE_OK) return fail_by_database(call);
    if (folding_column(self->db, "main") == SQLITE_ERROR && run(self->db, column_text, patience) != SQLITE_OK) return fail_by_database(call);
    if (!(recorded = use_record(call, self))) return 0;
    if (recorded > 0 && !extends(call, &self->tables, fresh)) return 0;
    if (self->own.is_open && !extends(call, &self->own, fresh)) return 0;
    return write_record(call, self, recorded > 0 ? update_text : insert_text, (sqlite3_int64)npss_count(fresh).length, held);
}

/* npss_raise(FOLDER): records the files of a folder as the version of this database, if they keep all keys. */
void do_raise(sqlite3_context *call, int count, sqlite3_value **given) {
    connection *self = connection_of(call);
    npss_handle fresh = {0, NULL};
    int is_whole = sqlite3_get_autocommit(self->db); /* the savepoint is a transaction of its own, whose release commits */
    int patience = patience_of(self->db);
    files held;
    if (files_of(call, count, given, &held) && opened(call, &fresh, &held) && did(call, self->db, "SAVEPOINT npss_raise", 0)) {
        if (raise_within(call, self, &fresh, &held, patience) && did(call, self->db, "RELEASE npss_raise", patience)) {
            if (use_raised(call, self, &fresh)) sqlite3_result_int64(call, self->assigned);
        } else {
            run(self->db, is_whole ? "ROLLBACK" : "ROLLBACK TO npss_raise; RELEASE npss_raise", 0);
        }
    }
    npss_close(&fresh);
    free_files(&held);
}
