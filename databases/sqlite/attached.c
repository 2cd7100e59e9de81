/* Attached databases. Keys in them are made by the main database's version, so none is written that records another one. */
#include "npss_sqlite.h"

#include <string.h>

SQLITE_EXTENSION_INIT3

/* The first attached database, from a number on, that the present transaction writes; NULL where there is none, and before
 * SQLite 3.39, which doesn't tell. */
static const char *written_from(sqlite3 *db, int *number) {
#if SQLITE_VERSION_NUMBER >= 3039000
    const char *name;
    if (sqlite3_libversion_number() < 3039000) return NULL;
    for (; (name = sqlite3_db_name(db, *number)); ++*number) {
        if (transaction_of(db, name) == SQLITE_TXN_WRITE) return name;
    }
#endif
    (void)db, (void)number;
    return NULL;
}

/* What a statement of sqlite3_mprintf tells: the status, as ask_number. */
static int ask_made(sqlite3 *db, char *text, sqlite3_int64 *number) {
    int code = text ? ask_number(db, text, number) : SQLITE_NOMEM;
    sqlite3_free(text);
    return code;
}

/* What a statement over an attached database tells, whose name stands in it as `%w`. */
static int ask_attached(sqlite3 *db, const char *form, const char *name, sqlite3_int64 *number) {
    return ask_made(db, sqlite3_mprintf(form, name), number);
}

/* What an attached database records of the main one's files, as ask_number: 0 where the first two differ, 1 where the foldings do,
 * and 2 where all are the same. */
static int ask_same_files(sqlite3 *db, const char *name, sqlite3_int64 *number) {
    int main = folding_column(db, "main"), other = folding_column(db, name);
    if (main != SQLITE_OK && main != SQLITE_ERROR) return main;
    if (other != SQLITE_OK && other != SQLITE_ERROR) return other;
    return ask_made(db, sqlite3_mprintf("SELECT (a.data = b.data AND a.exclusions = b.exclusions) * (1 + (%s IS %s)) "
                                        "FROM main.npss_record AS a, \"%w\".npss_record AS b",
                                        main ? "NULL" : "a.folding", other ? "NULL" : "b.folding", name), number);
}

/* Sees to it that an attached database records no version, or that of the main database: 1; -1 where its record may come without
 * a change of its schema; 0 where an error is set. */
static int fits(sqlite3_context *call, connection *self, const char *name) {
    sqlite3_int64 number = 0;
    int code = ask_attached(self->db, "SELECT 1 FROM \"%w\".npss_record", name, &number);
    if (code == SQLITE_ERROR) return 1; /* there is no such table */
    if (code == SQLITE_DONE) return -1; /* it is empty */
    number = 0;
    if (code == SQLITE_ROW && self->is_recorded) code = ask_same_files(self->db, name, &number);
    if (code != SQLITE_ROW) return fail_by_database(call);
    if (number == 2) return 1;
    return fail(call, sqlite3_mprintf("npss: the attached database %Q records another %s than the main one, which makes its keys: write "
                                      "it through a connection of its own", name, number ? "folding" : "version of Unicode"));
}

/* By what an attached database is known again: its file, or its name where it is in memory. */
static const char *mark_of(sqlite3 *db, const char *name) {
    const char *file = sqlite3_db_filename(db, name);
    return file && *file ? file : name;
}

/* Remembers that an attached database fits as it is. */
static void remember(connection *self, const char *name, int number) {
    fitting *slot = &self->attached[number];
    sqlite3_free(slot->mark);
    slot->mark = sqlite3_mprintf("%s", mark_of(self->db, name));
    slot->data_version = data_version(self->db, name);
    slot->watched = self->watch;
    slot->others = slot->schema = -1;
    ask_attached(self->db, "PRAGMA \"%w\".data_version", name, &slot->others);
    ask_attached(self->db, "PRAGMA \"%w\".schema_version", name, &slot->schema);
}

/* Whether what was remembered of an attached database may be of it, and no rollback that was told of took it back. */
static int is_of_it(connection *self, const fitting *slot, const char *name) {
    return slot->mark && !strcmp(slot->mark, mark_of(self->db, name)) && slot->watched.undone == self->watch.undone;
}

/* Whether an attached database that was found to fit is as it was, or was written by this connection alone, which left its schema.
 * Within a transaction that changes unseen, unless npss_watch is told. */
static int is_remembered(connection *self, const char *name, int number) {
    fitting *slot = &self->attached[number];
    sqlite3_int64 others = -2, schema = -2;
    unsigned now = data_version(self->db, name);
    int is_told = sqlite3_get_autocommit(self->db) || (self->watch.takes_part && slot->watched.turns == self->watch.turns);
    if (!is_of_it(self, slot, name)) return 0;
    if (is_told && now == slot->data_version) return 1;
    ask_attached(self->db, "PRAGMA \"%w\".data_version", name, &others);
    ask_attached(self->db, "PRAGMA \"%w\".schema_version", name, &schema);
    if (others != slot->others || schema != slot->schema) return 0;
    slot->data_version = now;
    slot->watched = self->watch;
    return 1;
}

void forget_attached(connection *self) {
    for (int number = 0; number < MOST_ATTACHED; number++) {
        sqlite3_free(self->attached[number].mark);
        self->attached[number].mark = NULL;
    }
}

/* Sees to it that no attached database is written whose record is another one than the main database's; 0 where an error is
 * set. */
int fits_attached(sqlite3_context *call, connection *self) {
    const char *name;
    int fitted, number = 2;
    if (!written_from(self->db, &number)) return 1;
    if (may_be_detached(self)) forget_attached(self);
    for (; (name = written_from(self->db, &number)); number++) {
        if (number < MOST_ATTACHED && is_remembered(self, name, number)) continue;
        if (!(fitted = fits(call, self, name))) return 0;
        if (fitted > 0 && number < MOST_ATTACHED) remember(self, name, number);
    }
    return 1;
}
