/* What a rollback takes back. A table without rows, npss_watch, takes part in the transactions that write the main database and
 * make keys. So SQLite tells it of their end, of each rollback to a savepoint, and of each statement that may drop a table. */
#include "npss_sqlite.h"

SQLITE_EXTENSION_INIT3

typedef struct table {
    sqlite3_vtab base; /* has to come first */
    connection *owner; /* whose user it is: SQLite may be done with the module before it */
} table;

static watch *watch_of(sqlite3_vtab *at) {
    return &((table *)at)->owner->watch;
}

/* ---- a table without rows */

static int connects(sqlite3 *db, void *held, int count, const char *const *given, sqlite3_vtab **made, char **error) {
    table *self;
    int code = sqlite3_vtab_config(db, SQLITE_VTAB_DIRECTONLY);
    (void)count, (void)given, (void)error;
    if (code == SQLITE_OK) code = sqlite3_declare_vtab(db, "CREATE TABLE npss_watch (unused)");
    if (code != SQLITE_OK) return code;
    if (!(self = sqlite3_malloc(sizeof *self))) return SQLITE_NOMEM;
    *self = (table){{0}, held};
    self->owner->users++;
    self->owner->watch.is_connected = 1;
    *made = &self->base;
    return SQLITE_OK;
}

static int disconnects(sqlite3_vtab *at) {
    watch *watched = watch_of(at);
    sqlite3_finalize(watched->kept);
    watched->kept = NULL;
    watched->is_connected = 0;
    release(((table *)at)->owner);
    sqlite3_free(at);
    return SQLITE_OK;
}

static int plans(sqlite3_vtab *at, sqlite3_index_info *plan) {
    (void)at;
    plan->estimatedCost = 1;
    return SQLITE_OK;
}

static int opens(sqlite3_vtab *at, sqlite3_vtab_cursor **made) {
    (void)at;
    *made = sqlite3_malloc(sizeof **made);
    return *made ? SQLITE_OK : SQLITE_NOMEM;
}

static int closes(sqlite3_vtab_cursor *cursor) {
    sqlite3_free(cursor);
    return SQLITE_OK;
}

static int filters(sqlite3_vtab_cursor *cursor, int number, const char *text, int count, sqlite3_value **given) {
    (void)cursor, (void)number, (void)text, (void)count, (void)given;
    return SQLITE_OK;
}

static int goes_on(sqlite3_vtab_cursor *cursor) {
    (void)cursor;
    return SQLITE_OK;
}

static int is_at_end(sqlite3_vtab_cursor *cursor) {
    (void)cursor;
    return 1;
}

static int tells_column(sqlite3_vtab_cursor *cursor, sqlite3_context *call, int column) {
    (void)cursor, (void)call, (void)column;
    return SQLITE_OK;
}

static int tells_row(sqlite3_vtab_cursor *cursor, sqlite3_int64 *row) {
    (void)cursor, (void)row;
    return SQLITE_OK;
}

static int updates(sqlite3_vtab *at, int count, sqlite3_value **given, sqlite3_int64 *row) {
    (void)at, (void)count, (void)given, (void)row;
    return SQLITE_READONLY;
}

/* ---- what it is told */

static int begins(sqlite3_vtab *at) {
    watch *watched = watch_of(at);
    watched->takes_part = 1;
    watched->depth = 0;
    watched->turns++;
    return SQLITE_OK;
}

static int commits(sqlite3_vtab *at) {
    watch_of(at)->takes_part = watch_of(at)->read_depth = 0;
    return SQLITE_OK;
}

static int rolls_back(sqlite3_vtab *at) {
    watch *watched = watch_of(at);
    if (watched->read_depth) watched->is_undone = 1;
    watched->undone++;
    return commits(at);
}

/* A savepoint begins, whose number is how many there were. */
static int saves(sqlite3_vtab *at, int number) {
    watch_of(at)->depth = number + 1;
    watch_of(at)->turns++;
    return SQLITE_OK;
}

/* A savepoint ends: what was done within it belongs to the one around. */
static int releases(sqlite3_vtab *at, int number) {
    watch *watched = watch_of(at);
    watched->depth = number;
    if (watched->read_depth > number + 1) watched->read_depth = number + 1;
    return SQLITE_OK;
}

static int rolls_back_to(sqlite3_vtab *at, int number) {
    watch *watched = watch_of(at);
    if (watched->read_depth > number + 1) watched->is_undone = 1;
    watched->undone++;
    watched->depth = number + 1;
    return SQLITE_OK;
}

/* There is no xCreate: it is there without being made. */
const sqlite3_module watching = {
    .iVersion = 2, .xConnect = connects, .xDisconnect = disconnects, .xBestIndex = plans, .xOpen = opens, .xClose = closes,
    .xFilter = filters, .xNext = goes_on, .xEof = is_at_end, .xColumn = tells_column, .xRowid = tells_row, .xUpdate = updates,
    .xBegin = begins, .xCommit = commits, .xRollback = rolls_back, .xSavepoint = saves, .xRelease = releases, .xRollbackTo = rolls_back_to,
};

/* ---- who asks for it */

/* Whether the main database is written in the present transaction, and the table takes part in that. It does from the first time
 * that this is asked, unless somebody's table has its name, or an authorizer keeps it away. */
int is_watched(connection *self) {
    sqlite3_int64 none;
    if (!self->watch.takes_part && transaction_of(self->db, "main") > 1) ask_number(self->db, "DELETE FROM main.npss_watch WHERE 0", &none);
    return self->watch.takes_part;
}

/* Remembers that the tables in use were read at this place of the transaction. */
void note_read(connection *self) {
    self->watch.is_undone = 0;
    self->watch.read_depth = is_watched(self) ? self->watch.depth + 1 : 0;
}

/* Whether a database may have been detached, or a change of a schema rolled back, since this was asked before: then SQLite makes each
 * statement anew. The statement is kept while the table is connected, since a connection with statements isn't closed. */
int may_be_detached(connection *self) {
    sqlite3_int64 none;
    watch *watched = &self->watch;
    if (!watched->is_connected) ask_number(self->db, "SELECT 1 FROM main.npss_watch", &none);
    if (watched->is_connected && !watched->kept && sqlite3_prepare_v2(self->db, "SELECT 1", -1, &watched->kept, NULL) == SQLITE_OK) return 1;
    if (!watched->kept) return 1;
    sqlite3_step(watched->kept);
    sqlite3_reset(watched->kept);
    return sqlite3_stmt_status(watched->kept, SQLITE_STMTSTATUS_REPREPARE, 1) > 0;
}
