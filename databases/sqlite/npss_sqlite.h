/* What the files of the extension share: npss_sqlite.c, keys and questions; record.c, which tables are in use; watch.c, what a
 * rollback takes back; attached.c, attached databases; files.c, the files of a version; raise.c, how a database comes to another
 * version. */
#ifndef NPSS_SQLITE_H
#define NPSS_SQLITE_H

#include "../common.h"

#include <sqlite3ext.h>

/* What is another where the main database may have become another one. */
typedef struct state {
    unsigned pager;       /* SQLITE_FCNTL_DATA_VERSION: each commit changes it, also the connection's own */
    sqlite3_int64 data;   /* PRAGMA data_version: each commit of another connection changes it */
    sqlite3_int64 schema; /* PRAGMA schema_version */
    int transaction;      /* SQLITE_TXN_NONE, _READ or _WRITE */
    unsigned turns;       /* those of `watch` */
} state;

/* What the table npss_watch was told of a connection's transactions (watch.c). */
typedef struct watch {
    int takes_part;         /* in the transaction that is open */
    int depth;              /* how many savepoints are open, those of statements too */
    int read_depth;         /* one more than the depth at which the tables in use were read; 0 where no rollback takes the record back */
    int is_undone;          /* a rollback may have taken back what was read */
    unsigned turns, undone; /* how many transactions and savepoints began, and how many were rolled back */
    int is_connected;       /* it is there, until SQLite closes the connection */
    sqlite3_stmt *kept;     /* a statement that SQLite makes anew where a database is detached; NULL where none is wanted yet */
} watch;

/* An attached database that was found to fit the main one, and its numbers then, as those of `state`. */
typedef struct fitting {
    char *mark; /* by what it is known again, of sqlite3_mprintf; NULL where none was looked at */
    unsigned data_version;
    sqlite3_int64 others, schema;
    watch watched;
} fitting;

/* How many databases of a connection are remembered, by their numbers: main, temp, and as many as SQLite attaches by itself. */
#define MOST_ATTACHED 12

/* The room for what is made of most texts, in bytes. */
#define ROOM 4096

/* The tables of one connection. */
typedef struct connection {
    sqlite3 *db;
    int users;              /* the functions that point here, and the table npss_watch */
    npss_handle tables;     /* in use; closed until they are wanted */
    npss_handle own;        /* those of npss_open, until the database has a record that stays */
    uintptr_t number;       /* of the tables in use, another one each time that others come */
    sqlite3_int64 assigned; /* how many code points they assign */
    int is_recorded;        /* they are those of npss_record, and not of npss_open */
    int is_folded;          /* they have foldings, and make caseless keys */
    int folded_own;         /* those of npss_open have made a caseless key, which may be stored */
    int may_be_undone;      /* a rollback of which nobody tells may take the record back that is in use: each call looks at it */
    watch watch;            /* what tells of the others */
    state seen;             /* the main database, when the record was looked at */
    fitting attached[MOST_ATTACHED];
    int writes;             /* how many writes of the record npss_raise still lets its triggers pass */
    uint8_t *room;          /* where what is made of most texts is put */
} connection;

/* The files of a version, of sqlite3_malloc or of the caller. */
typedef struct files {
    bytes each[FILE_COUNT];
} files;

typedef void function(sqlite3_context *call, int count, sqlite3_value **given);

/* npss_sqlite.c */
connection *connection_of(sqlite3_context *call);
void release(void *held);
int fail(sqlite3_context *call, char *text);
int fail_memory(sqlite3_context *call);
int fail_by_database(sqlite3_context *call);

/* files.c */
int refuse(sqlite3_context *call, npss_answer a);
int opened(sqlite3_context *call, npss_handle *tables, const files *of);
int files_of(sqlite3_context *call, int count, sqlite3_value **given, files *found);
void free_files(files *held);
npss_answer keeps_own(npss_handle *older, npss_handle *newer);

/* record.c */
int ask_number(sqlite3 *db, const char *text, sqlite3_int64 *number);
int folding_column(sqlite3 *db, const char *schema);
unsigned data_version(sqlite3 *db, const char *schema);
int transaction_of(sqlite3 *db, const char *schema);
int use(sqlite3_context *call, connection *self, npss_handle *tables, int is_recorded);
int use_record(sqlite3_context *call, connection *self);
int ready(sqlite3_context *call, connection *self);
int use_raised(sqlite3_context *call, connection *self, npss_handle *tables);

/* watch.c */
extern const sqlite3_module watching;
int is_watched(connection *self);
void note_read(connection *self);
int may_be_detached(connection *self);

/* attached.c */
int fits_attached(sqlite3_context *call, connection *self);
void forget_attached(connection *self);

/* raise.c */
function do_version, do_audit, do_open, do_is_raising, do_raise;

#endif
