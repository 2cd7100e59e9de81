/* Stabilized keys of text (UAX #15, section 12) in SQLite, by the proved library libnpss.
 *
 * A database keeps its version of Unicode in itself: the table npss_record has the two files. So version and names travel
 * together, and nobody swaps the files. npss_raise audits newer files against them first.
 *
 * A key stays the same under each version that extends the one under which it was made; that is proved. So npss_key is
 * deterministic. A caseless key stays the same where the foldings are extended too, and npss_raise sees to that. What a raise
 * changes is which texts are refused. Each call goes by the record as its transaction sees it; it
 * is read again where the file has changed since. */
#include "npss_sqlite.h"

#include <string.h>

SQLITE_EXTENSION_INIT1

connection *connection_of(sqlite3_context *call) {
    return sqlite3_user_data(call);
}

/* Lets a user of a connection's tables go; they are closed with the last one. */
void release(void *held) {
    connection *self = held;
    if (--self->users > 0) return;
    npss_close(&self->tables);
    npss_close(&self->own);
    forget_attached(self);
    sqlite3_free(self->room);
    sqlite3_free(self);
}

/* ---- errors */

/* Ends a call with an error, whose text is of sqlite3_mprintf. Answers 0. */
int fail(sqlite3_context *call, char *text) {
    if (!text) {
        sqlite3_result_error_nomem(call);
    } else {
        sqlite3_result_error(call, text, -1);
        sqlite3_free(text);
    }
    return 0;
}

int fail_memory(sqlite3_context *call) {
    sqlite3_result_error_nomem(call);
    return 0;
}

/* The error of the database's last statement. */
int fail_by_database(sqlite3_context *call) {
    return fail(call, sqlite3_mprintf("npss: %s", sqlite3_errmsg(connection_of(call)->db)));
}

/* ---- keys and forms */

/* The form of a word, from any letters' case; 0 where an error is set. */
static uint8_t form_of(sqlite3_context *call, sqlite3_value *word) {
    const char *name = (const char *)sqlite3_value_text(word);
    uint8_t named = name ? form_named(name, (size_t)sqlite3_value_bytes(word)) : 0;
    return named ? named : (uint8_t)fail(call, sqlite3_mprintf("npss: a form is nfc, nfd, nfkc or nfkd, not %Q", name));
}

/* What is made of a text. */
typedef struct maker {
    npss_answer (*make)(npss_handle *, uint8_t, const uint8_t *, size_t, uint8_t *, size_t);
    uint8_t form;
    int may_lack; /* NULL in place of the error that a code point is not assigned */
} maker;

/* The bytes of a value as text, in UTF-8; NULL where an error is set. */
static const uint8_t *text_of(sqlite3_context *call, sqlite3_value *value, size_t *length) {
    const uint8_t *text;
    if (sqlite3_value_type(value) == SQLITE_TEXT && (*length = (size_t)sqlite3_value_bytes(value)) > 0) {
        text = sqlite3_value_blob(value); /* the text isn't copied, as sqlite3_value_text does to put a zero behind it */
    } else {
        text = sqlite3_value_text(value);
        *length = (size_t)sqlite3_value_bytes(value);
    }
    if (!text) fail_memory(call);
    return text;
}

/* Makes it in a room of its own, as large as was told. */
static void make_large(sqlite3_context *call, const maker *how, const uint8_t *text, size_t length, uint64_t size) {
    uint8_t *room = sqlite3_malloc64(size);
    npss_answer a;
    if (!room) {
        fail_memory(call);
        return;
    }
    a = how->make(&connection_of(call)->tables, how->form, text, length, room, (size_t)size);
    if (a.status == NPSS_DONE) {
        sqlite3_result_text64(call, (char *)room, a.length, sqlite3_free, SQLITE_UTF8);
    } else {
        sqlite3_free(room);
        refuse(call, a);
    }
}

static void make(sqlite3_context *call, const maker *how, sqlite3_value *given) {
    connection *self = connection_of(call);
    const uint8_t *text;
    size_t length;
    npss_answer a;
    if (sqlite3_value_type(given) == SQLITE_NULL || !ready(call, self) || !(text = text_of(call, given, &length))) return;
    a = how->make(&self->tables, how->form, text, length, self->room, ROOM);
    if (!self->is_recorded && how->make == npss_caseless_key && a.status != NPSS_NO_FOLDING) self->folded_own = 1;
    if (a.status == NPSS_DONE) {
        sqlite3_result_text64(call, (char *)self->room, a.length, SQLITE_TRANSIENT, SQLITE_UTF8);
    } else if (a.status == NPSS_NO_ROOM) {
        make_large(call, how, text, length, a.length);
    } else if (a.status != NPSS_UNASSIGNED || !how->may_lack) {
        refuse(call, a);
    }
}

/* A function of a text and a form, which is NFC's where none is named. */
static void make_under(sqlite3_context *call, int count, sqlite3_value **given, maker how) {
    how.form = count > 1 ? form_of(call, given[1]) : NPSS_NFC;
    if (how.form) make(call, &how, given[0]);
}

static void do_key(sqlite3_context *call, int count, sqlite3_value **given) {
    make_under(call, count, given, (maker){npss_key, 0, 0});
}

static void do_try_key(sqlite3_context *call, int count, sqlite3_value **given) {
    make_under(call, count, given, (maker){npss_key, 0, 1});
}

static void do_normalize(sqlite3_context *call, int count, sqlite3_value **given) {
    make_under(call, count, given, (maker){npss_normalize, 0, 0});
}

static void do_nfc(sqlite3_context *call, int count, sqlite3_value **given) {
    (void)count;
    make(call, &(maker){npss_key, NPSS_NFC, 0}, given[0]);
}

static void do_nfd(sqlite3_context *call, int count, sqlite3_value **given) {
    (void)count;
    make(call, &(maker){npss_key, NPSS_NFD, 0}, given[0]);
}

static void do_nfkc(sqlite3_context *call, int count, sqlite3_value **given) {
    (void)count;
    make(call, &(maker){npss_key, NPSS_NFKC, 0}, given[0]);
}

static void do_nfkd(sqlite3_context *call, int count, sqlite3_value **given) {
    (void)count;
    make(call, &(maker){npss_key, NPSS_NFKD, 0}, given[0]);
}

static void do_caseless_key(sqlite3_context *call, int count, sqlite3_value **given) {
    make_under(call, count, given, (maker){npss_caseless_key, 0, 0});
}

static void do_try_caseless_key(sqlite3_context *call, int count, sqlite3_value **given) {
    make_under(call, count, given, (maker){npss_caseless_key, 0, 1});
}

static void do_caseless_nfc(sqlite3_context *call, int count, sqlite3_value **given) {
    (void)count;
    make(call, &(maker){npss_caseless_key, NPSS_NFC, 0}, given[0]);
}

static void do_caseless_nfd(sqlite3_context *call, int count, sqlite3_value **given) {
    (void)count;
    make(call, &(maker){npss_caseless_key, NPSS_NFD, 0}, given[0]);
}

static void do_caseless_nfkc(sqlite3_context *call, int count, sqlite3_value **given) {
    (void)count;
    make(call, &(maker){npss_caseless_key, NPSS_NFKC, 0}, given[0]);
}

static void do_caseless_nfkd(sqlite3_context *call, int count, sqlite3_value **given) {
    (void)count;
    make(call, &(maker){npss_caseless_key, NPSS_NFKD, 0}, given[0]);
}

/* ---- questions */

static void tell(sqlite3_context *call, npss_answer a) {
    if (a.status == NPSS_DONE || a.status == NPSS_DIFFERENT) {
        sqlite3_result_int(call, a.status == NPSS_DONE);
    } else {
        refuse(call, a);
    }
}

static void do_is_normalized(sqlite3_context *call, int count, sqlite3_value **given) {
    uint8_t form = count > 1 ? form_of(call, given[1]) : NPSS_NFC;
    const uint8_t *text;
    size_t length;
    if (!form || sqlite3_value_type(given[0]) == SQLITE_NULL || !ready(call, connection_of(call)) ||
        !(text = text_of(call, given[0], &length)))
        return;
    tell(call, npss_is_form(&connection_of(call)->tables, form, text, length));
}

/* How two texts are compared: npss_equivalent or npss_caseless_match. */
typedef npss_answer comparer(npss_handle *, bool, const uint8_t *, size_t, const uint8_t *, size_t);

static void compare(sqlite3_context *call, int count, sqlite3_value **given, comparer *how) {
    uint8_t form = count > 2 ? form_of(call, given[2]) : NPSS_NFC;
    const uint8_t *left, *right;
    size_t left_length, right_length;
    if (!form || sqlite3_value_type(given[0]) == SQLITE_NULL || sqlite3_value_type(given[1]) == SQLITE_NULL ||
        !ready(call, connection_of(call)) || !(left = text_of(call, given[0], &left_length)) ||
        !(right = text_of(call, given[1], &right_length)))
        return;
    tell(call, how(&connection_of(call)->tables, form == NPSS_NFKC || form == NPSS_NFKD, left, left_length, right, right_length));
}

static void do_equivalent(sqlite3_context *call, int count, sqlite3_value **given) {
    compare(call, count, given, npss_equivalent);
}

static void do_caseless_match(sqlite3_context *call, int count, sqlite3_value **given) {
    compare(call, count, given, npss_caseless_match);
}

/* ---- loading */

#if defined(__GNUC__)
__attribute__((visibility("default")))
#endif
int sqlite3_npss_init(sqlite3 *db, char **error, const sqlite3_api_routines *api);

int sqlite3_npss_init(sqlite3 *db, char **error, const sqlite3_api_routines *api) {
    enum { KEY = SQLITE_UTF8 | SQLITE_DETERMINISTIC | SQLITE_INNOCUOUS, ASK = SQLITE_UTF8 | SQLITE_INNOCUOUS,
           DIRECT = SQLITE_UTF8 | SQLITE_DIRECTONLY };
    static const struct {
        const char *name;
        int arguments, flags;
        function *does;
    } all[] = {
        /* The keys: deterministic, for indexes, generated columns and checks. */
        {"npss_key", 1, KEY, do_key}, {"npss_key", 2, KEY, do_key}, {"npss_nfc", 1, KEY, do_nfc},
        {"npss_nfd", 1, KEY, do_nfd}, {"npss_nfkc", 1, KEY, do_nfkc}, {"npss_nfkd", 1, KEY, do_nfkd},
        {"npss_caseless_key", 1, KEY, do_caseless_key}, {"npss_caseless_key", 2, KEY, do_caseless_key},
        {"npss_caseless_nfc", 1, KEY, do_caseless_nfc}, {"npss_caseless_nfd", 1, KEY, do_caseless_nfd},
        {"npss_caseless_nfkc", 1, KEY, do_caseless_nfkc}, {"npss_caseless_nfkd", 1, KEY, do_caseless_nfkd},
        /* What these answer changes with a raise, so no index may stand on them. */
        {"npss_try_key", 1, ASK, do_try_key}, {"npss_try_key", 2, ASK, do_try_key},
        {"npss_normalize", 1, ASK, do_normalize}, {"npss_normalize", 2, ASK, do_normalize},
        {"npss_is_normalized", 1, ASK, do_is_normalized}, {"npss_is_normalized", 2, ASK, do_is_normalized},
        {"npss_equivalent", 2, ASK, do_equivalent}, {"npss_equivalent", 3, ASK, do_equivalent},
        {"npss_try_caseless_key", 1, ASK, do_try_caseless_key}, {"npss_try_caseless_key", 2, ASK, do_try_caseless_key},
        {"npss_caseless_match", 2, ASK, do_caseless_match}, {"npss_caseless_match", 3, ASK, do_caseless_match},
        {"npss_version", 0, ASK, do_version}, {"npss_is_raising", 0, ASK, do_is_raising},
        {"npss_is_raising_folding", 0, ASK, do_is_raising},
        /* Not from within a schema. */
        {"npss_open", 1, DIRECT, do_open}, {"npss_open", 2, DIRECT, do_open}, {"npss_open", 3, DIRECT, do_open},
        {"npss_audit", 1, DIRECT, do_audit}, {"npss_audit", 2, DIRECT, do_audit}, {"npss_audit", 3, DIRECT, do_audit},
        {"npss_raise", 1, DIRECT, do_raise}, {"npss_raise", 2, DIRECT, do_raise}, {"npss_raise", 3, DIRECT, do_raise},
    };
    connection *self;
    int code = SQLITE_OK;
    SQLITE_EXTENSION_INIT2(api);
    if (!(self = sqlite3_malloc(sizeof *self))) return SQLITE_NOMEM;
    memset(self, 0, sizeof *self);
    self->users = 1;
    self->db = db;
    if (!(self->room = sqlite3_malloc(ROOM))) {
        release(self);
        return SQLITE_NOMEM;
    }
    for (size_t i = 0; i < sizeof all / sizeof *all && code == SQLITE_OK; i++) {
        self->users++; /* where it fails, SQLite releases it */
        code = sqlite3_create_function_v2(db, all[i].name, all[i].arguments, all[i].flags, self, all[i].does, NULL, NULL, release);
    }
    if (code == SQLITE_OK) {
        self->users++;
        code = sqlite3_create_module_v2(db, "npss_watch", &watching, self, release);
    }
    if (code != SQLITE_OK && error) *error = sqlite3_mprintf("npss: %s", sqlite3_errmsg(db));
    release(self);
    return code;
}
