/* The files of a version, and what is wrong with them. */
#define _POSIX_C_SOURCE 200809L

#include "npss_sqlite.h"

#include <errno.h>
#include <fcntl.h>
#include <string.h>
#include <unistd.h>

SQLITE_EXTENSION_INIT3

/* What an answer tells that is neither done nor no. */
int refuse(sqlite3_context *call, npss_answer a) {
    char fault[FAULT_SIZE];
    switch (a.status) {
    case NPSS_UNASSIGNED:
        return fail(call, sqlite3_mprintf("npss: U+%04X at byte %llu is not assigned in this database's version of Unicode",
                                          a.code, (sqlite3_uint64)a.place));
    case NPSS_NOT_UTF8:
        return fail(call, sqlite3_mprintf("npss: not UTF-8 at byte %llu", (sqlite3_uint64)a.place));
    case NPSS_MEMORY:
        return fail_memory(call);
    case NPSS_NO_FOLDING:
        return fail(call, sqlite3_mprintf("npss: this database's version has no %s: npss_raise(FOLDER) takes one", file_names[FOLDING_FILE]));
    default:
        put_fault(fault, a);
        return fail(call, sqlite3_mprintf("npss: %s", fault));
    }
}

/* The tables of the files; 0 where an error is set. */
int opened(sqlite3_context *call, npss_handle *tables, const files *of) {
    npss_answer a = open_files(tables, of->each);
    return a.status == NPSS_DONE ? 1 : refuse(call, a);
}

/* Whether newer tables keep the keys of older ones: the caseless keys too, where the older ones make such. */
npss_answer keeps_own(npss_handle *older, npss_handle *newer) {
    return keeps_keys(older, newer, has_foldings(older));
}

/* The bytes of an open file, of sqlite3_malloc; 0 where an error is set. */
static int read_opened(sqlite3_context *call, int file, const char *path, bytes *found) {
    uint8_t *room;
    if (!measure_file(file, &found->length))
        return fail(call, sqlite3_mprintf("npss: %s is not a file of at most %d bytes", path, MOST_OF_A_FILE));
    found->at = room = sqlite3_malloc64(found->length + 1);
    if (!room) return fail_memory(call);
    return read_file(file, room, found->length) || fail(call, sqlite3_mprintf("npss: %s can't be read", path));
}

/* The bytes of a file of a folder, which may lack the foldings; 0 where an error is set. */
static int read_named(sqlite3_context *call, const char *folder, int which, bytes *found) {
    char *path = sqlite3_mprintf("%s/%s", folder, file_names[which]);
    int done = 0, file = path ? open(path, OPEN_A_FILE) : -1;
    if (file >= 0) {
        done = read_opened(call, file, path, found);
        close(file);
    } else if (path && which == FOLDING_FILE && errno == ENOENT) {
        done = 1;
    } else if (path) {
        fail(call, sqlite3_mprintf("npss: %s can't be opened", path));
    } else {
        fail_memory(call);
    }
    sqlite3_free(path);
    return done;
}

/* The bytes of a blob, copied; 0 where an error is set. */
static int copy(sqlite3_context *call, sqlite3_value *blob, bytes *found) {
    uint8_t *room = sqlite3_malloc64((sqlite3_uint64)sqlite3_value_bytes(blob) + 1);
    if (!room) return fail_memory(call);
    found->at = room;
    found->length = (size_t)sqlite3_value_bytes(blob);
    if (found->length) memcpy(room, sqlite3_value_blob(blob), found->length);
    return 1;
}

/* The blobs that are given in place of a folder; 0 where an error is set. */
static int blobs_of(sqlite3_context *call, int count, sqlite3_value **given, files *found) {
    for (int i = 0; i < count; i++) {
        if (sqlite3_value_type(given[i]) != SQLITE_BLOB)
            return fail(call, sqlite3_mprintf("npss: a folder is wanted, or two blobs or three: %s, %s and %s", file_names[DATA_FILE],
                                              file_names[EXCLUSIONS_FILE], file_names[FOLDING_FILE]));
        if (!copy(call, given[i], &found->each[i])) return 0;
    }
    return 1;
}

/* The files of a folder, or the blobs that are given in their place; 0 where an error is set. */
int files_of(sqlite3_context *call, int count, sqlite3_value **given, files *found) {
    const char *folder;
    memset(found, 0, sizeof *found);
    if (count > 1) return blobs_of(call, count, given, found);
    if (!(folder = (const char *)sqlite3_value_text(given[0]))) return fail(call, sqlite3_mprintf("npss: a folder is wanted"));
    for (int i = 0; i < FILE_COUNT; i++) {
        if (!read_named(call, folder, i, &found->each[i])) return 0;
    }
    return 1;
}

void free_files(files *held) {
    for (int i = 0; i < FILE_COUNT; i++) sqlite3_free((void *)held->each[i].at);
}
