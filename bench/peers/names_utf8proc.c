// utf8proc as a peer of names.c, by utf8proc_map; UTF8PROC_REJECTNA refuses unassigned code points.
#include "names.h"
#include <stdlib.h>
#include <string.h>
#include <utf8proc.h>

static int composes;

static long made(const char *text, size_t length, char *room, int more) {
    utf8proc_uint8_t *form;
    const utf8proc_ssize_t bytes =
        utf8proc_map((const utf8proc_uint8_t *)text, (utf8proc_ssize_t)length, &form, UTF8PROC_STABLE | composes | more);
    if (bytes < 0) return -1;
    memcpy(room, form, (size_t)bytes);
    free(form);
    return bytes;
}

static long form(const char *text, size_t length, char *room) { return made(text, length, room, 0); }
static long key(const char *text, size_t length, char *room) { return made(text, length, room, UTF8PROC_REJECTNA); }

const struct way ways[2] = {{"form", form}, {"key", key}};

const char *ready(const char *form, int count, char **words) {
    (void)count, (void)words;
    composes = strcmp(form, "nfd") == 0 ? UTF8PROC_DECOMPOSE : UTF8PROC_COMPOSE;
    return utf8proc_unicode_version();
}
