// libunistring as a peer of names.c, by u8_normalize; the general category tells unassigned code points.
#include "names.h"
#include <unictype.h>
#include <uninorm.h>
#include <stdio.h>
#include <string.h>
#include <unistr.h>
#include <unistring/version.h>

static uninorm_t normalizer;

static long form(const char *text, size_t length, char *room) {
    size_t made = 4096;
    return u8_normalize(normalizer, (const uint8_t *)text, length, (uint8_t *)room, &made) == (uint8_t *)room ? (long)made : -1;
}

static long key(const char *text, size_t length, char *room) {
    for (size_t i = 0; i < length;) {
        ucs4_t code;
        const int bytes = u8_mbtoucr(&code, (const uint8_t *)text + i, length - i);
        if (bytes < 1 || uc_is_general_category(code, UC_UNASSIGNED)) return -1;
        i += (size_t)bytes;
    }
    return form(text, length, room);
}

const struct way ways[2] = {{"form", form}, {"key", key}};

const char *ready(const char *form, int count, char **words) {
    static char version[64];
    (void)count, (void)words;
    normalizer = strcmp(form, "nfd") == 0 ? UNINORM_NFD : UNINORM_NFC;
    snprintf(version, sizeof version, "of libunistring %d.%d", _libunistring_version >> 16, _libunistring_version >> 8 & 255);
    return version;
}
