// The library npss as a peer of names.c: its words are the two files of a version.
#include "names.h"
#include <npss.h>
#include <stdio.h>
#include <stdlib.h>
#include <string.h>

static npss_handle handle;
static uint8_t letter;

static long answered(npss_answer answer) { return answer.status == NPSS_DONE ? (long)answer.length : -1; }

static long form(const char *text, size_t length, char *room) {
    return answered(npss_normalize(&handle, letter, (const uint8_t *)text, length, (uint8_t *)room, 4096));
}

static long key(const char *text, size_t length, char *room) {
    return answered(npss_key(&handle, letter, (const uint8_t *)text, length, (uint8_t *)room, 4096));
}

const struct way ways[2] = {{"form", form}, {"key", key}};

const char *ready(const char *form, int count, char **words) {
    static uint8_t files[2][1 << 24];
    size_t lengths[2];
    letter = strcmp(form, "nfd") == 0 ? NPSS_NFD : NPSS_NFC;
    for (int i = 0; i < 2; i++) {
        FILE *file = i < count ? fopen(words[i], "rb") : NULL;
        if (!file) return NULL;
        lengths[i] = fread(files[i], 1, sizeof files[i], file);
        fclose(file);
    }
    return npss_open(&handle, files[0], lengths[0], files[1], lengths[1]).status == NPSS_DONE ? "of the files" : NULL;
}
