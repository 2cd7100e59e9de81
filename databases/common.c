/* What the extensions for databases share, of no database. */
#define _POSIX_C_SOURCE 200809L

#include "common.h"

#include <stdio.h>
#include <string.h>
#include <sys/stat.h>
#include <unistd.h>

#define COUNT(array) (sizeof(array) / sizeof *(array))

const char *const file_names[FILE_COUNT] = {"UnicodeData.txt", "CompositionExclusions.txt", "CaseFolding.txt"};

/* ---- files */

bool is_label(const char *word, size_t size) {
    size_t length = strspn(word, "0123456789abcdefghijklmnopqrstuvwxyzABCDEFGHIJKLMNOPQRSTUVWXYZ._-");
    return length > 0 && length < size && word[length] == '\0' && word[0] != '.';
}

bool measure_file(int file, size_t *length) {
    struct stat about;
    if (fstat(file, &about) != 0 || !S_ISREG(about.st_mode) || about.st_size > MOST_OF_A_FILE) return false;
    *length = (size_t)about.st_size;
    return true;
}

bool read_file(int file, uint8_t *room, size_t length) {
    ssize_t got = 1;
    size_t at = 0;
    while (at < length && got > 0) {
        got = read(file, room + at, length - at);
        at += got > 0 ? (size_t)got : 0;
    }
    return at == length;
}

size_t digested_size(const bytes files[FILE_COUNT]) {
    return 8 + files[DATA_FILE].length + files[EXCLUSIONS_FILE].length;
}

void put_digested(uint8_t *room, const bytes files[FILE_COUNT]) {
    for (int i = 0; i < 8; i++) room[i] = (uint8_t)((uint64_t)files[DATA_FILE].length >> (8 * i));
    memcpy(room + 8, files[DATA_FILE].at, files[DATA_FILE].length);
    memcpy(room + 8 + files[DATA_FILE].length, files[EXCLUSIONS_FILE].at, files[EXCLUSIONS_FILE].length);
}

/* ---- versions */

npss_answer open_files(npss_handle *handle, const bytes files[FILE_COUNT]) {
    const bytes *data = &files[DATA_FILE], *exclusions = &files[EXCLUSIONS_FILE], *folding = &files[FOLDING_FILE];
    if (!folding->at) return npss_open(handle, data->at, data->length, exclusions->at, exclusions->length);
    return npss_open_caseless(handle, data->at, data->length, exclusions->at, exclusions->length, folding->at, folding->length);
}

bool has_foldings(npss_handle *handle) {
    uint8_t text[1] = {0}, room[1];
    return handle->is_open && npss_caseless_key(handle, NPSS_NFC, text, 0, room, sizeof room).status != NPSS_NO_FOLDING;
}

npss_answer keeps_keys(npss_handle *older, npss_handle *newer, bool caseless) {
    return caseless ? npss_caseless_extends(older, newer) : npss_extends(older, newer);
}

static const struct {
    const char *name;
    uint8_t form;
} forms[] = {{"nfc", NPSS_NFC}, {"nfd", NPSS_NFD}, {"nfkc", NPSS_NFKC}, {"nfkd", NPSS_NFKD}};

bool keeps_ascii(npss_handle *handle) {
    for (size_t i = 0; i < COUNT(forms); i++) {
        if (npss_keeps_ascii(handle, forms[i].form).status != NPSS_DONE) return false;
    }
    return true;
}

/* Whether a word is a name in small letters, but for the case of its own. */
static bool is_name(const char *name, const char *word, size_t length) {
    if (strlen(name) != length) return false;
    for (size_t i = 0; i < length; i++) {
        if ((word[i] | 0x20) != name[i]) return false;
    }
    return true;
}

uint8_t form_named(const char *word, size_t length) {
    for (size_t i = 0; i < COUNT(forms); i++) {
        if (is_name(forms[i].name, word, length)) return forms[i].form;
    }
    return 0;
}

/* ---- refusals */

/* A name that the library tells; a library that is newer than these may answer a number that it has none for. */
static npss_name known(npss_name name) {
    static const npss_name unknown = {"unknown"};
    return name.text[0] != '\0' ? name : unknown;
}

/* The name of a file by its number from 1. */
static const char *file_numbered(uint32_t number) {
    return number - 1 < FILE_COUNT ? file_names[number - 1] : "unknown";
}

/* Puts a fault at a line of a file. */
static void put_line(char *room, const char *file, npss_answer answer) {
    npss_name fault = known(npss_fault_name(answer.status, answer.fault));
    snprintf(room, FAULT_SIZE, "%s, line %llu: %s", file, (unsigned long long)answer.place, fault.text);
}

/* Puts a fault at a code point, which so many files have together. */
static void put_code(char *room, const char *count, npss_answer answer) {
    npss_name fault = known(npss_fault_name(answer.status, answer.fault));
    snprintf(room, FAULT_SIZE, "%s files together: %s at code point U+%04X", count, fault.text, (unsigned)answer.code);
}

npss_name break_kind(npss_answer answer) {
    return known(npss_break_name(answer.fault));
}

void put_fault(char *room, npss_answer answer) {
    switch (answer.status) {
    case NPSS_DATA:
        put_line(room, file_names[DATA_FILE], answer);
        break;
    case NPSS_EXCLUSIONS:
        put_line(room, file_names[EXCLUSIONS_FILE], answer);
        break;
    case NPSS_FOLDING:
        put_line(room, file_names[FOLDING_FILE], answer);
        break;
    case NPSS_TABLES:
        put_code(room, "Both", answer);
        break;
    case NPSS_FOLDINGS:
        put_code(room, "The three", answer);
        break;
    case NPSS_TOO_LARGE:
        snprintf(room, FAULT_SIZE, "%s has more than %d bytes", file_numbered(answer.fault), MOST_OF_A_FILE);
        break;
    default:
        snprintf(room, FAULT_SIZE, "the library answered %u", (unsigned)answer.status);
    }
}
