// ICU as a peer of names.c, by normalizeUTF8; u_charType looks for unassigned code points.
#include "names.h"
#include <string.h>
#include <unicode/bytestream.h>
#include <unicode/normalizer2.h>
#include <unicode/uchar.h>
#include <unicode/utf8.h>

static const icu::Normalizer2 *normalizer;

static long form(const char *text, size_t length, char *room) {
    UErrorCode error = U_ZERO_ERROR;
    icu::CheckedArrayByteSink sink(room, 4096);
    normalizer->normalizeUTF8(0, icu::StringPiece(text, (int32_t)length), sink, nullptr, error);
    return U_FAILURE(error) || sink.Overflowed() ? -1 : sink.NumberOfBytesWritten();
}

static long key(const char *text, size_t length, char *room) {
    for (int32_t i = 0; i < (int32_t)length;) {
        UChar32 code;
        U8_NEXT(text, i, (int32_t)length, code);
        if (code < 0 || u_charType(code) == U_UNASSIGNED)
            return -1;
    }
    return form(text, length, room);
}

extern "C" {
const struct way ways[2] = {{"form", form}, {"key", key}};

const char *ready(const char *form, int, char **) {
    UErrorCode error = U_ZERO_ERROR;
    normalizer = strcmp(form, "nfd") == 0 ? icu::Normalizer2::getNFDInstance(error) : icu::Normalizer2::getNFCInstance(error);
    return U_FAILURE(error) ? nullptr : U_UNICODE_VERSION;
}
}
