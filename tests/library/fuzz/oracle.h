/* What ICU says of texts: the independent answers that the library's are held against. */
#ifndef ORACLE_H
#define ORACLE_H
#include <npss.h>
#include <unicode/bytestream.h>
#include <unicode/casemap.h>
#include <unicode/normalizer2.h>
#include <unicode/uchar.h>
#include <unicode/utf8.h>

#include <cstdio>
#include <cstdlib>
#include <fstream>
#include <iterator>
#include <string>

static const uint8_t forms[] = {NPSS_NFD, NPSS_NFC, NPSS_NFKD, NPSS_NFKC};

/* Ends the run, and shows the text. */
[[noreturn]] inline void disagree(const char *what, const std::string &text) {
    std::fprintf(stderr, "the library and ICU disagree: %s:", what);
    for (unsigned char byte : text) std::fprintf(stderr, " %02x", byte);
    std::fprintf(stderr, "\n");
    std::abort();
}

inline std::string file(const char *folder, const char *name) {
    std::ifstream in(std::string(folder) + "/" + name, std::ios::binary);
    std::string bytes(std::istreambuf_iterator<char>(in), {});
    if (bytes.empty()) {
        std::fprintf(stderr, "%s/%s can't be read\n", folder, name);
        std::exit(9);
    }
    return bytes;
}

inline const uint8_t *bytes(const std::string &text) {
    return reinterpret_cast<const uint8_t *>(text.data());
}

/* Where the version's two files lie: the environment variable UCD, else where Debian's package unicode-data has them. */
inline const char *ucd() {
    const char *named = std::getenv("UCD");
    return named ? named : "/usr/share/unicode";
}

/* A file of the folder of fixtures: the environment variable FIXTURES, else where the run begins. */
inline std::string fixture(const std::string &name) {
    const char *named = std::getenv("FIXTURES");
    return file(named ? named : "fixtures", name.c_str());
}

inline const icu::Normalizer2 &normalizer(uint8_t form) {
    UErrorCode error = U_ZERO_ERROR;
    const icu::Normalizer2 *found = form == NPSS_NFD    ? icu::Normalizer2::getNFDInstance(error)
                                    : form == NPSS_NFC  ? icu::Normalizer2::getNFCInstance(error)
                                    : form == NPSS_NFKD ? icu::Normalizer2::getNFKDInstance(error)
                                                        : icu::Normalizer2::getNFKCInstance(error);
    if (U_FAILURE(error)) std::abort();
    return *found;
}

inline std::string normal_form(uint8_t form, const std::string &text) {
    std::string made;
    icu::StringByteSink<std::string> sink(&made);
    UErrorCode error = U_ZERO_ERROR;
    normalizer(form).normalizeUTF8(0, text, sink, nullptr, error);
    if (U_FAILURE(error)) std::abort();
    return made;
}

/* Whether what is compared under a form is compatible equivalents. */
inline bool is_compatible(uint8_t form) {
    return form == NPSS_NFKD || form == NPSS_NFKC;
}

/* A text whose code points are folded, one by one: what the lines of status C and F of CaseFolding.txt say. */
inline std::string folded(const std::string &text) {
    std::string made;
    icu::StringByteSink<std::string> sink(&made);
    UErrorCode error = U_ZERO_ERROR;
    icu::CaseMap::utf8Fold(U_FOLD_CASE_DEFAULT, text, sink, nullptr, error);
    if (U_FAILURE(error)) std::abort();
    return made;
}

/* A text in capitals, which mostly matches it caselessly. */
inline std::string raised(const std::string &text) {
    std::string made;
    icu::StringByteSink<std::string> sink(&made);
    UErrorCode error = U_ZERO_ERROR;
    icu::CaseMap::utf8ToUpper("", 0, text, sink, nullptr, error);
    if (U_FAILURE(error)) std::abort();
    return made;
}

/* The caseless form of a text (The Unicode Standard, D145 for NFD and NFC, D146 for the other two): its caseless key where
 * each code point is assigned. Two texts match caselessly where their forms under NFD, or NFKD, are one. */
inline std::string caseless_form(uint8_t form, const std::string &text) {
    std::string made = folded(normal_form(NPSS_NFD, text));
    if (is_compatible(form)) made = folded(normal_form(NPSS_NFKD, made));
    return normal_form(form, made);
}

/* The answer of a status that tells a place and a code point. */
inline npss_answer answer(uint32_t status, uint64_t place = 0, uint32_t code = 0) {
    npss_answer a = {status, 0, code, place, 0};
    return a;
}

/* The answer of a status alone, or with what it tells by a number. */
inline npss_answer alone(uint32_t status, uint32_t fault = 0) {
    npss_answer a = {status, fault, 0, 0, 0};
    return a;
}

inline bool same(npss_answer a, npss_answer b) {
    return a.status == b.status && a.fault == b.fault && a.code == b.code && a.place == b.place && a.length == b.length;
}

/* Where a text isn't UTF-8, that; else NPSS_DONE. */
inline npss_answer utf8_fault(const std::string &text) {
    int32_t at = 0, length = static_cast<int32_t>(text.size());
    while (at < length) {
        int32_t place = at;
        UChar32 code;
        U8_NEXT(text.data(), at, length, code);
        if (code < 0) return answer(NPSS_NOT_UTF8, static_cast<uint64_t>(place));
    }
    return answer(NPSS_DONE);
}

/* Why a text has no key: it isn't UTF-8, or else its first unassigned code point; NPSS_DONE where it has one. */
inline npss_answer key_fault(const std::string &text) {
    npss_answer fault = utf8_fault(text);
    int32_t at = 0, length = static_cast<int32_t>(text.size());
    while (fault.status == NPSS_DONE && at < length) {
        int32_t place = at;
        UChar32 code;
        U8_NEXT(text.data(), at, length, code);
        if (u_charType(code) == U_UNASSIGNED)
            fault = answer(NPSS_UNASSIGNED, static_cast<uint64_t>(place), static_cast<uint32_t>(code));
    }
    return fault;
}
#endif
