/* A fuzzer of npss_open and npss_open_caseless. An input is two or three small files, with the byte FF between them; or, behind a
 * first byte 01, edits of the published files, or behind 02 edits of a fixture. What opens has to meet what is true of each version
 * and of its caseless keys; what doesn't leaves a handle as it was. */
#include "edits.h"

static Files published, toy;
static npss_handle newest, newest_folded;
static const uint8_t PUBLISHED = 1, TOY = 2;
static const size_t LIMIT = 16777216;

[[noreturn]] static void die(const char *what) {
    std::fprintf(stderr, "%s\n", what);
    std::abort();
}

static npss_answer open_two(npss_handle *handle, const Files &files) {
    return npss_open(handle, bytes(files.data), files.data.size(), bytes(files.exclusions), files.exclusions.size());
}

static npss_answer open_three(npss_handle *handle, const Files &files) {
    return npss_open_caseless(handle, bytes(files.data), files.data.size(), bytes(files.exclusions), files.exclusions.size(),
                              bytes(files.folding), files.folding.size());
}

/* What a call that makes a key writes of a text, and its status. */
struct Made {
    uint32_t status;
    std::string text;
};

template <class Call> static Made made_by(Call call, npss_handle *handle, uint8_t form, const std::string &text) {
    static uint8_t room[65536];
    npss_answer a = call(handle, form, bytes(text), text.size(), room, sizeof room);
    return {a.status, std::string(reinterpret_cast<char *>(room), a.status == NPSS_DONE ? a.length : 0)};
}

/* Under any version a key is its own key, is of its form, and is equivalent to its text. */
static void check_key(npss_handle *handle, uint8_t form, const std::string &text) {
    const Made key = made_by(npss_key, handle, form, text);
    if (key.status != NPSS_DONE) return;
    const std::string &made = key.text;
    const Made again = made_by(npss_key, handle, form, made);
    if (again.status != NPSS_DONE || again.text != made) die("a key isn't its own key");
    if (npss_is_form(handle, form, bytes(made), made.size()).status != NPSS_DONE) die("a key isn't of its form");
    if (npss_equivalent(handle, is_compatible(form), bytes(made), made.size(), bytes(text), text.size()).status != NPSS_DONE)
        die("a key isn't equivalent to its text");
}

/* Under any version with its foldings a caseless key is its own, is of its form, matches its text, is that of the text's NFC and
 * NFD, and has at most 256 bytes for each of the text. */
static Made check_caseless_key(npss_handle *handle, uint8_t form, const std::string &text) {
    const Made key = made_by(npss_caseless_key, handle, form, text);
    if (key.status != NPSS_DONE) return key;
    const std::string &made = key.text;
    const Made again = made_by(npss_caseless_key, handle, form, made);
    if (again.status != NPSS_DONE || again.text != made) die("a caseless key isn't its own");
    if (npss_is_form(handle, form, bytes(made), made.size()).status != NPSS_DONE) die("a caseless key isn't of its form");
    if (npss_caseless_match(handle, is_compatible(form), bytes(made), made.size(), bytes(text), text.size()).status != NPSS_DONE)
        die("a caseless key doesn't match its text");
    for (uint8_t other : {NPSS_NFC, NPSS_NFD})
        if (made_by(npss_caseless_key, handle, form, made_by(npss_normalize, handle, other, text).text).text != made)
            die("the caseless keys of equivalents");
    if (made.size() > 256 * text.size()) die("a caseless key is too long");
    return key;
}

/* What the code points of a text fold to, one behind the other; of one that isn't assigned nothing. */
static std::string foldings_of(npss_handle *handle, const std::string &text) {
    std::string made;
    for (int32_t at = 0, length = static_cast<int32_t>(text.size()); at < length;) {
        UChar32 code;
        uint8_t part[256];
        U8_NEXT(text.data(), at, length, code);
        npss_answer a = npss_folding(handle, static_cast<uint32_t>(code), part, sizeof part);
        if (a.status == NPSS_DONE) made.append(reinterpret_cast<char *>(part), a.length);
    }
    return made;
}

/* A text and another one match exactly where they have one caseless key, if they have any. */
static void check_pair(npss_handle *handle, uint8_t form, const std::string &left, const std::string &right) {
    const Made one = made_by(npss_caseless_key, handle, form, left), other = made_by(npss_caseless_key, handle, form, right);
    if (one.status != NPSS_DONE || other.status != NPSS_DONE) return;
    npss_answer a = npss_caseless_match(handle, is_compatible(form), bytes(left), left.size(), bytes(right), right.size());
    if (!same(a, alone(one.text == other.text ? NPSS_DONE : NPSS_DIFFERENT))) die("a match isn't one caseless key");
}

/* A version extends itself, and says something of each other one. */
static void check_version(npss_handle *handle, const std::string &codes) {
    const std::string texts[] = {"a\xcc\x82\xcc\xa3", "\xea\xb0\x80\xe1\x84\x80\xe1\x85\xa1\xe1\x86\xa8", "A\xcc\x8a\xef\xac\x81\xc7\x86",
                                 "\xf0\x9d\x85\x9e\xf0\xaf\xa0\x80", "", codes};
    for (const std::string &text : texts)
        for (uint8_t form : forms) check_key(handle, form, text);
    npss_handle shared = {};
    if (npss_share(handle, &shared).status != NPSS_DONE) die("an open handle isn't shared");
    if (npss_extends(handle, &shared).status != NPSS_DONE) die("a version doesn't extend itself");
    for (npss_answer a : {npss_extends(handle, &newest), npss_extends(&newest, handle)})
        if (a.status != NPSS_DONE && a.status != NPSS_DIFFERENT) die("an audit has no end");
    npss_close(&shared);
}

/* Whether this version with its foldings extends the newest one, or that this: then the keys that both make are the same. */
static bool is_akin(npss_handle *handle) {
    bool is_one = false;
    for (npss_answer a : {npss_caseless_extends(handle, &newest_folded), npss_caseless_extends(&newest_folded, handle)}) {
        const bool breaks = a.status == NPSS_DIFFERENT && a.fault >= NPSS_LOST && a.fault <= NPSS_FOLDING_CHANGED && a.code <= UCHAR_MAX_VALUE;
        if (!breaks && !same(a, alone(NPSS_DONE))) die("a caseless audit has no end");
        if (breaks && (a.place || a.length)) die("a break tells what it has no use for");
        is_one |= !breaks;
    }
    return is_one;
}

/* A version with its foldings: the laws of caseless keys, also beside the newest version. */
static void check_folded(npss_handle *handle, const std::string &codes) {
    const std::string texts[] = {"A\xcc\xa7\xcc\x8a", "Zo\xc3\x8b", "\xce\xb1\xcd\x85\xcc\x81", "\xe1\xbe\xb3\xcc\x81", "\xc3\x9f\xe2\x84\xa1", "", codes};
    npss_handle shared = {};
    if (npss_share(handle, &shared).status != NPSS_DONE) die("an open handle isn't shared");
    if (npss_caseless_extends(handle, &shared).status != NPSS_DONE) die("a version with its foldings doesn't extend itself");
    const bool is_one = is_akin(handle);
    for (const std::string &text : texts) {
        for (uint8_t form : forms) {
            const Made key = check_caseless_key(handle, form, text), newer = made_by(npss_caseless_key, &newest_folded, form, text);
            check_pair(handle, form, text, foldings_of(handle, text));
            if (is_one && key.status == NPSS_DONE && newer.status == NPSS_DONE && key.text != newer.text) die("a caseless key isn't stable");
        }
    }
    npss_close(&shared);
}

static bool is_within(uint64_t number, uint64_t least, uint64_t most) {
    return least <= number && number <= most;
}

/* A line of a file from 1, or the one behind its last LF. */
static bool is_line(uint64_t place, const std::string &data) {
    return is_within(place, 1, static_cast<uint64_t>(std::count(data.begin(), data.end(), '\n')) + 1);
}

/* Whether an answer is one that npss.h has for an opening, with 0 in what it has no use for. */
static bool is_documented(const npss_answer &a, const Files &files) {
    const std::string *const all[] = {&files.data, &files.exclusions, &files.folding};
    const bool by_line = a.code == 0 && a.length == 0, by_code = a.place == 0 && a.length == 0 && a.code <= UCHAR_MAX_VALUE;
    switch (a.status) {
    case NPSS_DONE: return same(a, alone(NPSS_DONE));
    case NPSS_DATA: return by_line && is_within(a.fault, NPSS_FIELD_COUNT, NPSS_RANGE_MAPS) && is_line(a.place, files.data);
    case NPSS_EXCLUSIONS: return by_line && a.fault == NPSS_BAD_CODE && is_line(a.place, files.exclusions);
    case NPSS_TABLES: return by_code && is_within(a.fault, NPSS_MAPS_TO_UNASSIGNED, NPSS_HANGUL_WRONG);
    case NPSS_FOLDING: return by_line && is_within(a.fault, NPSS_FOLDING_FIELD_COUNT, NPSS_FOLDING_BAD_MAPPING) && is_line(a.place, files.folding);
    case NPSS_FOLDINGS: return by_code && is_within(a.fault, NPSS_FOLDS_UNASSIGNED, NPSS_NOT_FOLDED);
    case NPSS_TOO_LARGE: return by_line && a.place == 0 && is_within(a.fault, 1, 3) && all[a.fault - 1]->size() > LIMIT;
    default: return false;
    }
}

/* Whether the version can have the fault that is told of its foldings at that code point. */
static bool is_possible(npss_handle *two, const npss_answer &a) {
    const npss_answer p = npss_property(two, a.code);
    if (a.status != NPSS_FOLDINGS) return true;
    if (a.fault == NPSS_FOLDS_UNASSIGNED || p.status != NPSS_DONE) return (a.fault == NPSS_FOLDS_UNASSIGNED) == (p.status == NPSS_UNASSIGNED);
    return a.fault != NPSS_FOLDS_AGAIN || p.fault != NPSS_CANONICAL;
}

/* What an opening of three files answers beside one of the first two, and once more into a handle that is open. */
static void check_caseless(npss_handle *two, const npss_answer &first, const Files &files, const std::string &codes) {
    npss_handle handle = {}, other = {};
    const npss_answer a = open_three(&handle, files);
    if (!is_documented(a, files)) die("an answer that npss.h doesn't have");
    if (first.status != NPSS_DONE && !same(a, first)) die("the first two files are told otherwise");
    if (first.status == NPSS_DONE && (a.status == NPSS_DATA || a.status == NPSS_EXCLUSIONS || a.status == NPSS_TABLES || !is_possible(two, a)))
        die("another file is told");
    if ((a.status == NPSS_DONE) != (handle.is_open == 1)) die("a refused handle is open");
    if (npss_share(&newest_folded, &other).status != NPSS_DONE) die("an open handle isn't shared");
    if (!same(open_three(&other, files), a)) die("a second opening answers otherwise");
    if (npss_count(&other).length != npss_count(a.status == NPSS_DONE ? two : &newest_folded).length) die("an opening leaves another version");
    if (npss_caseless_extends(&other, a.status == NPSS_DONE ? &handle : &newest_folded).status != NPSS_DONE) die("an opening leaves other foldings");
    if (a.status == NPSS_DONE) {
        if (npss_extends(two, &handle).status != NPSS_DONE || npss_extends(&handle, two).status != NPSS_DONE) die("a folding changes the version");
        check_folded(&handle, codes);
    }
    npss_close(&handle);
    npss_close(&other);
}

/* The greatest folding file, and one that is larger by a byte. */
static void check_limit() {
    Files files = toy;
    npss_handle handle = {};
    files.folding = std::string(LIMIT, '\n');
    if (!same(open_three(&handle, files), alone(NPSS_DONE))) die("the greatest folding file is refused");
    files.folding += '\n';
    if (!same(open_three(&handle, files), alone(NPSS_TOO_LARGE, 3))) die("too large a folding file isn't told");
    npss_close(&handle);
}

extern "C" int LLVMFuzzerInitialize(int *, char ***) {
    published = {file(ucd(), "UnicodeData.txt"), file(ucd(), "CompositionExclusions.txt"), file(ucd(), "CaseFolding.txt")};
    toy = {fixture("v2/UnicodeData.txt"), fixture("v2/CompositionExclusions.txt"), fixture("caseless/v2/CaseFolding.txt")};
    if (open_two(&newest, published).status != NPSS_DONE || open_three(&newest_folded, published).status != NPSS_DONE)
        die("the published files don't open");
    check_limit();
    return 0;
}

/* The files that the byte FF parts, and whether there is a third one. */
static bool split(const std::string &input, Files &files) {
    const size_t first = std::min(input.find('\xff'), input.size()), behind = std::min(first + 1, input.size());
    const size_t second = std::min(input.find('\xff', behind), input.size());
    files = {input.substr(0, first), input.substr(behind, second - behind), input.substr(std::min(second + 1, input.size()))};
    return second < input.size();
}

extern "C" int LLVMFuzzerTestOneInput(const uint8_t *at, size_t length) {
    Files files;
    std::string codes;
    bool has_folding = true;
    if (length && (at[0] == PUBLISHED || at[0] == TOY)) {
        files = at[0] == PUBLISHED ? published : toy;
        codes = edited(at + 1, length - 1, files);
    } else {
        has_folding = split(std::string(reinterpret_cast<const char *>(at), length), files);
        for (size_t part = 0; part < 4; part++) codes += codes_of(files.folding, part * files.folding.size() / 4);
    }
    npss_handle two = {};
    const npss_answer a = open_two(&two, files);
    if (!is_documented(a, files)) die("an answer that npss.h doesn't have");
    if ((a.status == NPSS_DONE) != (two.is_open == 1)) die("a refused handle is open");
    if (a.status == NPSS_DONE) check_version(&two, codes);
    if (has_folding) check_caseless(&two, a, files, codes);
    npss_close(&two);
    return 0;
}
