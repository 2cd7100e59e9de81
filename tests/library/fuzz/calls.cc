/* A fuzzer of the calls: each answer is the one that ICU's say. Of an input the first byte chooses the form and the handle, the
 * second one the call, the third one a length or a cut, and the rest is the text. */
#include "questions.h"

static void check_key(const Question &asked) {
    const uint8_t *text = text_memory.hold(asked.text);
    check_written("npss_key", asked, key_by(normal_form, asked.form, asked.text),
                  [&](uint8_t *room, size_t size) { return npss_key(asked.handle, asked.form, text, asked.text.size(), room, size); });
}

static void check_form(const Question &asked) {
    Wanted wanted = {utf8_fault(asked.text), {}};
    if (wanted.answer.status == NPSS_DONE) wanted.made = normal_form(asked.form, asked.text);
    const uint8_t *text = text_memory.hold(asked.text);
    check_written("npss_normalize", asked, wanted,
                  [&](uint8_t *room, size_t size) { return npss_normalize(asked.handle, asked.form, text, asked.text.size(), room, size); });
}

static void check_is_form(const Question &asked) {
    npss_answer wanted = utf8_fault(asked.text);
    if (wanted.status == NPSS_DONE && normal_form(asked.form, asked.text) != asked.text) wanted.status = NPSS_DIFFERENT;
    if (!same(npss_is_form(asked.handle, asked.form, text_memory.hold(asked.text), asked.text.size()), wanted))
        disagree("npss_is_form", asked.text);
}

static void check_first_unassigned(const Question &asked) {
    if (!same(npss_first_unassigned(asked.handle, text_memory.hold(asked.text), asked.text.size()), key_fault(asked.text)))
        disagree("npss_first_unassigned", asked.text);
}

static void check_pair(const Question &asked, const std::string &left, const std::string &right) {
    const bool compat = is_compatible(asked.form);
    npss_answer a = npss_equivalent(asked.handle, compat, text_memory.hold(left), left.size(), other_memory.hold(right), right.size());
    if (!same(a, pair_by(normal_form, compat ? NPSS_NFKD : NPSS_NFD, left, right))) disagree("npss_equivalent", left + right);
}

/* A text beside its own form, and its two halves. */
static void check_equivalent(const Question &asked) {
    const size_t cut = asked.extra % (asked.text.size() + 1);
    check_pair(asked, asked.text.substr(0, cut), asked.text.substr(cut));
    if (utf8_fault(asked.text).status == NPSS_DONE) check_pair(asked, asked.text, normal_form(asked.form, asked.text));
}

static void check_answers(const Question &asked) {
    const char end = asked.extra % 2 ? '\n' : 0;
    const npss_asked how = {asked.form, static_cast<uint8_t>(end)};
    const uint8_t *text = text_memory.hold(asked.text);
    check_written("npss_answers", asked, answers_by(normal_form, asked, end),
                  [&](uint8_t *room, size_t size) { return npss_answers(asked.handle, &how, text, asked.text.size(), room, size); });
}

/* Takes what is ready, in rooms of so many bytes. */
static std::string taken(npss_stream *stream, size_t size, const Question &asked) {
    std::string all;
    for (;;) {
        uint8_t *room = fresh_room(size);
        npss_answer a = npss_stream_take(stream, room, size);
        std::string part(reinterpret_cast<char *>(room), a.length);
        if (a.status != NPSS_DONE || !holds(room, size, part) || (a.place && a.length < size)) disagree("npss_stream_take", asked.text);
        all += part;
        if (a.place == 0) return all;
    }
}

/* A text that comes in pieces. */
static void check_stream(const Question &asked) {
    const size_t piece = asked.extra % 7 + 1;
    npss_stream stream = {};
    npss_answer a = npss_stream_new(&stream, asked.handle, asked.form);
    std::string made;
    for (size_t at = 0; at < asked.text.size() && a.status == NPSS_DONE; at += piece) {
        std::string next = asked.text.substr(at, piece);
        a = npss_stream_feed(&stream, text_memory.hold(next), next.size());
        made += taken(&stream, asked.extra / 7 + 1, asked);
    }
    if (a.status == NPSS_DONE) a = npss_stream_finish(&stream);
    made += taken(&stream, asked.extra / 7 + 1, asked);
    npss_stream_close(&stream);
    npss_answer wanted = key_fault(asked.text);
    if (a.status != NPSS_NOT_UTF8 && made != normal_form(asked.form, asked.text)) disagree("a stream's form", asked.text);
    a.length = 0; /* how much was ready */
    if (!same(a, wanted)) disagree("a stream's end", asked.text);
}

static void (*const checks[])(const Question &) = {check_key, check_form, check_is_form, check_equivalent, check_answers, check_stream,
                                                   check_first_unassigned, check_caseless_key, check_caseless_laws, check_caseless_match,
                                                   check_caseless_answers, check_folding, check_refused, check_sequence};

extern "C" int LLVMFuzzerInitialize(int *, char ***) {
    const std::string data = file(ucd(), "UnicodeData.txt"), exclusions = file(ucd(), "CompositionExclusions.txt");
    const std::string folding = file(ucd(), "CaseFolding.txt");
    npss_answer a = npss_open(&tables, bytes(data), data.size(), bytes(exclusions), exclusions.size());
    npss_answer b = npss_open_caseless(&caseless_tables, bytes(data), data.size(), bytes(exclusions), exclusions.size(), bytes(folding), folding.size());
    uint64_t assigned = 0;
    for (UChar32 code = 0; code <= UCHAR_MAX_VALUE; code++) assigned += u_charType(code) != U_UNASSIGNED;
    read_fixtures();
    if (a.status == NPSS_DONE && b.status == NPSS_DONE && npss_count(&tables).length == assigned && npss_count(&caseless_tables).length == assigned) return 0;
    std::fprintf(stderr, "ICU has another version of Unicode than %s\n", ucd());
    std::exit(9);
}

extern "C" int LLVMFuzzerTestOneInput(const uint8_t *input, size_t length) {
    if (length < 3) return 0;
    const Question asked = {input[0] & 4 ? &tables : &caseless_tables, forms[input[0] % 4], input[2],
                            std::string(reinterpret_cast<const char *>(input + 3), length - 3)};
    checks[input[1] % (sizeof checks / sizeof *checks)](asked);
    return 0;
}
