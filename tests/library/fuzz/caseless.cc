/* The checks of the calls that want a folding: each answer is the one that ICU's foldings and forms say. */
#include "questions.h"

/* The library's caseless key of a text of which ICU knows how long it is. */
static Wanted caseless_key(uint8_t form, const std::string &text, size_t length) {
    uint8_t *room = fresh_room(length);
    npss_answer a = npss_caseless_key(&caseless_tables, form, text_memory.hold(text), text.size(), room, length);
    return {a, a.status == NPSS_DONE ? std::string(reinterpret_cast<char *>(room), a.length) : ""};
}

void check_caseless_key(const Question &asked) {
    const uint8_t *text = text_memory.hold(asked.text);
    check_written("npss_caseless_key", asked, key_by(caseless_form, asked.form, asked.text),
                  [&](uint8_t *room, size_t size) { return npss_caseless_key(&caseless_tables, asked.form, text, asked.text.size(), room, size); });
}

static npss_answer match(bool compat, const std::string &left, const std::string &right) {
    return npss_caseless_match(&caseless_tables, compat, text_memory.hold(left), left.size(), other_memory.hold(right), right.size());
}

/* Whether two texts match is as ICU says; and where both have a key, it is whether the keys are equal. */
static void check_pair(const Question &asked, const std::string &left, const std::string &right) {
    const bool compat = is_compatible(asked.form);
    npss_answer a = match(compat, left, right);
    if (!same(a, pair_by(caseless_form, compat ? NPSS_NFKD : NPSS_NFD, left, right))) disagree("npss_caseless_match", left + right);
    if (key_fault(left).status != NPSS_DONE || key_fault(right).status != NPSS_DONE) return;
    const size_t most = std::max(caseless_form(asked.form, left).size(), caseless_form(asked.form, right).size());
    const Wanted one = caseless_key(asked.form, left, most), other = caseless_key(asked.form, right, most);
    if (one.answer.status != NPSS_DONE || other.answer.status != NPSS_DONE || (one.made == other.made) != (a.status == NPSS_DONE))
        disagree("equal caseless keys and a match", left + right);
}

/* A text beside its two halves, its capitals, its folding, its NFKC, and itself with another last byte. */
void check_caseless_match(const Question &asked) {
    const size_t cut = asked.extra % (asked.text.size() + 1);
    check_pair(asked, asked.text.substr(0, cut), asked.text.substr(cut));
    if (utf8_fault(asked.text).status != NPSS_DONE) return;
    std::string other = asked.text;
    if (!other.empty()) other.back() = static_cast<char>(other.back() ^ (1 << asked.extra % 8));
    for (const std::string &beside : {raised(asked.text), folded(asked.text), normal_form(NPSS_NFKC, asked.text), other})
        check_pair(asked, asked.text, beside);
}

/* A caseless key is its own key and of its form; the text and its NFC and NFD keys have one caseless key, which matches each; and no
 * byte of the text gives more than 256 of it. */
void check_caseless_laws(const Question &asked) {
    if (key_fault(asked.text).status != NPSS_DONE) return;
    const size_t length = caseless_form(asked.form, asked.text).size();
    const Wanted key = caseless_key(asked.form, asked.text, length);
    if (key.answer.status != NPSS_DONE || key.made.size() > 256 * asked.text.size()) disagree("a caseless key's length", asked.text);
    if (caseless_key(asked.form, key.made, length).made != key.made) disagree("a caseless key isn't its own", asked.text);
    if (npss_is_form(&caseless_tables, asked.form, text_memory.hold(key.made), key.made.size()).status != NPSS_DONE)
        disagree("a caseless key isn't of its form", asked.text);
    for (const std::string &text : {normal_form(NPSS_NFC, asked.text), normal_form(NPSS_NFD, asked.text)}) {
        if (caseless_key(asked.form, text, length).made != key.made) disagree("the caseless keys of equivalents", text);
        if (match(is_compatible(asked.form), text, key.made).status != NPSS_DONE) disagree("a text doesn't match its caseless key", text);
    }
}

void check_caseless_answers(const Question &asked) {
    const char end = asked.extra % 2 ? '\n' : 0;
    const npss_asked how = {asked.form, static_cast<uint8_t>(end)};
    const uint8_t *text = text_memory.hold(asked.text);
    check_written("npss_caseless_answers", asked, answers_by(caseless_form, asked, end),
                  [&](uint8_t *room, size_t size) { return npss_caseless_answers(&caseless_tables, &how, text, asked.text.size(), room, size); });
}

/* What a number folds to: none that is no scalar value, or isn't assigned. */
static void check_code(const Question &asked, uint32_t code) {
    Wanted wanted = {alone(NPSS_DONE), {}};
    if (code > UCHAR_MAX_VALUE || U_IS_SURROGATE(code)) {
        wanted.answer = alone(NPSS_NO_CODE);
    } else if (u_charType(static_cast<UChar32>(code)) == U_UNASSIGNED) {
        wanted.answer = answer(NPSS_UNASSIGNED, 0, code);
    } else {
        std::string spelled;
        icu::UnicodeString(static_cast<UChar32>(code)).toUTF8String(spelled);
        wanted.made = folded(spelled);
    }
    check_written("npss_folding", asked, wanted,
                  [&](uint8_t *room, size_t size) { return npss_folding(&caseless_tables, code, room, size); });
}

/* The code points of a text, or the numbers that its bytes make by fours; and now and then those at the edges. */
void check_folding(const Question &asked) {
    if (asked.extra % 16 == 0)
        for (uint32_t code : {0u, 0xD7FFu, 0xD800u, 0xDFFFu, 0xE000u, 0x10FFFFu, 0x110000u, UINT32_MAX}) check_code(asked, code);
    if (utf8_fault(asked.text).status == NPSS_DONE) {
        const icu::UnicodeString text = icu::UnicodeString::fromUTF8(asked.text);
        for (int32_t at = 0; at < std::min(text.length(), 64); at = text.moveIndex32(at, 1)) check_code(asked, static_cast<uint32_t>(text.char32At(at)));
        return;
    }
    for (size_t at = 0; at + 4 <= std::min(asked.text.size(), size_t(64)); at += 4) {
        uint32_t code;
        std::memcpy(&code, asked.text.data() + at, sizeof code);
        check_code(asked, code);
        check_code(asked, code % (UCHAR_MAX_VALUE + 2));
    }
}

/* A handle that can't answer: each call tells that alone, whatever else is wrong, and leaves the room as it is. */
static void check_useless(const Question &asked, npss_handle *handle, uint32_t status) {
    const uint8_t form = asked.extra % 3 ? asked.form : static_cast<uint8_t>(asked.extra), *text = text_memory.hold(asked.text);
    const npss_asked how = {form, static_cast<uint8_t>(asked.extra)};
    const size_t length = asked.text.size(), size = asked.extra;
    const Wanted wanted = {alone(status), {}};
    check_written("npss_caseless_key", asked, wanted,
                  [&](uint8_t *room, size_t room_size) { return npss_caseless_key(handle, form, text, length, room, room_size); });
    check_written("npss_caseless_answers", asked, wanted,
                  [&](uint8_t *room, size_t room_size) { return npss_caseless_answers(handle, &how, text, length, room, room_size); });
    check_written("npss_folding", asked, wanted, [&](uint8_t *room, size_t room_size) {
        return npss_folding(handle, static_cast<uint32_t>(size << 13 | length), room, room_size);
    });
    if (!same(npss_caseless_match(handle, asked.extra % 2, text, length, text, length), alone(status))) disagree("npss_caseless_match", asked.text);
}

/* A letter that is none of a form, and a byte that ends no lines; of both the letter is told. */
static void check_words(const Question &asked) {
    const uint8_t letter = static_cast<uint8_t>(asked.extra), *text = text_memory.hold(asked.text);
    const bool is_form = std::string("DCdc").find(static_cast<char>(letter)) != std::string::npos, is_end = letter == '\n' || letter == 0;
    const size_t length = asked.text.size();
    const npss_asked bad_form = {letter, 1}, bad_end = {asked.form, letter};
    if (!is_form) {
        check_written("npss_caseless_key", asked, {alone(NPSS_NO_FORM), {}},
                      [&](uint8_t *room, size_t size) { return npss_caseless_key(&caseless_tables, letter, text, length, room, size); });
        check_written("npss_caseless_answers", asked, {alone(NPSS_NO_FORM), {}},
                      [&](uint8_t *room, size_t size) { return npss_caseless_answers(&caseless_tables, &bad_form, text, length, room, size); });
    }
    if (!is_end)
        check_written("npss_caseless_answers", asked, {alone(NPSS_NO_END), {}},
                      [&](uint8_t *room, size_t size) { return npss_caseless_answers(&caseless_tables, &bad_end, text, length, room, size); });
}

/* Which of two handles is closed or has no foldings: a closed one is told first, then the first one without. */
static void check_useless_pairs(const Question &asked) {
    npss_handle closed = {}, shared = {}, shared_caseless = {};
    if (npss_share(&tables, &shared).status || npss_share(&caseless_tables, &shared_caseless).status) disagree("npss_share", asked.text);
    const struct {
        npss_handle *older, *newer;
        npss_answer wanted;
    } rows[] = {{&closed, &caseless_tables, alone(NPSS_CLOSED)},
                {&tables, &closed, alone(NPSS_CLOSED)},
                {&caseless_tables, &closed, alone(NPSS_CLOSED)},
                {&tables, &shared, alone(NPSS_NO_FOLDING, 1)},
                {&tables, &caseless_tables, alone(NPSS_NO_FOLDING, 1)},
                {&caseless_tables, &tables, alone(NPSS_NO_FOLDING, 2)},
                {&caseless_tables, &shared_caseless, alone(NPSS_DONE)}};
    for (const auto &row : rows)
        if (!same(npss_caseless_extends(row.older, row.newer), row.wanted)) disagree("npss_caseless_extends", asked.text);
    npss_close(&shared);
    npss_close(&shared_caseless);
}

void check_refused(const Question &asked) {
    npss_handle closed = {};
    check_useless(asked, &closed, NPSS_CLOSED);
    check_useless(asked, &tables, NPSS_NO_FOLDING);
    check_words(asked);
    if (asked.extra % 8 == 0) check_useless_pairs(asked);
}
