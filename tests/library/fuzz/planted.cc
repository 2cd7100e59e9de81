/* Bugs that the fuzzers have to find. Each stands before a call of the library, which the linker's --wrap turns to it; the environment
 * variable PLANT chooses one by its number. tests/on_demand/fuzz_plants.py has their names. */
#include "oracle.h"

static bool is_planted(int number) {
    static const char *const chosen = std::getenv("PLANT");
    static const int planted = chosen ? std::atoi(chosen) : 0;
    return planted == number;
}

extern "C" {
npss_answer __real_npss_caseless_key(npss_handle *, uint8_t, const uint8_t *, size_t, uint8_t *, size_t);
npss_answer __real_npss_caseless_match(npss_handle *, bool, const uint8_t *, size_t, const uint8_t *, size_t);
npss_answer __real_npss_caseless_answers(npss_handle *, const npss_asked *, const uint8_t *, size_t, uint8_t *, size_t);
npss_answer __real_npss_folding(npss_handle *, uint32_t, uint8_t *, size_t);
npss_answer __real_npss_caseless_extends(npss_handle *, npss_handle *);
npss_answer __real_npss_open_caseless(npss_handle *, const uint8_t *, size_t, const uint8_t *, size_t, const uint8_t *, size_t);
}

/* The foldings of a text's code points, one behind the other. */
static std::string folded_by(npss_handle *handle, const std::string &text) {
    std::string made;
    const int32_t length = static_cast<int32_t>(text.size());
    for (int32_t at = 0; at < length;) {
        UChar32 code;
        uint8_t part[256];
        U8_NEXT(text.data(), at, length, code);
        npss_answer a = __real_npss_folding(handle, static_cast<uint32_t>(code), part, sizeof part);
        made.append(reinterpret_cast<char *>(part), a.length);
    }
    return made;
}

/* The caseless NFD key of a text that has one. */
static std::string folded_once(npss_handle *handle, const std::string &text) {
    std::string once(256 * text.size() + 1, 0);
    once.resize(__real_npss_caseless_key(handle, NPSS_NFD, bytes(text), text.size(), reinterpret_cast<uint8_t *>(&once[0]), once.size()).length);
    return once;
}

/* The folding file as a faulty reader has it. */
static std::string misread(std::string folding) {
    const size_t mark = folding.find("\n0345;"), tab = folding.find('\t'), last = folding.rfind('\n');
    if (is_planted(70) && mark != std::string::npos) folding.erase(mark, folding.find('\n', mark + 1) - mark);
    if (is_planted(71) && !folding.compare(0, 3, "\xef\xbb\xbf")) folding.erase(0, 3);
    if (is_planted(72) && tab != std::string::npos) folding[tab] = '?';
    if (is_planted(73) && last != std::string::npos) folding.resize(last);
    for (size_t at; is_planted(74) && (at = folding.find("; S;")) != std::string::npos;) folding.replace(at, 4, "; F;");
    return folding;
}

extern "C" {
npss_answer __wrap_npss_caseless_key(npss_handle *handle, uint8_t form, const uint8_t *text, size_t text_length, uint8_t *room, size_t room_length) {
    npss_answer a = __real_npss_caseless_key(handle, form, text, text_length, room, room_length);
    const std::string whole(reinterpret_cast<const char *>(text), text_length);
    if (is_planted(1) && a.status == NPSS_DONE && a.length > 1) a.length--;
    if (is_planted(2) && a.status == NPSS_NO_ROOM) a.length = 0;
    if (is_planted(3) && a.status == NPSS_DONE && a.length < room_length) room[a.length] = 0;
    if (is_planted(4) && a.status == NPSS_NO_ROOM && room_length) room[0] = 0;
    if (is_planted(5) && a.status == NPSS_UNASSIGNED) a.place++;
    if (a.status != NPSS_DONE && a.status != NPSS_NO_ROOM) return a;
    const std::string once = is_planted(6) ? whole : is_planted(7) ? folded_by(handle, whole) : is_planted(8) ? folded_once(handle, whole) : "";
    return once.empty() ? a : npss_key(handle, form, bytes(once), once.size(), room, room_length);
}

npss_answer __wrap_npss_caseless_match(npss_handle *handle, bool compat, const uint8_t *left, size_t left_length, const uint8_t *right, size_t right_length) {
    npss_answer a = __real_npss_caseless_match(handle, compat, left, left_length, right, right_length);
    if (is_planted(30) && (a.status == NPSS_DONE || a.status == NPSS_DIFFERENT))
        return npss_equivalent(handle, compat, left, left_length, right, right_length);
    if (is_planted(31)) return __real_npss_caseless_match(handle, true, left, left_length, right, right_length);
    if (is_planted(32) && a.status == NPSS_NOT_UTF8) a.fault = 1;
    if (is_planted(33) && a.status == NPSS_DIFFERENT) a.code = 1;
    return a;
}

npss_answer __wrap_npss_caseless_answers(npss_handle *handle, const npss_asked *asked, const uint8_t *text, size_t text_length, uint8_t *room,
                                         size_t room_length) {
    npss_answer a = __real_npss_caseless_answers(handle, asked, text, text_length, room, room_length);
    if (is_planted(40) && (a.status == NPSS_DONE || a.status == NPSS_NO_ROOM)) return npss_answers(handle, asked, text, text_length, room, room_length);
    if (is_planted(41) && a.status == NPSS_DONE) a.fault = 0;
    if (is_planted(42) && a.status == NPSS_NO_FOLDING && asked->end != '\n' && asked->end != 0) a.status = NPSS_NO_END;
    return a;
}

npss_answer __wrap_npss_folding(npss_handle *handle, uint32_t code, uint8_t *room, size_t room_length) {
    npss_answer a = __real_npss_folding(handle, code, room, room_length);
    if (is_planted(50) && a.status == NPSS_UNASSIGNED) a.code = 0;
    if (is_planted(51) && a.status == NPSS_NO_CODE && code == 0x110000) a.status = NPSS_UNASSIGNED;
    if (is_planted(52) && a.status == NPSS_DONE && a.length > 2) a.length = 2;
    return a;
}

npss_answer __wrap_npss_caseless_extends(npss_handle *older, npss_handle *newer) {
    npss_answer a = __real_npss_caseless_extends(older, newer);
    if (is_planted(60) && a.status == NPSS_DIFFERENT && a.fault == NPSS_FOLDING_CHANGED) return alone(NPSS_DONE);
    if (is_planted(61) && a.status == NPSS_DIFFERENT) return __real_npss_caseless_extends(newer, older);
    if (is_planted(62) && a.status == NPSS_NO_FOLDING) a.fault = 1;
    return a;
}

npss_answer __wrap_npss_open_caseless(npss_handle *handle, const uint8_t *data, size_t data_length, const uint8_t *exclusions, size_t exclusions_length,
                                      const uint8_t *folding, size_t folding_length) {
    const std::string third = misread(std::string(reinterpret_cast<const char *>(folding), folding_length));
    npss_answer a = __real_npss_open_caseless(handle, data, data_length, exclusions, exclusions_length, bytes(third), third.size());
    if (is_planted(75) && a.status == NPSS_FOLDING) a.status = NPSS_DATA;
    if (is_planted(76) && a.status == NPSS_FOLDING && a.place > 1) a.place--;
    if (is_planted(77) && a.status == NPSS_FOLDINGS && a.fault == NPSS_FOLDS_TO_UNASSIGNED) a.fault = NPSS_FOLDS_UNASSIGNED;
    if (is_planted(78) && a.status != NPSS_DONE) npss_close(handle);
    if (is_planted(79) && a.status == NPSS_TABLES) a.fault = a.fault % 5 + 1;
    if (is_planted(80) && a.status == NPSS_FOLDINGS && a.fault == NPSS_NOT_FOLDED) return npss_open(handle, data, data_length, exclusions, exclusions_length);
    if (is_planted(81) && a.status == NPSS_FOLDINGS) a.place = 1;
    return a;
}
}
