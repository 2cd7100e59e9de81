/* What is asked of a call, and whether it answers and writes that. Texts and rooms end at a page that nobody may touch. */
#ifndef QUESTIONS_H
#define QUESTIONS_H
#include "fenced.h"
#include "oracle.h"

inline Fenced text_memory, other_memory, room_memory;
/* The published version, opened without its folding file and with it. */
inline npss_handle tables, caseless_tables;
/* What a room holds before a call, and how much of it stands before the room. */
static const uint8_t FILL = 0xA5;
static const size_t BEFORE = 16;
/* A line that is longer has no key. */
static const size_t LONGEST_LINE = 65536;

struct Question {
    /* One of the two handles, for a call that takes either alike. */
    npss_handle *handle;
    uint8_t form;
    size_t extra;
    std::string text;
};

/* What a call is to answer, and to write where it is done. */
struct Wanted {
    npss_answer answer;
    std::string made;
};

/* What makes a key or a form of a text. */
using Maker = std::string (*)(uint8_t form, const std::string &text);

/* A room of so many bytes, filled, and what stands before it. */
inline uint8_t *fresh_room(size_t size) {
    std::memset(room_memory.last(size + BEFORE), FILL, size + BEFORE);
    return room_memory.last(size);
}

/* Whether what was written is in the room's front, and nothing else was touched. */
inline bool holds(const uint8_t *room, size_t size, const std::string &written) {
    if (std::memcmp(room, written.data(), written.size())) return false;
    for (const uint8_t *at = room - BEFORE; at < room + size; at++) {
        if (at == room) at += written.size();
        if (at < room + size && *at != FILL) return false;
    }
    return true;
}

/* A call that writes, with no room, too little by a byte, as much as is needed, and more. */
template <class Call> static void check_written(const char *what, const Question &asked, const Wanted &wanted, Call call) {
    const size_t length = wanted.made.size();
    for (size_t size : {size_t(0), length ? length - 1 : 0, length, length + asked.extra}) {
        npss_answer should = wanted.answer;
        if (should.status == NPSS_DONE && size < length) should.status = NPSS_NO_ROOM;
        if (should.status == NPSS_DONE || should.status == NPSS_NO_ROOM) should.length = length;
        uint8_t *room = fresh_room(size);
        npss_answer a = call(room, size);
        if (!same(a, should) || !holds(room, size, should.status == NPSS_DONE ? wanted.made : "")) disagree(what, asked.text);
    }
}

/* The key of a text by this maker, or why it has none. */
inline Wanted key_by(Maker maker, uint8_t form, const std::string &text) {
    Wanted wanted = {key_fault(text), {}};
    if (wanted.answer.status == NPSS_DONE) wanted.made = maker(form, text);
    return wanted;
}

/* What is answered of two texts: which isn't UTF-8, or whether this form of them is one. */
inline npss_answer pair_by(Maker maker, uint8_t form, const std::string &left, const std::string &right) {
    npss_answer wanted = answer(NPSS_DONE);
    for (const std::string *text : {&right, &left}) {
        npss_answer fault = utf8_fault(*text);
        if (fault.status == NPSS_DONE) continue;
        wanted = fault;
        wanted.fault = text == &left ? 1 : 2;
    }
    if (wanted.status == NPSS_DONE && maker(form, left) != maker(form, right)) wanted.status = NPSS_DIFFERENT;
    return wanted;
}

/* The answer to a line, without the byte that ends it. */
inline std::string answer_to(Maker maker, const std::string &line, uint8_t form, char end) {
    npss_answer fault = key_fault(line);
    char refusal[64];
    if (line.size() > LONGEST_LINE) return "!too long";
    if (fault.status == NPSS_NOT_UTF8) {
        std::snprintf(refusal, sizeof refusal, "!not UTF-8 at byte %zu", static_cast<size_t>(fault.place));
        return refusal;
    }
    if (fault.status == NPSS_UNASSIGNED) {
        std::snprintf(refusal, sizeof refusal, "!unassigned %04X at byte %zu", fault.code, static_cast<size_t>(fault.place));
        return refusal;
    }
    std::string key = maker(form, line);
    return key.find(end) == std::string::npos ? "=" + key : "!line end in key";
}

/* The answers to the lines of a text, which this byte ends. */
inline Wanted answers_by(Maker maker, const Question &asked, char end) {
    Wanted wanted = {answer(NPSS_DONE), {}};
    for (size_t at = 0; at < asked.text.size();) {
        size_t stop = std::min(asked.text.find(end, at), asked.text.size());
        std::string answered = answer_to(maker, asked.text.substr(at, stop - at), asked.form, end);
        if (answered[0] == '!') wanted.answer.fault = 1;
        wanted.made += answered + end;
        at = stop + 1;
    }
    return wanted;
}

/* The checks of the calls that want a folding, which stand apart. */
void check_caseless_key(const Question &asked);
void check_caseless_laws(const Question &asked);
void check_caseless_match(const Question &asked);
void check_caseless_answers(const Question &asked);
void check_folding(const Question &asked);
void check_refused(const Question &asked);
/* A sequence of calls over handles of the fixtures. */
void check_sequence(const Question &asked);
/* Reads the fixtures. */
void read_fixtures();
#endif
