/* Edits of the three files of a version, by six bytes each: which file, the folding file in half of the cases, three bytes of a place,
 * how, and a byte. */
#ifndef EDITS_H
#define EDITS_H
#include <algorithm>

#include "oracle.h"

/* UnicodeData.txt, CompositionExclusions.txt and CaseFolding.txt. */
struct Files {
    std::string data, exclusions, folding;
};

/* So many edits of an input are made, and of so many bytes is a text at the least of which no more is wanted. */
static const size_t MOST_EDITS = 64, MOST_CODES = 40;

/* A line: where it begins, and where its LF stands. */
struct Line {
    size_t start, end;
};

inline Line line_at(const std::string &data, size_t at) {
    const size_t before = at ? data.rfind('\n', at - 1) : std::string::npos;
    return {before == std::string::npos ? 0 : before + 1, std::min(data.find('\n', at), data.size())};
}

/* Another text in place of a field of the line: number 1 is the status of a folding, number 2 its mapping. */
inline void put_field(std::string &data, Line line, int number, const std::string &text) {
    size_t start = line.start;
    for (; number > 0; number--) {
        start = data.find(';', start);
        if (start >= line.end) return;
        start++;
    }
    data.replace(start, std::min(data.find(';', start), line.end) - start, text);
}

/* So many codes, of 0061 or with one surrogate among them. */
inline std::string list_of(size_t count, bool has_surrogate) {
    std::string list;
    while (count--) list += count == 0 && has_surrogate ? " D800" : " 0061";
    return list;
}

/* The line behind this one comes before it. */
inline void exchange_lines(std::string &data, Line line) {
    if (line.end >= data.size()) return;
    const Line next = line_at(data, std::min(line.end + 1, data.size()));
    const std::string first = data.substr(line.start, line.end - line.start), second = data.substr(next.start, next.end - next.start);
    data.replace(line.start, next.end - line.start, second + "\n" + first);
}

/* CR before each LF. */
inline void put_carriage_returns(std::string &data) {
    std::string made;
    for (char byte : data) made += byte == '\n' ? std::string("\r\n") : std::string(1, byte);
    data.swap(made);
}

/* An edit within a line, or of the whole file. */
inline void edit(std::string &data, size_t at, uint8_t how, uint8_t byte) {
    const Line line = line_at(data, at);
    switch (how % 16) {
    case 0: data[at] = static_cast<char>(byte); break;
    case 1: data.insert(at, 1, static_cast<char>(byte)); break;
    case 2: data.erase(at, 1); break;
    case 3: data.erase(at, line.end - at); break;
    case 4: data.erase(line.start, line.end - line.start + 1); break;
    case 5: data.resize(at + 1); break;
    case 6: data[at] = static_cast<char>(data[at] ^ 1 << byte % 8); break;
    case 7: exchange_lines(data, line); break;
    case 8: data.insert(line.start, data.substr(line.start, line.end - line.start) + "\n"); break;
    case 9: data.insert(0, "\xef\xbb\xbf"); break;
    case 10: put_carriage_returns(data); break;
    case 11: data.insert(at, size_t(byte) << 8, data[at]); break;
    case 12: put_field(data, line, 2, list_of(byte % 40, byte & 128)); break;
    case 13: put_field(data, line, 1, std::string(byte & 128 ? " " : "") + "CFST"[byte % 4]); break;
    case 14: put_field(data, line, 0, byte % 2 ? "D800" : "0345"); break;
    default: put_field(data, line, 2, " " + data.substr(line_at(data, size_t(byte) * data.size() / 256).start, 4)); break;
    }
}

/* The code points that a line names, as a text. */
inline std::string codes_of(const std::string &data, size_t at) {
    if (at >= data.size()) return {};
    const Line line = line_at(data, at);
    const size_t comment = std::min(data.find('#', line.start), line.end);
    icu::UnicodeString codes;
    std::string word, made;
    for (size_t place = line.start; place <= std::min(comment, line.start + 200); place++) {
        if (place < comment && std::isxdigit(static_cast<unsigned char>(data[place]))) {
            word += data[place];
            continue;
        }
        const unsigned long code = word.size() >= 4 && word.size() <= 6 ? std::stoul(word, nullptr, 16) : 0;
        if (code && code <= UCHAR_MAX_VALUE && !U_IS_SURROGATE(code) && codes.length() < 8) codes.append(static_cast<UChar32>(code));
        word.clear();
    }
    return codes.toUTF8String(made);
}

/* The files with the edits that the bytes say, and a text of what the first of them edited. */
inline std::string edited(const uint8_t *bytes, size_t length, Files &files) {
    std::string *const all[] = {&files.data, &files.exclusions, &files.folding};
    std::string codes;
    for (size_t at = 0; at + 6 <= std::min(length, 6 * MOST_EDITS); at += 6) {
        const uint8_t *six = bytes + at;
        std::string &of = *all[std::min(six[0] % 4, 2)];
        if (of.empty()) continue;
        const size_t place = static_cast<size_t>(six[1] << 16 | six[2] << 8 | six[3]) % of.size();
        if (codes.size() < MOST_CODES) codes += codes_of(of, place);
        edit(of, place, six[4], six[5]);
        if (codes.size() < MOST_CODES) codes += codes_of(of, place);
    }
    return codes;
}
#endif
