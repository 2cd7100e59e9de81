// replay FORM SCHEDULE: the report on a schedule over one version, by std::unordered_map and by ICU's
// normalizeUTF8 and its own tables. It trusts the schedule. Messages and images are made and read as
// npss has them, and keys that come in are compared with keys made anew.
#include <cstddef>
#include <cstdio>
#include <cstdlib>
#include <cstring>
#include <fstream>
#include <iterator>
#include <stdexcept>
#include <string>
#include <string_view>
#include <unicode/bytestream.h>
#include <unicode/normalizer2.h>
#include <unicode/uchar.h>
#include <unicode/utf8.h>
#include <unordered_map>
#include <vector>

using std::string;
using std::string_view;

static const size_t MOST_BYTES = 65536;

static const icu::Normalizer2 *normalizer;
static char form_byte;

static string key_of(string_view text) {
    string key;
    key.reserve(text.size() + 16);
    icu::StringByteSink<string> sink(&key);
    UErrorCode error = U_ZERO_ERROR;
    normalizer->normalizeUTF8(0, icu::StringPiece(text.data(), (int32_t)text.size()), sink, nullptr, error);
    if (U_FAILURE(error))
        throw std::runtime_error("normalizeUTF8");
    return key;
}

static void add_number(string &out, size_t number) {
    for (int shift = 24; shift >= 0; shift -= 8)
        out += (char)(number >> shift);
}

static void add_field(string &out, string_view field) {
    add_number(out, field.size());
    out += field;
}

static string_view take_field(string_view &rest) {
    size_t size = 0;
    for (int at = 0; at < 4; at++)
        size = size << 8 | (unsigned char)rest.at(at);
    string_view field = rest.substr(4, size);
    rest.remove_prefix(4 + size);
    return field;
}

static void add_code(string &out, UChar32 code) {
    char digits[9];
    out.append(digits, snprintf(digits, sizeof digits, "%04X", (unsigned)code));
}

static void add_codes(string &out, string_view text) {
    if (text.empty())
        out += '-';
    for (int32_t at = 0, size = (int32_t)text.size(); at < size;) {
        UChar32 code;
        if (at > 0)
            out += ' ';
        U8_NEXT(text.data(), at, size, code);
        add_code(out, code);
    }
}

struct Entry {
    string text, key;
};

struct Node {
    size_t room;
    std::vector<Entry> entries;
    std::unordered_map<string, size_t> places;
    string image;

    // Why the text isn't kept, or nothing.
    string refusal(const string &text) const {
        for (int32_t at = 0, size = (int32_t)text.size(); at < size;) {
            int32_t place = at;
            UChar32 code;
            U8_NEXT(text.data(), at, size, code);
            if (!u_isdefined(code)) {
                string reply = "unassigned ";
                add_code(reply, code);
                return reply + " at byte " + std::to_string(place);
            }
        }
        if (places.count(text))
            return "known";
        return entries.size() == room ? "full" : "";
    }

    void keep(const string &text, const string &key) {
        places.emplace(text, entries.size());
        entries.push_back({text, key});
    }

    // As npss has it, but for the count of code points, which is 0.
    void save() {
        image = "NPS2";
        image += form_byte;
        add_number(image, 0);
        add_number(image, entries.size());
        for (const Entry &entry : entries) {
            add_field(image, entry.text);
            image += (char)(entry.key != entry.text);
            if (entry.key != entry.text)
                add_field(image, entry.key);
        }
    }

    void restart() {
        entries.clear();
        places.clear();
        string_view rest = image;
        if (!rest.empty())
            rest.remove_prefix(13);
        while (!rest.empty()) {
            string text(take_field(rest)), key = text;
            bool has_key = rest.at(0) != 0;
            rest.remove_prefix(1);
            if (has_key)
                key = take_field(rest);
            if (!refusal(text).empty() || key_of(text) != key)
                throw std::runtime_error("image");
            keep(text, key);
        }
    }

    string forget(const string &text) {
        auto found = places.find(text);
        if (found == places.end())
            return "not kept";
        size_t at = found->second;
        places.erase(found);
        entries.erase(entries.begin() + (std::ptrdiff_t)at);
        for (; at < entries.size(); at++)
            places[entries[at].text] = at;
        return "forgotten";
    }
};

struct World {
    std::vector<Node> nodes;
    std::vector<string> sent;

    string accept(Node &node, const string &text) {
        if (text.size() > MOST_BYTES)
            return "too long";
        string refusal = node.refusal(text);
        if (!refusal.empty())
            return refusal;
        string key = key_of(text), message(1, form_byte);
        add_field(message, text);
        add_field(message, key);
        node.keep(text, key);
        sent.push_back(message);
        return "kept " + std::to_string(sent.size() - 1);
    }

    string deliver(Node &node, size_t number) {
        if (number >= sent.size())
            return "no message";
        string_view rest = sent[number];
        rest.remove_prefix(1);
        string text(take_field(rest)), key(take_field(rest));
        string refusal = node.refusal(text);
        if (!refusal.empty())
            return refusal;
        if (key_of(text) != key)
            return "key differs";
        node.keep(text, key);
        return "kept";
    }

    static string ask(const Node &node, const string &left, const string &right) {
        auto first = node.places.find(left), second = node.places.find(right);
        if (first == node.places.end() || second == node.places.end())
            return "not kept";
        return node.entries[first->second].key == node.entries[second->second].key ? "equal" : "different";
    }
};

// The string of the codes up to the end of the line or a word '/'.
static string read_string(const char *&at) {
    string text;
    while (*at == ' ' && at[1] != '/') {
        char *end;
        UChar32 code = (UChar32)strtoul(at, &end, 16);
        char bytes[U8_MAX_LENGTH];
        int32_t size = 0;
        U8_APPEND_UNSAFE(bytes, size, code);
        text.append(bytes, size);
        at = end;
    }
    return text;
}

static unsigned long read_number(const char *&at) {
    char *end;
    unsigned long number = strtoul(at, &end, 10);
    at = end;
    return number;
}

static string happen(World &world, const char *line) {
    const char *at = strchr(line, ' ');
    Node &node = world.nodes.at(read_number(at));
    switch (line[0]) {
    case 'a':
        if (line[1] == 's') {
            string left = read_string(at);
            at += 2;
            return World::ask(node, left, read_string(at));
        }
        return world.accept(node, read_string(at));
    case 'd':
        return world.deliver(node, read_number(at));
    case 'f':
        return node.forget(read_string(at));
    case 'u':
        return "last version";
    case 's':
        node.save();
        return "saved";
    default:
        node.restart();
        return "restarted";
    }
}

int main(int argc, char **argv) {
    if (argc != 3 || strlen(argv[1]) < 3)
        return 2;
    UErrorCode error = U_ZERO_ERROR;
    bool compatible = argv[1][2] == 'k', decomposes = strchr(argv[1], 'd') != nullptr;
    form_byte = compatible ? (decomposes ? 'd' : 'c') : (decomposes ? 'D' : 'C');
    normalizer = icu::Normalizer2::getInstance(nullptr, compatible ? "nfkc" : "nfc",
                                               decomposes ? UNORM2_DECOMPOSE : UNORM2_COMPOSE, error);
    std::ifstream file(argv[2], std::ios::binary);
    string schedule{std::istreambuf_iterator<char>(file), {}}, report;
    World world;
    size_t room = 0, number = 0, lines = 0;
    for (char *line = schedule.data(), *end; (end = strchr(line, '\n')) != nullptr; line = end + 1) {
        *end = '\0';
        const char *at = strchr(line, ' ');
        if (lines == 0) {
            room = read_number(at);
        } else if (lines == 1) {
            for (; *at == ' '; read_number(at))
                world.nodes.push_back({room, {}, {}, {}});
        } else {
            report += std::to_string(number++);
            report += ' ';
            report += happen(world, line);
            report += '\n';
        }
        lines++;
    }
    for (size_t at = 0; at < world.nodes.size(); at++) {
        const std::vector<Entry> &entries = world.nodes[at].entries;
        report += "node " + std::to_string(at) + " version 0 entries " + std::to_string(entries.size()) + '\n';
        for (const Entry &entry : entries) {
            report += "entry ";
            add_codes(report, entry.text);
            report += " / ";
            add_codes(report, entry.key);
            report += '\n';
        }
    }
    return U_FAILURE(error) || fwrite(report.data(), 1, report.size(), stdout) != report.size() || fflush(stdout) != 0;
}
