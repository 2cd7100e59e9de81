/* folding_answers DATA EXCLUSIONS [DATA EXCLUSIONS..]: what npss_open_caseless answers of folding files beside these versions. On
 * standard input stand three numbers of four bytes, the first one the least: which version, from 0, and how long the folding file and
 * a text are; then these two; and so on. The answer is a line: the five fields, and the text's caseless NFD key in hex digits. */
#include <unistd.h>

#include <vector>

#include "fenced.h"
#include "oracle.h"

static Fenced folding_memory, text_memory;

struct Version {
    std::string data, exclusions;
};

/* So many bytes of standard input, if it has them. */
static bool read_bytes(void *to, size_t length) {
    return std::fread(to, 1, length, stdin) == length;
}

static std::string file_named(const std::string &path) {
    const size_t slash = path.rfind('/');
    return file(path.substr(0, slash).c_str(), path.substr(slash + 1).c_str());
}

/* The caseless key, `-` where none is made. */
static void tell_key(npss_handle *handle, const std::string &text) {
    std::vector<uint8_t> room(256 * text.size() + 1);
    npss_answer a = npss_caseless_key(handle, NPSS_NFD, text_memory.hold(text), text.size(), room.data(), room.size());
    std::printf(a.status == NPSS_DONE ? " =" : " -");
    for (size_t at = 0; a.status == NPSS_DONE && at < a.length; at++) std::printf("%02x", room[at]);
}

static void tell(const Version &version, const std::string &folding, const std::string &text) {
    npss_handle handle = {};
    npss_answer a = npss_open_caseless(&handle, bytes(version.data), version.data.size(), bytes(version.exclusions), version.exclusions.size(),
                                       folding_memory.hold(folding), folding.size());
    std::printf("%u %u %u %llu %llu", a.status, a.fault, a.code, static_cast<unsigned long long>(a.place), static_cast<unsigned long long>(a.length));
    tell_key(&handle, text);
    std::printf("\n");
    std::fflush(stdout);
    npss_close(&handle);
}

int main(int count, char **words) {
    std::vector<Version> versions;
    for (int at = 1; at + 1 < count; at += 2) versions.push_back({file_named(words[at]), file_named(words[at + 1])});
    for (uint32_t head[3]; read_bytes(head, sizeof head) && head[0] < versions.size();) {
        std::string folding(head[1], 0), text(head[2], 0);
        if (!read_bytes(&folding[0], folding.size()) || !read_bytes(&text[0], text.size())) return 2;
        tell(versions[head[0]], folding, text);
    }
    return 0;
}
