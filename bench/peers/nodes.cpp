/* nodes DATA EXCLUSIONS RUNS NAMES: what a node does with the names of a file, a line each, 65,536 at most, beside a
 * std::unordered_map with ICU doing the same work. For each step a line: its name, and the nanoseconds for one name by npss and
 * by ICU; the shortest run counts. */
#include <npss.h>
#include <unicode/normalizer2.h>
#include <unicode/uchar.h>
#include <unicode/utf8.h>

#include <chrono>
#include <cstdio>
#include <cstdlib>
#include <fstream>
#include <iterator>
#include <string>
#include <unordered_map>
#include <vector>

static const uint32_t ROOM = 65536;
static const icu::Normalizer2 *nfc;
static size_t count_of_names;

static std::string file(const char *name) {
    std::ifstream in(name, std::ios::binary);
    return std::string(std::istreambuf_iterator<char>(in), {});
}

static const uint8_t *bytes(const std::string &s) {
    return reinterpret_cast<const uint8_t *>(s.data());
}

static void die(const char *what) {
    std::fprintf(stderr, "nodes: %s\n", what);
    std::exit(1);
}

static std::vector<std::string> names(const char *path) {
    std::vector<std::string> found;
    std::ifstream in(path, std::ios::binary);
    for (std::string line; std::getline(in, line);) found.push_back(line);
    count_of_names = found.size();
    return found;
}

/* The key of a name as npss makes it: none where it is no UTF-8 or has an unassigned code point. */
static bool key_of(const std::string &name, std::string &key) {
    int32_t at = 0, length = static_cast<int32_t>(name.size());
    while (at < length) {
        UChar32 code;
        U8_NEXT(name.data(), at, length, code);
        if (code < 0 || u_charType(code) == U_UNASSIGNED) return false;
    }
    UErrorCode error = U_ZERO_ERROR;
    key.clear();
    icu::StringByteSink<std::string> sink(&key);
    nfc->normalizeUTF8(0, name, sink, nullptr, error);
    return U_SUCCESS(error);
}

typedef std::unordered_map<std::string, std::string> Map;

static void put(std::string &to, const std::string &field) {
    uint32_t length = static_cast<uint32_t>(field.size());
    for (int shift = 24; shift >= 0; shift -= 8) to.push_back(static_cast<char>(length >> shift));
    to += field;
}

static std::string field(const std::string &from, size_t &at) {
    size_t length = 0;
    for (int i = 0; i < 4; i++) length = length << 8 | static_cast<uint8_t>(from[at++]);
    std::string found = from.substr(at, length);
    at += length;
    return found;
}

/* Keeps the name of a message where its key is right. */
static void take(Map &map, const std::string &message, size_t &at) {
    std::string name = field(message, at), sent_key = field(message, at), key;
    if (!key_of(name, key) || key != sent_key) die("ICU: another key");
    map.emplace(std::move(name), std::move(key));
}

/* The shortest time of a step, in nanoseconds for one name. */
template <class Before, class Step> static double timed(int runs, Before before, Step step) {
    double best = 1e300;
    for (int run = 0; run < runs; run++) {
        before();
        auto begun = std::chrono::steady_clock::now();
        step();
        std::chrono::duration<double, std::nano> took = std::chrono::steady_clock::now() - begun;
        if (took.count() < best) best = took.count();
    }
    return best / static_cast<double>(count_of_names);
}

static void done(npss_answer a) {
    if (a.status != NPSS_DONE) die("npss refuses");
}

int main(int count, char **words) {
    if (count != 5) return 2;
    UErrorCode error = U_ZERO_ERROR;
    nfc = icu::Normalizer2::getNFCInstance(error);
    const std::string data = file(words[1]), exclusions = file(words[2]);
    const int runs = std::atoi(words[3]);
    const std::vector<std::string> all = names(words[4]);
    if (all.empty() || all.size() > ROOM) return 2;
    npss_handle tables = {};
    npss_node home = {}, away = {};
    done(npss_open(&tables, bytes(data), data.size(), bytes(exclusions), exclusions.size()));
    auto fresh = [&](npss_node *node) { done(npss_node_new(node, &tables, NPSS_NFC, ROOM)); };
    Map map, other;
    std::vector<std::string> messages(all.size()), plain_messages(all.size());
    std::vector<uint8_t> image(1 << 23);
    std::string saved;
    uint8_t room[64];
    npss_answer a = {};
    auto nothing = [] {};

    auto row = [&](const char *name, double ours, double icu) { std::printf("%s %.0f %.0f\n", name, ours, icu); };
    row("accepted", timed(runs, [&] { fresh(&home); }, [&] { for (auto &name : all) done(npss_node_accept(&home, bytes(name), name.size())); }),
        timed(runs, [&] { map = Map(); }, [&] {
            std::string key;
            for (auto &name : all) if (!map.count(name) && key_of(name, key)) map.emplace(name, key);
        }));
    for (size_t i = 0; i < all.size(); i++) {
        done(a = npss_node_message(&home, bytes(all[i]), all[i].size(), room, sizeof room));
        messages[i].assign(reinterpret_cast<char *>(room), a.length);
        std::string key;
        key_of(all[i], key);
        put(plain_messages[i], all[i]);
        put(plain_messages[i], key);
        if (messages[i].substr(1) != plain_messages[i]) die("another message");
    }
    row("taken", timed(runs, [&] { fresh(&away); }, [&] { for (auto &one : messages) done(npss_node_take(&away, bytes(one), one.size())); }),
        timed(runs, [&] { other = Map(); }, [&] { for (auto &one : plain_messages) { size_t at = 0; take(other, one, at); } }));
    row("saved", timed(runs, nothing, [&] { done(a = npss_node_image(&home, image.data(), image.size())); }),
        timed(runs, [&] { saved.clear(); }, [&] { for (auto &one : map) { put(saved, one.first); put(saved, one.second); } }));
    row("restored", timed(runs, [&] { npss_node_close(&away); }, [&] { done(npss_node_restore(&away, &tables, NPSS_NFC, ROOM, image.data(), a.length)); }),
        timed(runs, [&] { other = Map(); }, [&] { for (size_t at = 0; at < saved.size();) take(other, saved, at); }));
    size_t found = 0;
    row("looked-up", timed(runs, nothing, [&] { for (auto &name : all) done(npss_node_key(&home, bytes(name), name.size(), room, sizeof room)); }),
        timed(runs, nothing, [&] { for (auto &name : all) found += map.find(name)->second.size(); }));
    npss_node_close(&home);
    npss_node_close(&away);
    npss_close(&tables);
    return found == 0;
}
