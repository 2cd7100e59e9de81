// caseless FILE WAY PASSES DATA EXCLUSIONS FOLDING: makes the NFKC key (`key`), the caseless NFKC key (`caseless`) or the same by
// ICU (`icu`) of each line of the file, so many times. Prints the nanoseconds of the least pass for one name, and how many
// bytes all of them have.
#include <chrono>
#include <cstdio>
#include <cstdlib>
#include <cstring>
#include <npss.h>
#include <string>
#include <unicode/normalizer2.h>
#include <unicode/unistr.h>
#include <vector>

static npss_handle handle;
static uint8_t room[1 << 16];

static long answered(npss_answer answer) { return answer.status == NPSS_DONE ? (long)answer.length : -1; }

static long key(const std::string &name) {
    return answered(npss_key(&handle, NPSS_NFKC, (const uint8_t *)name.data(), name.size(), room, sizeof room));
}

static long caseless(const std::string &name) {
    return answered(npss_caseless_key(&handle, NPSS_NFKC, (const uint8_t *)name.data(), name.size(), room, sizeof room));
}

// D146, without a look for what isn't assigned.
static long icu_caseless(const std::string &name) {
    static UErrorCode error = U_ZERO_ERROR;
    static const icu::Normalizer2 *nfd = icu::Normalizer2::getNFDInstance(error), *nfkd = icu::Normalizer2::getNFKDInstance(error),
                                  *nfkc = icu::Normalizer2::getNFKCInstance(error);
    icu::UnicodeString text = nfd->normalize(icu::UnicodeString::fromUTF8(name), error);
    text = nfkc->normalize(nfkd->normalize(text.foldCase(), error).foldCase(), error);
    icu::CheckedArrayByteSink sink((char *)room, sizeof room);
    text.toUTF8(sink);
    return U_FAILURE(error) || sink.Overflowed() ? -1 : sink.NumberOfBytesWritten();
}

static std::string read(const char *path) {
    std::string bytes;
    if (FILE *file = fopen(path, "rb")) {
        for (int c; (c = getc(file)) != EOF;) bytes.push_back((char)c);
        fclose(file);
    }
    return bytes;
}

int main(int count, char **words) {
    if (count != 7) return 2;
    const std::string data = read(words[4]), exclusions = read(words[5]), folding = read(words[6]), text = read(words[1]);
    const auto bytes = [](const std::string &all) { return (const uint8_t *)all.data(); };
    if (npss_open_caseless(&handle, bytes(data), data.size(), bytes(exclusions), exclusions.size(), bytes(folding), folding.size()).status) return 1;
    std::vector<std::string> names;
    for (size_t at = 0, end; (end = text.find('\n', at)) != std::string::npos; at = end + 1) names.push_back(text.substr(at, end - at));
    const auto make = !strcmp(words[2], "key") ? key : !strcmp(words[2], "caseless") ? caseless : icu_caseless;
    double least = 1e18;
    long all = 0;
    for (int pass = atoi(words[3]); pass > 0; pass--) {
        const auto begun = std::chrono::steady_clock::now();
        all = 0;
        for (const std::string &name : names) {
            const long made = make(name);
            if (made < 0) return 1;
            all += made;
        }
        const double took = std::chrono::duration<double, std::nano>(std::chrono::steady_clock::now() - begun).count() / names.size();
        if (took < least) least = took;
    }
    printf("%.1f %ld\n", least, all);
    npss_close(&handle);
    return 0;
}
