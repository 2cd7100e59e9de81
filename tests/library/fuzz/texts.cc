/* texts SECONDS SEED: texts that are made to be hard, given to the fuzzer of the calls. What is frequent in them changes
 * something: code points that decompose or fold, the parts of decompositions and foldings, non-starters, jamo. */
#include <ctime>
#include <random>
#include <vector>

#include "oracle.h"

extern "C" int LLVMFuzzerInitialize(int *, char ***);
extern "C" int LLVMFuzzerTestOneInput(const uint8_t *, size_t);

/* How many bytes of an input stand before its text. */
static const size_t HEAD = 3;

static std::mt19937_64 random_numbers;

static size_t below(size_t bound) {
    return static_cast<size_t>(random_numbers() % bound);
}

static UChar32 any_of(const std::vector<UChar32> &codes) {
    return codes[below(codes.size())];
}

/* Those around which it tells whether marks are ordered, decomposed or folded first. */
static const std::vector<UChar32> turning = {0x345, 0x37A, 0x3B9, 0x399, 0x1FBE, 0x3B1, 0x301, 0x323, 0x49,   0x130,  0xDF,   0x1E9E, 0x3F9, 0xFF9E,
                                             0xFF9F, 0x3099, 0xFF76, 0x13A0, 0xAB70, 0x1C90, 0x10D0, 0xFB01, 0x2121, 0x1FB3, 0x1FB4, 0x10400};

static void put(std::string &text, UChar32 code) {
    uint8_t spelled[4];
    int32_t length = 0;
    U8_APPEND_UNSAFE(spelled, length, code);
    text.append(reinterpret_cast<char *>(spelled), static_cast<size_t>(length));
}

/* The code points of ICU's version, by what makes them hard. */
struct Codes {
    std::vector<UChar32> decomposing, parts, marks, folding, folded_to, assigned, unassigned;

    Codes() {
        const icu::Normalizer2 &nfkd = normalizer(NPSS_NFKD);
        for (UChar32 code = 0; code <= UCHAR_MAX_VALUE; code++) {
            icu::UnicodeString parted;
            if (U_IS_SURROGATE(code)) continue;
            (u_charType(code) == U_UNASSIGNED ? unassigned : assigned).push_back(code);
            if (u_getCombiningClass(code)) marks.push_back(code);
            add_folding(code);
            if (u_getIntPropertyValue(code, UCHAR_HANGUL_SYLLABLE_TYPE) != U_HST_NOT_APPLICABLE || !nfkd.getDecomposition(code, parted)) continue;
            decomposing.push_back(code);
            for (int32_t at = 0; at < parted.length(); at = parted.moveIndex32(at, 1)) parts.push_back(parted.char32At(at));
        }
    }

    void add_folding(UChar32 code) {
        std::string spelled;
        put(spelled, code);
        const std::string made = folded(spelled);
        if (made == spelled) return;
        folding.push_back(code);
        const icu::UnicodeString to = icu::UnicodeString::fromUTF8(made);
        for (int32_t at = 0; at < to.length(); at = to.moveIndex32(at, 1)) folded_to.push_back(to.char32At(at));
    }

    /* A leading, vowel or trailing jamo, or a syllable, also right beside those that compose. */
    UChar32 hangul() const {
        const size_t kind = below(20);
        if (kind == 0) return static_cast<UChar32>(0x1100 + below(0x100));
        return static_cast<UChar32>(kind < 9 ? 0x1100 + below(19) : kind < 14 ? 0x1161 + below(21) : kind < 17 ? 0x11A7 + below(28) : 0xAC00 + below(11172));
    }

    /* What folds, what is folded to, or what stands between. */
    UChar32 cased() const {
        const size_t kind = below(4);
        return any_of(kind == 0 ? folding : kind == 1 ? folded_to : kind == 2 ? turning : marks);
    }

    UChar32 mixed() const {
        const size_t kind = below(24);
        if (kind < 5) return any_of(decomposing);
        if (kind < 10) return any_of(parts);
        if (kind < 14) return any_of(marks);
        if (kind < 15) return any_of(assigned);
        if (kind < 16) return hangul();
        if (kind < 17) return below(2) ? '\n' : 0;
        if (kind < 21) return cased();
        return static_cast<UChar32>(kind < 23 ? 0x20 + below(95) : 0xC0 + below(0x300));
    }

    UChar32 of_kind(size_t kind) const {
        if (kind == 0) return any_of(marks);
        if (kind == 1) return hangul();
        if (kind < 4) return cased();
        return kind == 4 && below(10) == 0 ? any_of(unassigned) : mixed();
    }

    /* A text of so many code points: of marks, of Hangul, of what folds, with unassigned ones, or of all. */
    std::string text(size_t count) const {
        const size_t kind = below(10);
        std::string made;
        while (count--) put(made, of_kind(kind));
        return made;
    }
};

/* Mostly names, and now and then a text that is longer than a line may be. */
static size_t length() {
    const size_t kind = below(1000);
    return below(kind < 500 ? 6 : kind < 900 ? 30 : kind < 990 ? 200 : kind < 999 ? 3000 : 60000);
}

int main(int count, char **words) {
    if (count != 3) return 2;
    LLVMFuzzerInitialize(&count, &words);
    const double seconds = std::atof(words[1]);
    random_numbers.seed(std::strtoull(words[2], nullptr, 10));
    const Codes codes;
    const std::time_t begun = std::time(nullptr);
    unsigned long made = 0;
    while (std::difftime(std::time(nullptr), begun) < seconds) {
        std::string input = {static_cast<char>(below(256)), static_cast<char>(below(256)), static_cast<char>(below(256))};
        input += codes.text(length());
        /* A byte is wrong, or the last one is missing. */
        if (input.size() > HEAD && below(20) == 0) input[HEAD + below(input.size() - HEAD)] = static_cast<char>(below(256));
        if (input.size() > HEAD && below(60) == 0) input.pop_back();
        LLVMFuzzerTestOneInput(bytes(input), input.size());
        made++;
    }
    std::printf("%lu\n", made);
    return 0;
}
