/* Sequences of calls over a few handles, which are opened, shared, refused and closed in any order. What each call answers is what
 * the fixtures say of the version that the handle is to hold. */
#include <algorithm>
#include <sstream>
#include <vector>

#include "questions.h"

static const char *const names[] = {"v1", "v2", "changed"};
static const size_t VERSIONS = 3, SLOTS = 4, MOST_CALLS = 40;

struct Version {
    std::string data, exclusions, folding;
};

/* What a version makes of a string. */
struct KeyRow {
    size_t version;
    uint8_t form;
    std::string text;
    Wanted wanted;
};

struct MatchRow {
    size_t version;
    bool compat;
    std::string left, right;
    npss_answer wanted;
};

/* A folding file that is refused beside this data. */
struct Refusal {
    std::string data, folding;
    npss_answer wanted;
};

/* A handle, and what it is to hold: no version, or one without its foldings or with them. */
struct Slot {
    npss_handle handle;
    int version;
    bool folds;

    /* Why it can't answer what wants a folding; DONE where it can. */
    npss_answer able() const {
        return alone(version < 0 ? NPSS_CLOSED : folds ? NPSS_DONE : NPSS_NO_FOLDING);
    }
};

static Version versions[VERSIONS];
/* Each version with its foldings, opened once. */
static Slot opened[VERSIONS];
static npss_answer audits[VERSIONS][VERSIONS];
static std::vector<KeyRow> keys;
static std::vector<MatchRow> matches;
static std::vector<Refusal> refusals;

/* The rows of a file of the fixtures, cut at each " / ". */
static std::vector<std::vector<std::string>> rows_of(const std::string &name) {
    std::istringstream lines(fixture(name));
    std::vector<std::vector<std::string>> rows;
    for (std::string line; std::getline(lines, line);) {
        if (line.empty() || line[0] == '#') continue;
        rows.emplace_back();
        for (size_t at = 0, stop; at <= line.size(); at = stop + 3) {
            stop = std::min(line.find(" / ", at), line.size());
            rows.back().push_back(line.substr(at, stop - at));
        }
    }
    return rows;
}

/* The text of code points in hex digits; `-` is none. */
static std::string text_of(const std::string &codes) {
    std::istringstream words(codes);
    icu::UnicodeString text;
    std::string made;
    for (std::string word; words >> word && word != "-";) text.append(static_cast<UChar32>(std::stoul(word, nullptr, 16)));
    return text.toUTF8String(made);
}

static size_t numbered(const std::string &name, const std::vector<std::string> &all) {
    return static_cast<size_t>(std::find(all.begin(), all.end(), name) - all.begin());
}

static size_t version_of(const std::string &name) {
    return numbered(name, {names, names + VERSIONS});
}

static uint8_t form_of(const std::string &name) {
    return forms[numbered(name, {"nfd", "nfc", "nfkd", "nfkc"})];
}

/* Of a line as `FoldingChanged 0041, Lost 1DFA` the first break. */
static npss_answer break_of(const std::string &line) {
    std::istringstream words(line);
    std::string kind, code;
    words >> kind >> code;
    if (kind == "extends") return alone(NPSS_DONE);
    const size_t number = numbered(kind, {"", "Lost", "ClassChanged", "MappingChanged", "NowExcluded", "NowIncluded", "NewComposite", "FoldingChanged"});
    return {NPSS_DIFFERENT, static_cast<uint32_t>(number), static_cast<uint32_t>(std::stoul(code, nullptr, 16)), 0, 0};
}

/* Of a line as `version 0 folding: line 1: BadCode` or `version 0 folding: FoldsAgain 0041` what it tells. */
static npss_answer refusal_of(const std::string &line) {
    std::istringstream words(line.substr(line.find(": ") + 2));
    std::string first, second, name;
    words >> first >> second >> name;
    if (first == "line")
        return {NPSS_FOLDING, static_cast<uint32_t>(numbered(name, {"", "FieldCount", "BadCode", "BadStatus", "OutOfOrder", "StatusConflict", "BadMapping"})),
                0, std::stoul(second), 0};
    const size_t number = numbered(first, {"", "FoldsUnassigned", "FoldsToUnassigned", "FoldsAgain", "FoldedTooLong", "NotFolded"});
    return {NPSS_FOLDINGS, static_cast<uint32_t>(number), static_cast<uint32_t>(std::stoul(second, nullptr, 16)), 0, 0};
}

static npss_answer open_with(npss_handle *handle, const std::string &data, const std::string &exclusions, const std::string &folding) {
    return npss_open_caseless(handle, bytes(data), data.size(), bytes(exclusions), exclusions.size(), bytes(folding), folding.size());
}

static void read_rows() {
    for (const auto &row : rows_of("caseless/KEYS.txt")) {
        unsigned code, place;
        Wanted wanted = {alone(NPSS_DONE), {}};
        if (std::sscanf(row[2].c_str(), "unassigned %X at byte %u", &code, &place) == 2)
            wanted.answer = answer(NPSS_UNASSIGNED, place, code);
        else
            wanted.made = text_of(row[2]);
        keys.push_back({version_of(row[0].substr(0, 2)), form_of(row[0].substr(3)), text_of(row[1]), wanted});
    }
    for (const auto &row : rows_of("caseless/MATCHES.txt"))
        matches.push_back({version_of(row[0].substr(0, 2)), is_compatible(form_of(row[0].substr(3))), text_of(row[1]), text_of(row[2]),
                           alone(row[3][0] == '0' ? NPSS_DONE : NPSS_DIFFERENT)});
    for (const auto &row : rows_of("caseless/AUDITS.txt")) {
        const size_t old = version_of(row[0].substr(0, row[0].find(' ')));
        if (old < VERSIONS) audits[old][version_of(row[0].substr(row[0].find(' ') + 1))] = break_of(row[2]);
    }
    for (const auto &row : rows_of("caseless/edges/EXPECTED.txt"))
        if (row[2] == "4")
            refusals.push_back({row[1] == "v1" ? versions[0].data : fixture("caseless/edges/" + row[1] + ".data"), fixture("caseless/edges/" + row[0]),
                                refusal_of(row[3])});
}

void read_fixtures() {
    for (size_t number = 0; number < VERSIONS; number++) {
        const std::string name = names[number], base = name == "changed" ? "v2" : name;
        versions[number] = {fixture(base + "/UnicodeData.txt"), fixture(base + "/CompositionExclusions.txt"), fixture("caseless/" + name + "/CaseFolding.txt")};
        const Version &v = versions[number];
        if (!same(open_with(&opened[number].handle, v.data, v.exclusions, v.folding), alone(NPSS_DONE))) disagree("an opening of a fixture", name);
        opened[number].version = static_cast<int>(number);
        opened[number].folds = true;
    }
    read_rows();
}

static void check_open(const Question &asked, Slot &slot, size_t number, bool folds) {
    const Version &v = versions[number];
    npss_answer a = folds ? open_with(&slot.handle, v.data, v.exclusions, v.folding)
                          : npss_open(&slot.handle, bytes(v.data), v.data.size(), bytes(v.exclusions), v.exclusions.size());
    if (!same(a, alone(NPSS_DONE))) disagree("an opening of a fixture", asked.text);
    slot.version = static_cast<int>(number);
    slot.folds = folds;
}

/* A folding file that is refused, or a data file that is, beside any folding: the handle holds what it held. */
static void check_refusal(const Question &asked, Slot &slot, size_t number) {
    const Refusal &row = refusals[number % refusals.size()];
    if (!same(open_with(&slot.handle, row.data, versions[0].exclusions, row.folding), row.wanted)) disagree("an opening that is refused", row.folding);
    const std::string data = versions[0].data + "x\n";
    const npss_answer wanted = {NPSS_DATA, NPSS_FIELD_COUNT, 0, static_cast<uint64_t>(std::count(data.begin(), data.end(), '\n')), 0};
    if (!same(open_with(&slot.handle, data, versions[0].exclusions, row.folding), wanted)) disagree("an opening of a bad data file", asked.text);
}

static void check_share(const Question &asked, Slot &from, Slot &to) {
    if (!same(npss_share(&from.handle, &to.handle), alone(from.version < 0 ? NPSS_CLOSED : NPSS_DONE))) disagree("npss_share", asked.text);
    if (from.version < 0) return;
    to.version = from.version;
    to.folds = from.folds;
}

static void check_extends(const Question &asked, Slot &older, Slot &newer) {
    npss_answer wanted = alone(NPSS_CLOSED);
    if (older.version >= 0 && newer.version >= 0)
        wanted = !older.folds ? alone(NPSS_NO_FOLDING, 1) : !newer.folds ? alone(NPSS_NO_FOLDING, 2) : audits[older.version][newer.version];
    if (!same(npss_caseless_extends(&older.handle, &newer.handle), wanted)) disagree("npss_caseless_extends", asked.text);
}

/* A row of the fixtures, of its version alone; where the handle has no foldings, any. */
static void check_row(const Question &asked, Slot &slot, size_t number) {
    const KeyRow &row = keys[number % keys.size()];
    const bool is_able = slot.able().status == NPSS_DONE;
    if (is_able && static_cast<size_t>(slot.version) != row.version) return;
    const uint8_t *text = text_memory.hold(row.text);
    check_written("npss_caseless_key", {&slot.handle, row.form, asked.extra, row.text}, is_able ? row.wanted : Wanted{slot.able(), {}},
                  [&](uint8_t *room, size_t size) { return npss_caseless_key(&slot.handle, row.form, text, row.text.size(), room, size); });
}

static void check_match(Slot &slot, size_t number) {
    const MatchRow &row = matches[number % matches.size()];
    const bool is_able = slot.able().status == NPSS_DONE;
    if (is_able && static_cast<size_t>(slot.version) != row.version) return;
    npss_answer a = npss_caseless_match(&slot.handle, row.compat, bytes(row.left), row.left.size(), bytes(row.right), row.right.size());
    if (!same(a, is_able ? row.wanted : slot.able())) disagree("npss_caseless_match", row.left + row.right);
}

/* A call is three bytes: which, of which handles, and a number. */
static void check_call(const Question &asked, Slot slots[SLOTS], const uint8_t *three) {
    Slot &slot = slots[three[1] % SLOTS], &other = slots[three[1] / SLOTS % SLOTS];
    const size_t number = three[2];
    switch (three[0] % 10) {
    case 0: check_open(asked, slot, number % VERSIONS, number / VERSIONS % 4); break;
    case 1: check_refusal(asked, slot, number); break;
    case 2:
        npss_close(&slot.handle);
        slot.version = -1;
        break;
    case 3:
        if (&slot != &other) check_share(asked, slot, other);
        break;
    case 4:
    case 5:
        if (&slot != &other) check_extends(asked, slot, other);
        break;
    case 6: check_match(slot, number); break;
    default: check_row(asked, slot, number << 8 | three[1]); break;
    }
}

/* Begins with a handle on each version, and a closed one. */
void check_sequence(const Question &asked) {
    Slot slots[SLOTS] = {};
    for (Slot &slot : slots) slot.version = -1;
    for (size_t number = 0; number < VERSIONS; number++) check_share(asked, opened[number], slots[number]);
    for (size_t at = 0; at + 3 <= std::min(asked.text.size(), 3 * MOST_CALLS); at += 3) {
        check_call(asked, slots, bytes(asked.text) + at);
        for (Slot &slot : slots)
            if (slot.handle.is_open != (slot.version >= 0)) disagree("whether a handle is open", asked.text);
    }
    for (Slot &slot : slots) npss_close(&slot.handle);
}
