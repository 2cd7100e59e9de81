/* caseless FIXTURES: caseless keys and matches, and the files of which they are made, over the folder of fixtures. What its
 * files say is from the definitions of docs/STANDARD.md. */
#include "texts.h"

#define PARTS 8

static const char *fixtures;

/* ---- the fixtures */

static file fixture(const char *folder, const char *name) {
    char path[512];
    snprintf(path, sizeof path, "%s/%s/%s", fixtures, folder, name);
    return read_file(path);
}

static npss_answer open_three(npss_handle *handle, file data, file exclusions, file folding) {
    return npss_open_caseless(handle, data.bytes, data.length, exclusions.bytes, exclusions.length, folding.bytes, folding.length);
}

/* A version of two files by its folder, with the foldings of another folder. */
static npss_answer open_version(npss_handle *handle, const char *version, const char *folder) {
    file data = fixture(version, "UnicodeData.txt"), exclusions = fixture(version, "CompositionExclusions.txt");
    file folding = fixture(folder, "CaseFolding.txt");
    npss_answer a = open_three(handle, data, exclusions, folding);
    free(data.bytes), free(exclusions.bytes), free(folding.bytes);
    return a;
}

/* The UTF-8 of code points in hex digits, between spaces; `-` is none. */
static size_t text_of(const char *codes, uint8_t *text) {
    size_t length = 0;
    char *end;
    for (unsigned long code; code = strtoul(codes, &end, 16), end != codes; codes = end) {
        if (code < 0x80) {
            text[length++] = (uint8_t)code;
            continue;
        }
        int behind = code < 0x800 ? 1 : code < 0x10000 ? 2 : 3;
        text[length++] = (uint8_t)((0xF0 << (3 - behind)) | code >> 6 * behind);
        while (behind-- > 0) text[length++] = (uint8_t)(0x80 | (code >> 6 * behind & 0x3F));
    }
    return length;
}

/* Cuts a line at each " / ". */
static int cut(char *line, char *parts[PARTS]) {
    int count = 0;
    line[strcspn(line, "\n")] = 0;
    for (char *at = line; at && count < PARTS; count++) {
        parts[count] = at;
        if ((at = strstr(at, " / "))) *at = 0, at += 3;
    }
    return count;
}

/* Hands each row of a file to a check, and tells how many there were. */
static int each_row(const char *name, int wanted, void (*check)(char *parts[PARTS])) {
    char path[512], line[4096], *parts[PARTS];
    int rows = 0;
    snprintf(path, sizeof path, "%s/caseless/%s", fixtures, name);
    FILE *stream = fopen(path, "r");
    if (!stream) {
        perror(path);
        exit(9);
    }
    while (fgets(line, sizeof line, stream)) {
        if (*line == '#' || *line == '\n') continue;
        CHECK(path, cut(line, parts) == wanted);
        check(parts);
        rows++;
    }
    fclose(stream);
    return rows;
}

static npss_handle first, second;
static int audits;

static npss_handle *version_of(const char *head) {
    return head[1] == '1' ? &first : &second;
}

/* Of a head as `v1 nfkc` the form's letter. */
static uint8_t form_of(const char *head) {
    const char *name = strchr(head, ' ') + 1;
    int compat = name[2] == 'k';
    return (uint8_t)(strchr(name, 'd') ? (compat ? NPSS_NFKD : NPSS_NFD) : (compat ? NPSS_NFKC : NPSS_NFC));
}

static uint32_t numbered(const char *name, const char *const *names, uint32_t count) {
    for (uint32_t number = 1; number <= count; number++)
        if (!strcmp(name, names[number - 1])) return number;
    return 0;
}

/* ---- keys and matches */

/* VERSION FORM / STRING / KEY, or why there is none: in a room of each length. */
static void check_key(char *parts[PARTS]) {
    uint8_t text[1024], key[4096], room[4096];
    unsigned code, place;
    const size_t length = text_of(parts[1], text);
    const uint8_t form = form_of(parts[0]);
    npss_handle *handle = version_of(parts[0]);
    memset(room, '.', sizeof room);
    if (sscanf(parts[2], "unassigned %X at byte %u", &code, &place) == 2) {
        CHECK(parts[1], is(npss_caseless_key(handle, form, text, length, room, sizeof room), NPSS_UNASSIGNED, 0, code, place, 0));
        CHECK("the room is as it was", room[0] == '.');
        return;
    }
    const size_t wanted = text_of(parts[2], key);
    for (size_t size = 0; size < wanted; size++)
        CHECK(parts[1], is(npss_caseless_key(handle, form, text, length, room, size), NPSS_NO_ROOM, 0, 0, 0, wanted) && room[0] == '.');
    CHECK(parts[1], is(npss_caseless_key(handle, form, text, length, room, sizeof room), NPSS_DONE, 0, 0, 0, wanted));
    CHECK(parts[2], !memcmp(room, key, wanted) && room[wanted] == '.');
    CHECK(parts[2], is(npss_caseless_key(handle, form, key, wanted, room, wanted), NPSS_DONE, 0, 0, 0, wanted) && !memcmp(room, key, wanted));
}

/* The answers to lines, of which the room holds each byte; a room that lacks one has none of them. */
static void check_answers(uint8_t form, char end, const char *text, const char *made, uint32_t refused) {
    const npss_asked asked = {form, (uint8_t)end};
    const size_t length = strlen(made);
    for (size_t size = length - 1; size <= length; size++) {
        uint8_t room[64];
        memset(room, '.', sizeof room);
        npss_answer a = npss_caseless_answers(&first, &asked, (const uint8_t *)text, strlen(text), room, size);
        CHECK(made, is(a, size < length ? NPSS_NO_ROOM : NPSS_DONE, refused, 0, 0, length));
        CHECK(made, size < length ? room[0] == '.' : !memcmp(room, made, length) && room[length] == '.');
    }
}

static void check_lines(void) {
    const npss_asked lines = {NPSS_NFC, '\n'}, formless = {'x', '\n'}, endless = {NPSS_NFC, ';'};
    uint8_t room[8];
    CHECK("no lines", is(npss_caseless_answers(&first, &lines, TEXT(""), room, 0), NPSS_DONE, 0, 0, 0, 0));
    check_answers(NPSS_NFC, '\n', "A\n\nA\xcc\x8a", "=a\n=\n=a\xcc\x8a\n", 0);
    check_answers(NPSS_NFKC, '\n', "\xef\xac\x81\nA" LATER "\n", "=ii\n!unassigned 16D67 at byte 1\n", 1);
    check_answers(NPSS_NFKC, '\n', "A\xff", "!not UTF-8 at byte 1\n", 1);
    CHECK("no form of lines", is(npss_caseless_answers(&first, &formless, TEXT("A"), room, 8), NPSS_NO_FORM, 0, 0, 0, 0));
    CHECK("no end of lines", is(npss_caseless_answers(&first, &endless, TEXT("A"), room, 8), NPSS_NO_END, 0, 0, 0, 0));
}

/* VERSION FORM / FIRST / SECOND / what `compare` tells, which refuses what isn't assigned. */
static void check_match(char *parts[PARTS]) {
    uint8_t left[1024], right[1024];
    const size_t left_length = text_of(parts[1], left), right_length = text_of(parts[2], right);
    const uint8_t form = form_of(parts[0]);
    npss_answer a = npss_caseless_match(version_of(parts[0]), form == NPSS_NFKC || form == NPSS_NFKD, left, left_length, right, right_length);
    if (*parts[3] == '3') {
        CHECK("unassigned is taken", is(a, NPSS_DONE, 0, 0, 0, 0) || is(a, NPSS_DIFFERENT, 0, 0, 0, 0));
    } else {
        CHECK(parts[1], is(a, *parts[3] == '0' ? NPSS_DONE : NPSS_DIFFERENT, 0, 0, 0, 0));
    }
}

/* OLD NEW / STATUS / what `audit` prints, of which the first break is told here. */
static void check_audit(char *parts[PARTS]) {
    static const char *const kinds[] = {"Lost", "ClassChanged", "MappingChanged", "NowExcluded", "NowIncluded", "NewComposite", "FoldingChanged"};
    char old[16], new[16], folder[32], kind[32];
    unsigned code;
    npss_handle older = {0}, newer = {0};
    if (sscanf(parts[0], "%15s %15s", old, new) != 2) return; /* a row of `key --check-under` */
    audits++;
    snprintf(folder, sizeof folder, "caseless/%s", old);
    CHECK(old, open_version(&older, strcmp(old, "v1") ? "v2" : "v1", folder).status == NPSS_DONE);
    snprintf(folder, sizeof folder, "caseless/%s", new);
    CHECK(new, open_version(&newer, strcmp(new, "v1") ? "v2" : "v1", folder).status == NPSS_DONE);
    npss_answer a = npss_caseless_extends(&older, &newer);
    if (*parts[1] == '0') {
        CHECK(parts[0], is(a, NPSS_DONE, 0, 0, 0, 0));
    } else {
        CHECK(parts[2], sscanf(parts[2], "%31s %X", kind, &code) == 2 && is(a, NPSS_DIFFERENT, numbered(kind, kinds, 7), code, 0, 0));
    }
    npss_close(&older);
    npss_close(&newer);
}

/* What a code point folds to, in a room of each length. */
static void check_folding(uint32_t code, const char *made) {
    const size_t length = strlen(made);
    for (size_t size = 0; size <= length; size++) {
        uint8_t room[8] = "........";
        npss_answer a = npss_folding(&first, code, room, size);
        CHECK(made, is(a, size < length ? NPSS_NO_ROOM : NPSS_DONE, 0, 0, 0, length));
        CHECK(made, size < length ? room[0] == '.' : !memcmp(room, made, length) && room[length] == '.');
    }
}

static void check_foldings(void) {
    uint8_t room[8] = "........";
    check_folding('A', "a"); /* C, and T beside it */
    check_folding('i', "i");
    check_folding(0xE000, "aa");
    check_folding(0xE001, "aa"); /* F, and S beside it */
    check_folding(0x327, "\xe0\xa4\x95");
    check_folding(0xC5, "a\xcc\x8a");
    check_folding(0xAC01, "\xea\xb0\x81");
    CHECK("an unassigned one", is(npss_folding(&first, 0x16D67, room, 8), NPSS_UNASSIGNED, 0, 0x16D67, 0, 0));
    CHECK("a surrogate", is(npss_folding(&first, 0xD800, room, 8), NPSS_NO_CODE, 0, 0, 0, 0));
    CHECK("no code point", is(npss_folding(&first, 0x110000, room, 8), NPSS_NO_CODE, 0, 0, 0, 0));
    CHECK("the room is as it was", !memcmp(room, "........", 8));
}

static void check_texts(void) {
    uint8_t room[8] = "........";
    CHECK("no text", is(npss_caseless_key(&first, NPSS_NFC, TEXT("A\xff"), room, 8), NPSS_NOT_UTF8, 0, 0, 1, 0));
    CHECK("no form", is(npss_caseless_key(&first, 'x', TEXT("A"), room, 8), NPSS_NO_FORM, 0, 0, 0, 0));
    CHECK("the room is as it was", !memcmp(room, "........", 8));
    CHECK("the first is no text", is(npss_caseless_match(&first, false, TEXT("A\xff"), TEXT("\xff")), NPSS_NOT_UTF8, 1, 0, 1, 0));
    CHECK("the second is no text", is(npss_caseless_match(&first, true, TEXT("A"), TEXT("\xff")), NPSS_NOT_UTF8, 2, 0, 0, 0));
    CHECK("an unassigned one matches itself", is(npss_caseless_match(&first, false, TEXT("A" LATER), TEXT("a" LATER)), NPSS_DONE, 0, 0, 0, 0));
    CHECK("and no other", is(npss_caseless_match(&first, true, TEXT("A" LATER), TEXT("A")), NPSS_DIFFERENT, 0, 0, 0, 0));
    const size_t count = 100000;
    uint8_t *text = malloc(count), *key = malloc(count);
    memset(text, 'A', count);
    CHECK("a long text", is(npss_caseless_key(&first, NPSS_NFKC, text, count, key, count), NPSS_DONE, 0, 0, 0, count));
    for (size_t i = 0; i < count; i++) text[i] = 'a';
    CHECK("its key", !memcmp(text, key, count));
    free(text), free(key);
}

/* ---- files */

static npss_answer open_edge(npss_handle *handle, const char *name, const char *data_name) {
    char lower[64];
    snprintf(lower, sizeof lower, "%s.data", data_name);
    file data = strcmp(data_name, "v1") ? fixture("caseless/edges", lower) : fixture("v1", "UnicodeData.txt");
    file exclusions = fixture("v1", "CompositionExclusions.txt"), folding = fixture("caseless/edges", name);
    npss_answer a = open_three(handle, data, exclusions, folding);
    free(data.bytes), free(exclusions.bytes), free(folding.bytes);
    return a;
}

/* FILE / DATA / STATUS / why the file is refused, or the key of `A`. */
static void check_edge(char *parts[PARTS]) {
    static const char *const faults[] = {"FieldCount", "BadCode", "BadStatus", "OutOfOrder", "StatusConflict", "BadMapping"};
    static const char *const conditions[] = {"FoldsUnassigned", "FoldsToUnassigned", "FoldsAgain", "FoldedTooLong", "NotFolded"};
    npss_handle handle = {0};
    char name[64];
    unsigned line, code;
    npss_answer a = open_edge(&handle, parts[0], parts[1]);
    if (sscanf(parts[3], "version 0 folding: line %u: %63s", &line, name) == 2) {
        CHECK(parts[0], is(a, NPSS_FOLDING, numbered(name, faults, 6), 0, line, 0) && !handle.is_open);
    } else if (sscanf(parts[3], "version 0 folding: %63s %X", name, &code) == 2) {
        CHECK(parts[0], is(a, NPSS_FOLDINGS, numbered(name, conditions, 5), code, 0, 0) && !handle.is_open);
    } else {
        uint8_t key[64], room[64];
        const size_t wanted = text_of(parts[3], key);
        CHECK(parts[0], is(a, NPSS_DONE, 0, 0, 0, 0));
        CHECK(parts[0], is(npss_caseless_key(&handle, NPSS_NFC, TEXT("A"), room, sizeof room), NPSS_DONE, 0, 0, 0, wanted));
        CHECK(parts[0], !memcmp(room, key, wanted));
    }
    npss_close(&handle);
}

/* Which file is judged first, and what a refusal leaves. */
static void check_files(void) {
    static const char few[] = "0041;x\n", deep[] = "0041;X;Lu;0;L;0042;;;;N;;;;;\n", faulty[] = "0041; Q; 0061;\n";
    const file data = {(uint8_t *)few, sizeof few - 1}, none = {(uint8_t *)"none\n", 5}, folding = {(uint8_t *)faulty, sizeof faulty - 1};
    const file unsound = {(uint8_t *)deep, sizeof deep - 1}, empty = {(uint8_t *)"", 0};
    npss_handle handle = {0};
    uint8_t room[4];
    CHECK("the data file first", is(open_three(&handle, data, none, folding), NPSS_DATA, NPSS_FIELD_COUNT, 0, 1, 0));
    CHECK("then the exclusions", is(open_three(&handle, empty, none, folding), NPSS_EXCLUSIONS, NPSS_BAD_CODE, 0, 1, 0));
    CHECK("then the tables", is(open_three(&handle, unsound, empty, folding), NPSS_TABLES, NPSS_MAPS_TO_UNASSIGNED, 0x41, 0, 0));
    CHECK("then the folding file", is(open_three(&handle, empty, empty, folding), NPSS_FOLDING, NPSS_FOLDING_BAD_STATUS, 0, 1, 0));
    CHECK("nothing is open", !handle.is_open);
    CHECK("three empty files", is(open_three(&handle, empty, empty, empty), NPSS_DONE, 0, 0, 0, 0) && handle.is_open);
    const size_t large = 16777217;
    file lines = {malloc(large), large};
    memset(lines.bytes, '\n', large);
    CHECK("a folding file of a byte too many", is(open_three(&handle, empty, empty, lines), NPSS_TOO_LARGE, 3, 0, 0, 0));
    lines.length--;
    CHECK("a folding file of 16 MiB", is(open_three(&handle, empty, empty, lines), NPSS_DONE, 0, 0, 0, 0));
    free(lines.bytes);
    CHECK("open", open_version(&handle, "v1", "caseless/v1").status == NPSS_DONE);
    CHECK("a refusal", is(open_three(&handle, empty, empty, folding), NPSS_FOLDING, NPSS_FOLDING_BAD_STATUS, 0, 1, 0));
    CHECK("leaves what was held", is(npss_caseless_key(&handle, NPSS_NFC, TEXT("A"), room, 4), NPSS_DONE, 0, 0, 0, 1) && room[0] == 'a');
    npss_close(&handle);
}

/* ---- handles */

/* What a handle without foldings, and a closed one, answers to calls that want them. */
static void check_without(npss_handle *handle, uint32_t status) {
    uint8_t room[4] = "....";
    const uint32_t older = status == NPSS_CLOSED ? 0 : 1, newer = status == NPSS_CLOSED ? 0 : 2;
    CHECK("an older version without foldings", is(npss_caseless_extends(handle, &first), status, older, 0, 0, 0));
    CHECK("a newer version without foldings", is(npss_caseless_extends(&first, handle), status, newer, 0, 0, 0));
    const npss_asked lines = {'x', ';'};
    CHECK("lines without foldings", is(npss_caseless_answers(handle, &lines, TEXT("A"), room, 4), status, 0, 0, 0, 0));
    CHECK("a folding without foldings", is(npss_folding(handle, 0xD800, room, 4), status, 0, 0, 0, 0));
    CHECK("a key without foldings", is(npss_caseless_key(handle, NPSS_NFC, TEXT("A"), room, 4), status, 0, 0, 0, 0));
    CHECK("no form is looked at", is(npss_caseless_key(handle, 'x', TEXT("\xff"), room, 4), status, 0, 0, 0, 0));
    CHECK("a match without foldings", is(npss_caseless_match(handle, false, TEXT("A"), TEXT("a")), status, 0, 0, 0, 0));
    CHECK("the room is as it was", !memcmp(room, "....", 4));
}

static int makes(npss_handle *handle, const char *text, const char *key) {
    uint8_t room[64];
    npss_answer a = npss_caseless_key(handle, NPSS_NFC, (const uint8_t *)text, strlen(text), room, sizeof room);
    return a.status == NPSS_DONE && a.length == strlen(key) && !memcmp(room, key, a.length);
}

static void check_handles(void) {
    npss_handle handle = {0}, other = {0};
    uint8_t room[8];
    check_without(&handle, NPSS_CLOSED);
    file data = fixture("v1", "UnicodeData.txt"), exclusions = fixture("v1", "CompositionExclusions.txt");
    CHECK("two files", npss_open(&handle, data.bytes, data.length, exclusions.bytes, exclusions.length).status == NPSS_DONE);
    check_without(&handle, NPSS_NO_FOLDING);
    CHECK("a share of it", npss_share(&handle, &other).status == NPSS_DONE);
    check_without(&other, NPSS_NO_FOLDING);
    CHECK("both without foldings", is(npss_caseless_extends(&handle, &other), NPSS_NO_FOLDING, 1, 0, 0, 0));
    CHECK("two files extend", npss_extends(&first, &other).status == NPSS_DONE);
    CHECK("three files", open_version(&handle, "v1", "caseless/v1").status == NPSS_DONE && makes(&handle, "A", "a"));
    CHECK("a share of these", npss_share(&handle, &other).status == NPSS_DONE && makes(&other, "A", "a"));
    CHECK("other calls go on", is(npss_key(&handle, NPSS_NFC, TEXT("A"), room, 8), NPSS_DONE, 0, 0, 0, 1) && room[0] == 'A');
    CHECK("two files again", npss_open(&handle, data.bytes, data.length, exclusions.bytes, exclusions.length).status == NPSS_DONE);
    check_without(&handle, NPSS_NO_FOLDING);
    npss_close(&handle);
    check_without(&handle, NPSS_CLOSED);
    CHECK("the share lives on", makes(&other, "A", "a"));
    npss_node node = {0};
    CHECK("a node over it", npss_node_new(&node, &other, NPSS_NFC, 1).status == NPSS_DONE);
    npss_close(&other);
    CHECK("a node keeps strings as ever", is(npss_node_accept(&node, TEXT("A")), NPSS_DONE, 0, 0, 0, 0));
    CHECK("and their keys", is(npss_node_key(&node, TEXT("A"), room, 8), NPSS_DONE, 0, 0, 0, 1) && room[0] == 'A');
    npss_node_close(&node);
    free(data.bytes), free(exclusions.bytes);
}

int main(int argc, char **argv) {
    if (argc != 2) return 2;
    fixtures = argv[1];
    CHECK("the first version", open_version(&first, "v1", "caseless/v1").status == NPSS_DONE);
    CHECK("the second version", open_version(&second, "v2", "caseless/v2").status == NPSS_DONE);
    CHECK("keys", each_row("KEYS.txt", 3, check_key) == 312);
    CHECK("matches", each_row("MATCHES.txt", 4, check_match) == 52);
    CHECK("audits", each_row("AUDITS.txt", 3, check_audit) == 25 && audits == 9);
    check_texts();
    check_lines();
    check_foldings();
    check_handles();
    npss_close(&first);
    npss_close(&second);
    CHECK("edges", each_row("edges/EXPECTED.txt", 4, check_edge) == 104);
    check_files();
    return finish();
}
