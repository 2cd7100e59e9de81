/* calls V1DATA V1EXCLUSIONS V2DATA V2EXCLUSIONS: each call and each status over the fixtures. */
#include "texts.h"

static int is_closed(const npss_handle *handle) {
    return !handle->is_open;
}

/* Each call on a handle of zeros. */
static void check_closed(void) {
    npss_handle closed = {0}, other = {0};
    uint8_t room[8];
    CHECK("key of a closed handle", is(npss_key(&closed, NPSS_NFC, TEXT("a"), room, 8), NPSS_CLOSED, 0, 0, 0, 0));
    CHECK("form of a closed handle", is(npss_normalize(&closed, NPSS_NFC, TEXT("a"), room, 8), NPSS_CLOSED, 0, 0, 0, 0));
    const npss_asked lines = {NPSS_NFC, '\n'};
    CHECK("lines to a closed handle", is(npss_answers(&closed, &lines, TEXT("a"), room, 8), NPSS_CLOSED, 0, 0, 0, 0));
    CHECK("question to a closed handle", is(npss_is_form(&closed, 'x', TEXT("a")), NPSS_CLOSED, 0, 0, 0, 0));
    CHECK("two texts to a closed handle", is(npss_equivalent(&closed, false, TEXT("a"), TEXT("a")), NPSS_CLOSED, 0, 0, 0, 0));
    CHECK("two closed handles", is(npss_extends(&closed, &other), NPSS_CLOSED, 0, 0, 0, 0));
    CHECK("count of a closed handle", is(npss_count(&closed), NPSS_CLOSED, 0, 0, 0, 0));
    CHECK("sharing a closed handle", is(npss_share(&closed, &other), NPSS_CLOSED, 0, 0, 0, 0) && is_closed(&other));
    npss_close(&closed);
    CHECK("closing a closed handle", is_closed(&closed));
}

/* Files that make no version. */
static void check_files(npss_handle *handle, file data, file exclusions) {
    static const char few[] = "0041;x\n";
    static const char deep[] = "0041;X;Lu;0;L;0042;;;;N;;;;;\n";
    npss_answer a = npss_open(handle, TEXT(few), exclusions.bytes, exclusions.length);
    CHECK("a record of two fields", is(a, NPSS_DATA, NPSS_FIELD_COUNT, 0, 1, 0) && is_closed(handle));
    a = npss_open(handle, TEXT("# none\n\n0041;X;Lu;999;L;;;;;N;;;;;\n"), exclusions.bytes, exclusions.length);
    CHECK("a class of 999", is(a, NPSS_DATA, NPSS_BAD_CLASS, 0, 3, 0));
    a = npss_open(handle, TEXT("E000;<R, First>;Co;0;L;;;;;N;;;;;\n"), exclusions.bytes, exclusions.length);
    CHECK("an open range", is(a, NPSS_DATA, NPSS_RANGE_OPEN, 0, 1, 0));
    a = npss_open(handle, data.bytes, data.length, TEXT("0958\nnone\n"));
    CHECK("exclusions that are none", is(a, NPSS_EXCLUSIONS, NPSS_BAD_CODE, 0, 2, 0) && is_closed(handle));
    a = npss_open(handle, TEXT(few), TEXT("none\n"));
    CHECK("the data file is judged first", is(a, NPSS_DATA, NPSS_FIELD_COUNT, 0, 1, 0));
    a = npss_open(handle, TEXT(deep), exclusions.bytes, exclusions.length);
    CHECK("a mapping to what is unassigned", is(a, NPSS_TABLES, NPSS_MAPS_TO_UNASSIGNED, 0x41, 0, 0));
    const size_t large = 16777217;
    uint8_t *lines = malloc(large);
    memset(lines, '\n', large);
    a = npss_open(handle, lines, large, exclusions.bytes, exclusions.length);
    CHECK("a data file of a byte too many", is(a, NPSS_TOO_LARGE, 1, 0, 0, 0) && is_closed(handle));
    a = npss_open(handle, data.bytes, data.length, lines, large);
    CHECK("exclusions of a byte too many", is(a, NPSS_TOO_LARGE, 2, 0, 0, 0));
    a = npss_open(handle, lines, large - 1, lines, large - 1);
    CHECK("files of 16 MiB", is(a, NPSS_DONE, 0, 0, 0, 0) && handle->is_open && npss_count(handle).length == 0);
    free(lines);
    a = npss_open(handle, TEXT(""), TEXT(""));
    CHECK("empty files", a.status == NPSS_DONE && npss_count(handle).length == 0);
    uint8_t room[1];
    a = npss_key(handle, NPSS_NFC, TEXT("a"), room, 1);
    CHECK("nothing is assigned", is(a, NPSS_UNASSIGNED, 0, 'a', 0, 0));
    npss_close(handle);
    CHECK("closed", is_closed(handle));
}

static void check_made(npss_handle *h, uint8_t form, const char *text, const char *made) {
    uint8_t room[64];
    memset(room, '.', sizeof room);
    size_t length = strlen(made);
    npss_answer a = npss_key(h, form, (const uint8_t *)text, strlen(text), room, sizeof room);
    CHECK(text, is(a, NPSS_DONE, 0, 0, 0, length) && !memcmp(room, made, length) && room[length] == '.');
    a = npss_normalize(h, form, (const uint8_t *)text, strlen(text), room, sizeof room);
    CHECK(text, is(a, NPSS_DONE, 0, 0, 0, length) && !memcmp(room, made, length) && room[length] == '.');
    a = npss_is_form(h, form, (const uint8_t *)made, length);
    CHECK(made, is(a, NPSS_DONE, 0, 0, 0, 0));
}

static void check_texts(npss_handle *h) {
    uint8_t room[64];
    check_made(h, NPSS_NFD, MARKED, MARKED_NFD);
    check_made(h, NPSS_NFC, MARKED, MARKED_NFC);
    check_made(h, NPSS_NFC, LIGATURE, LIGATURE);
    check_made(h, NPSS_NFKD, LIGATURE, "fi");
    check_made(h, NPSS_NFKC, LIGATURE, "fi");
    check_made(h, NPSS_NFC, "", "");
    /* each length of the room */
    for (size_t length = 0; length < 5; length++) {
        memset(room, '.', sizeof room);
        npss_answer a = npss_key(h, NPSS_NFD, TEXT(MARKED), room, length);
        CHECK("no room for the key", is(a, NPSS_NO_ROOM, 0, 0, 0, 5) && room[0] == '.' && room[4] == '.');
        a = npss_normalize(h, NPSS_NFD, TEXT(MARKED), room, length);
        CHECK("no room for the form", is(a, NPSS_NO_ROOM, 0, 0, 0, 5) && room[0] == '.' && room[4] == '.');
    }
    CHECK("room of its length", is(npss_key(h, NPSS_NFD, TEXT(MARKED), room, 5), NPSS_DONE, 0, 0, 0, 5));
    CHECK("no room for nothing", is(npss_key(h, NPSS_NFD, TEXT(""), room, 0), NPSS_DONE, 0, 0, 0, 0));
    memset(room, '.', sizeof room);
    CHECK("unassigned", is(npss_key(h, NPSS_NFC, TEXT("A" LATER), room, 64), NPSS_UNASSIGNED, 0, 0x16D67, 1, 0));
    CHECK("not UTF-8", is(npss_key(h, NPSS_NFC, TEXT("Ai\xff"), room, 64), NPSS_NOT_UTF8, 0, 0, 2, 0));
    CHECK("cut", is(npss_normalize(h, NPSS_NFC, TEXT("A\xcc"), room, 64), NPSS_NOT_UTF8, 0, 0, 1, 0));
    CHECK("no form", is(npss_key(h, 'x', TEXT("A"), room, 64), NPSS_NO_FORM, 0, 0, 0, 0));
    CHECK("no form of a form", is(npss_normalize(h, 0, TEXT("A"), room, 64), NPSS_NO_FORM, 0, 0, 0, 0));
    CHECK("the room is as it was", room[0] == '.' && room[63] == '.');
    npss_answer a = npss_normalize(h, NPSS_NFKC, TEXT(LIGATURE LATER), room, 64);
    CHECK("unassigned stays", is(a, NPSS_DONE, 0, 0, 0, 6) && !memcmp(room, "fi" LATER, 6));
    CHECK("not its form", is(npss_is_form(h, NPSS_NFC, TEXT(MARKED)), NPSS_DIFFERENT, 0, 0, 0, 0));
    CHECK("no form asked for", npss_is_form(h, 'n', TEXT(MARKED)).status == NPSS_NO_FORM);
    CHECK("no text", is(npss_is_form(h, NPSS_NFC, TEXT("\x80")), NPSS_NOT_UTF8, 0, 0, 0, 0));
}

/* The answers to lines, which the room holds to the byte; each shorter room has none of them. */
static void check_lines(npss_handle *h, char form, char end, const char *text, size_t length, const char *made,
                        size_t made_length, uint32_t refused) {
    const npss_asked asked = {(uint8_t)form, (uint8_t)end};
    uint8_t room[128];
    for (size_t size = 0; size <= made_length; size++) {
        memset(room, '.', sizeof room);
        npss_answer a = npss_answers(h, &asked, (const uint8_t *)text, length, room, size);
        if (size < made_length) {
            CHECK("no room for the answers",
                  is(a, NPSS_NO_ROOM, refused, 0, 0, made_length) && room[0] == '.' && room[made_length] == '.');
        } else {
            CHECK(made, is(a, NPSS_DONE, refused, 0, 0, made_length) && !memcmp(room, made, made_length) &&
                            room[made_length] == '.');
        }
    }
}

#define LINES(h, form, end, text, made, refused)                                                                       \
    check_lines(h, form, end, text, sizeof(text) - 1, made, sizeof(made) - 1, refused)

static void check_answers(npss_handle *h) {
    uint8_t room[8] = "........";
    LINES(h, NPSS_NFC, '\n', "", "", 0);
    LINES(h, NPSS_NFC, '\n', "\n", "=\n", 0);
    LINES(h, NPSS_NFC, '\n', "a\n" MARKED, "=a\n=" MARKED_NFC "\n", 0);
    LINES(h, NPSS_NFD, '\n', MARKED "\n\n", "=" MARKED_NFD "\n=\n", 0);
    LINES(h, NPSS_NFKC, '\n', LIGATURE "\nA" LATER "\nA", "=fi\n!unassigned 16D67 at byte 1\n=A\n", 1);
    LINES(h, NPSS_NFC, '\n', "A\nAi\xff", "=A\n!not UTF-8 at byte 2\n", 1);
    LINES(h, NPSS_NFC, '\n', "a\0A", "!unassigned 0000 at byte 1\n", 1);
    LINES(h, NPSS_NFC, '\0', "a\0" MARKED "\0", "=a\0=" MARKED_NFC "\0", 0);
    const npss_asked other_form = {'x', 'x'}, other_end = {NPSS_NFC, ';'}, lines = {NPSS_NFC, '\n'};
    CHECK("no form of lines", is(npss_answers(h, &other_form, TEXT("a"), room, 8), NPSS_NO_FORM, 0, 0, 0, 0));
    CHECK("no end of lines", is(npss_answers(h, &other_end, TEXT("a"), room, 8), NPSS_NO_END, 0, 0, 0, 0));
    CHECK("the room of no lines is as it was", !memcmp(room, "........", 8));
    const size_t count = 1000000;
    uint8_t *text = malloc(2 * count), *many = malloc(3 * count);
    for (size_t i = 0; i < count; i++) memcpy(text + 2 * i, "a\n", 2);
    npss_answer a = npss_answers(h, &lines, text, 2 * count, many, 3 * count);
    CHECK("a million lines", is(a, NPSS_DONE, 0, 0, 0, 3 * count) && !memcmp(many + 3 * count - 3, "=a\n", 3));
    memset(text, 'a', 65537);
    a = npss_answers(h, &lines, text, 65537, many, 3 * count);
    CHECK("a line of a byte too many", is(a, NPSS_DONE, 1, 0, 0, 10) && !memcmp(many, "!too long\n", 10));
    a = npss_answers(h, &lines, text, 65536, many, 3 * count);
    CHECK("a line as long as may be", is(a, NPSS_DONE, 0, 0, 0, 65538) && !memcmp(many, "=aaa", 4));
    free(text);
    free(many);
}

static void check_questions(npss_handle *h) {
    CHECK("equivalent", is(npss_equivalent(h, false, TEXT(MARKED), TEXT(MARKED_NFC)), NPSS_DONE, 0, 0, 0, 0));
    CHECK("different", is(npss_equivalent(h, false, TEXT(LIGATURE), TEXT("fi")), NPSS_DIFFERENT, 0, 0, 0, 0));
    CHECK("compatible", is(npss_equivalent(h, true, TEXT(LIGATURE), TEXT("fi")), NPSS_DONE, 0, 0, 0, 0));
    CHECK("empty texts", npss_equivalent(h, false, TEXT(""), TEXT("")).status == NPSS_DONE);
    CHECK("the first is no text",
          is(npss_equivalent(h, false, TEXT("a\xff"), TEXT("\xff")), NPSS_NOT_UTF8, 1, 0, 1, 0));
    CHECK("the second is no text", is(npss_equivalent(h, false, TEXT("a"), TEXT("\xff")), NPSS_NOT_UTF8, 2, 0, 0, 0));
}

/* A text of so many times five bytes: 40 MB, or less where each byte costs a hundred times as much. */
static void check_large(npss_handle *h, size_t times) {
    const size_t length = 5 * times;
    uint8_t *text = malloc(length), *room = malloc(length);
    for (size_t i = 0; i < times; i++) memcpy(text + 5 * i, MARKED, 5);
    npss_answer a = npss_key(h, NPSS_NFC, text, length, room, length);
    CHECK("key of a large text", is(a, NPSS_DONE, 0, 0, 0, 3 * times) && !memcmp(room + 3 * times - 3, MARKED_NFC, 3));
    CHECK("the two are equivalent", npss_equivalent(h, false, text, length, room, 3 * times).status == NPSS_DONE);
    a = npss_key(h, NPSS_NFC, text, length, room, 3 * times - 1);
    CHECK("a byte too little", is(a, NPSS_NO_ROOM, 0, 0, 0, 3 * times));
    free(text);
    free(room);
}

int main(int argc, char **argv) {
    if (argc != 6) return 2;
    file data = read_file(argv[1]), exclusions = read_file(argv[2]);
    npss_handle first = {0}, second = {0}, shared = {0}, closed = {0};
    check_closed();
    check_files(&first, data, exclusions);
    free(data.bytes);
    free(exclusions.bytes);
    CHECK("open", open_files(&first, argv[1], argv[2]).status == NPSS_DONE && first.is_open);
    CHECK("count", is(npss_count(&first), NPSS_DONE, 0, 0, 0, 17660));
    check_texts(&first);
    check_answers(&first);
    check_questions(&first);
    check_large(&first, strtoul(argv[5], NULL, 10));
    CHECK("one open handle", is(npss_extends(&first, &second), NPSS_CLOSED, 0, 0, 0, 0));
    CHECK("the other open handle", is(npss_extends(&second, &first), NPSS_CLOSED, 0, 0, 0, 0));
    CHECK("open the second", open_files(&second, argv[3], argv[4]).status == NPSS_DONE);
    CHECK("extends", is(npss_extends(&first, &second), NPSS_DONE, 0, 0, 0, 0));
    CHECK("breaks", is(npss_extends(&second, &first), NPSS_DIFFERENT, NPSS_LOST, 0x1DFA, 0, 0));
    CHECK("share", is(npss_share(&first, &shared), NPSS_DONE, 0, 0, 0, 0) && shared.is_open && first.is_open);
    CHECK("a closed handle is shared into an open one", is(npss_share(&closed, &shared), NPSS_CLOSED, 0, 0, 0, 0) && npss_count(&shared).length == 17660);
    CHECK("files that make none leave an open handle", is(npss_open(&shared, TEXT("0041;x\n"), TEXT("")), NPSS_DATA, NPSS_FIELD_COUNT, 0, 1, 0));
    CHECK("tables that are faulty leave it too", is(npss_open(&shared, TEXT("0041;X;Lu;0;L;0042;;;;N;;;;;\n"), TEXT("")), NPSS_TABLES, NPSS_MAPS_TO_UNASSIGNED, 0x41, 0, 0));
    check_made(&shared, NPSS_NFC, "a\xcc\x82\xcc\xa3", "\xe1\xba\xad");
    CHECK("share once more", npss_share(&second, &shared).status == NPSS_DONE && npss_count(&shared).length == 17666);
    npss_close(&second);
    CHECK("the shared one stays open", is_closed(&second) && npss_count(&shared).length == 17666);
    check_made(&shared, NPSS_NFC, LATER LATER LATER, "\xf0\x96\xb5\xa8" LATER);
    CHECK("open anew",
          open_files(&shared, argv[1], argv[2]).status == NPSS_DONE && npss_count(&shared).length == 17660);
    npss_close(&shared);
    npss_close(&first);
    return finish();
}
