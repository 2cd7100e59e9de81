/* codes DATA EXCLUSIONS: each call that asks a version of code points, over a fixture. The values are those of the
 * published files. */
#include "texts.h"

static void check_closed(void) {
    npss_handle closed = {0};
    uint8_t room[4] = "....";
    CHECK("property of a closed handle", is(npss_property(&closed, 'A'), NPSS_CLOSED, 0, 0, 0, 0));
    CHECK("decomposition of a closed handle", is(npss_decomposition(&closed, true, 'A', room, 4), NPSS_CLOSED, 0, 0, 0, 0));
    CHECK("composite of a closed handle", is(npss_composite(&closed, 'A', 0x30A), NPSS_CLOSED, 0, 0, 0, 0));
    CHECK("text to a closed handle", is(npss_first_unassigned(&closed, TEXT("\xff")), NPSS_CLOSED, 0, 0, 0, 0));
    CHECK("the room is as it was", !memcmp(room, "....", 4));
}

static void check_properties(npss_handle *h) {
    static const struct {
        uint32_t code, class, mapping, excluded;
    } rows[] = {
        {'A', 0, NPSS_NO_MAPPING, 0},       {0x00C5, 0, NPSS_CANONICAL, 0}, {0x0301, 230, NPSS_NO_MAPPING, 0},
        {0x0323, 220, NPSS_NO_MAPPING, 0},  {0x093C, 7, NPSS_NO_MAPPING, 0}, {0x0344, 230, NPSS_CANONICAL, 0},
        {0x0958, 0, NPSS_CANONICAL, 1},     {0x212B, 0, NPSS_CANONICAL, 0}, {0xFB01, 0, NPSS_COMPATIBILITY, 0},
        {0x1100, 0, NPSS_NO_MAPPING, 0},    {0xAC00, 0, NPSS_CANONICAL, 0}, {0xD7A3, 0, NPSS_CANONICAL, 0},
        {0xE000, 0, NPSS_NO_MAPPING, 0},
    };
    for (size_t i = 0; i < sizeof rows / sizeof *rows; i++) {
        npss_answer a = npss_property(h, rows[i].code);
        CHECK("a property", is(a, NPSS_DONE, rows[i].mapping, rows[i].class, rows[i].excluded, 0));
    }
    CHECK("an unassigned one", is(npss_property(h, 0x16D67), NPSS_UNASSIGNED, 0, 0x16D67, 0, 0));
    CHECK("the last code point", is(npss_property(h, 0x10FFFF), NPSS_UNASSIGNED, 0, 0x10FFFF, 0, 0));
    CHECK("a surrogate", is(npss_property(h, 0xD800), NPSS_UNASSIGNED, 0, 0xD800, 0, 0));
    CHECK("one behind the last", is(npss_property(h, 0x110000), NPSS_NO_CODE, 0, 0, 0, 0));
    CHECK("the largest number", is(npss_property(h, UINT32_MAX), NPSS_NO_CODE, 0, 0, 0, 0));
}

/* The bytes in a room of each length. */
static void check_decomposition(npss_handle *h, bool compat, uint32_t code, const char *made) {
    const size_t length = strlen(made);
    for (size_t size = 0; size <= length + 1; size++) {
        uint8_t room[32];
        memset(room, '.', sizeof room);
        npss_answer a = npss_decomposition(h, compat, code, room, size);
        if (size < length) {
            CHECK("no room for a decomposition", is(a, NPSS_NO_ROOM, 0, 0, 0, length) && room[0] == '.');
        } else {
            CHECK(made, is(a, NPSS_DONE, 0, 0, 0, length) && !memcmp(room, made, length) && room[length] == '.');
        }
    }
}

static void check_decompositions(npss_handle *h) {
    check_decomposition(h, false, 'A', "A");
    check_decomposition(h, false, 0x1EAD, "a\xcc\xa3\xcc\x82");
    check_decomposition(h, true, 0x1EAD, "a\xcc\xa3\xcc\x82");
    check_decomposition(h, false, 0x212B, "A\xcc\x8a");
    check_decomposition(h, false, 0xFB01, "\xef\xac\x81");
    check_decomposition(h, true, 0xFB01, "fi");
    check_decomposition(h, false, 0x0958, "\xe0\xa4\x95\xe0\xa4\xbc");
    check_decomposition(h, false, 0x0344, "\xcc\x88\xcc\x81");
    check_decomposition(h, false, 0xAC00, "\xe1\x84\x80\xe1\x85\xa1");
    check_decomposition(h, true, 0xAC01, "\xe1\x84\x80\xe1\x85\xa1\xe1\x86\xa8");
    check_decomposition(h, false, 0x10FFFF, "\xf4\x8f\xbf\xbf");
    uint8_t room[4] = "....";
    CHECK("a surrogate has none", is(npss_decomposition(h, false, 0xD800, room, 4), NPSS_NO_CODE, 0, 0, 0, 0));
    CHECK("the last surrogate", is(npss_decomposition(h, false, 0xDFFF, room, 4), NPSS_NO_CODE, 0, 0, 0, 0));
    CHECK("no code point has none", is(npss_decomposition(h, true, 0x110000, room, 4), NPSS_NO_CODE, 0, 0, 0, 0));
    CHECK("the room is as it was", !memcmp(room, "....", 4));
}

static void check_composites(npss_handle *h) {
    CHECK("a letter and its mark", is(npss_composite(h, 'A', 0x30A), NPSS_DONE, 0, 0xC5, 0, 0));
    CHECK("a composite and a mark", is(npss_composite(h, 0x1EA1, 0x302), NPSS_DONE, 0, 0x1EAD, 0, 0));
    CHECK("a leading consonant and a vowel", is(npss_composite(h, 0x1100, 0x1161), NPSS_DONE, 0, 0xAC00, 0, 0));
    CHECK("a syllable and a trailing consonant", is(npss_composite(h, 0xAC00, 0x11A8), NPSS_DONE, 0, 0xAC01, 0, 0));
    CHECK("the other way", is(npss_composite(h, 0x30A, 'A'), NPSS_DIFFERENT, 0, 0, 0, 0));
    CHECK("an excluded one", is(npss_composite(h, 0x915, 0x93C), NPSS_DIFFERENT, 0, 0, 0, 0));
    CHECK("a decomposition of non-starters", is(npss_composite(h, 0x308, 0x301), NPSS_DIFFERENT, 0, 0, 0, 0));
    CHECK("a compatibility mapping", is(npss_composite(h, 'f', 'i'), NPSS_DIFFERENT, 0, 0, 0, 0));
    CHECK("the filler of trailing consonants", is(npss_composite(h, 0xAC00, 0x11A7), NPSS_DIFFERENT, 0, 0, 0, 0));
    CHECK("the first is a surrogate", is(npss_composite(h, 0xD800, 0x30A), NPSS_NO_CODE, 0, 0, 0, 0));
    CHECK("the second is no code point", is(npss_composite(h, 'A', 0x110000), NPSS_NO_CODE, 0, 0, 0, 0));
}

static void check_texts(npss_handle *h) {
    CHECK("no text", is(npss_first_unassigned(h, TEXT("")), NPSS_DONE, 0, 0, 0, 0));
    CHECK("an assigned text", is(npss_first_unassigned(h, TEXT("a\xcc\x82\xef\xac\x81")), NPSS_DONE, 0, 0, 0, 0));
    CHECK("behind two letters", is(npss_first_unassigned(h, TEXT("\xc3\x85" "A\xf0\x96\xb5\xa7\x7f")), NPSS_UNASSIGNED, 0, 0x16D67, 3, 0));
    CHECK("not UTF-8", is(npss_first_unassigned(h, TEXT("\x7f" "A\xff")), NPSS_NOT_UTF8, 0, 0, 2, 0));
    const size_t length = 100000;
    uint8_t *text = malloc(length);
    memset(text, 'a', length);
    text[length - 1] = 'b';
    CHECK("at the end of a long text", is(npss_first_unassigned(h, text, length), NPSS_UNASSIGNED, 0, 'b', length - 1, 0));
    CHECK("a long text", is(npss_first_unassigned(h, text, length - 1), NPSS_DONE, 0, 0, 0, 0));
    free(text);
}

/* Opens a version of the ASCII characters alone, of which the last has a mapping. */
static void open_ascii(npss_handle *h, const char *mapping) {
    static char data[128 * 32];
    size_t length = 0;
    for (int code = 0; code < 128; code++)
        length += (size_t)sprintf(data + length, "%04X;X;Lo;0;L;%s;;;;N;;;;;\n", code, code == 127 ? mapping : "");
    CHECK("ASCII opens", npss_open(h, (const uint8_t *)data, length, TEXT("")).status == NPSS_DONE);
}

static void check_ascii(void) {
    static const uint8_t forms[] = {NPSS_NFD, NPSS_NFC, NPSS_NFKD, NPSS_NFKC};
    npss_handle h = {0};
    CHECK("a closed handle", is(npss_keeps_ascii(&h, NPSS_NFC), NPSS_CLOSED, 0, 0, 0, 0));
    open_ascii(&h, "");
    for (size_t i = 0; i < sizeof forms; i++) CHECK("ASCII is kept", is(npss_keeps_ascii(&h, forms[i]), NPSS_DONE, 0, 0, 0, 0));
    CHECK("no form", is(npss_keeps_ascii(&h, 'x'), NPSS_NO_FORM, 0, 0, 0, 0));
    open_ascii(&h, "0041");
    for (size_t i = 0; i < sizeof forms; i++) CHECK("ASCII that maps", is(npss_keeps_ascii(&h, forms[i]), NPSS_DIFFERENT, 0, 0, 0, 0));
    npss_close(&h);
}

int main(int argc, char **argv) {
    if (argc != 3) return 2;
    npss_handle handle = {0};
    check_closed();
    CHECK("open", open_files(&handle, argv[1], argv[2]).status == NPSS_DONE);
    check_properties(&handle);
    check_decompositions(&handle);
    check_composites(&handle);
    check_texts(&handle);
    CHECK("ASCII that isn't all assigned", is(npss_keeps_ascii(&handle, NPSS_NFC), NPSS_DIFFERENT, 0, 0, 0, 0));
    npss_close(&handle);
    check_ascii();
    return finish();
}
