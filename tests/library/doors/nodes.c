/* nodes V1DATA V1EXCLUSIONS V2DATA V2EXCLUSIONS TIMES: each call of nodes and each of its statuses over the fixtures.
 * The bytes of messages and images are laid out by hand, as docs/FORMATS.md tells. */
#include "texts.h"

/* Numbers of four bytes, the highest first. 17,660 and 17,666 code points are assigned in the versions. */
#define N(n) "\0\0\0" n
#define FIRST_COUNT "\0\0\x44\xfc"
#define SECOND_COUNT "\0\0\x45\x02"
#define ONE_MESSAGE "C" N("\2") "fa" N("\2") "fa"
#define OTHER_MESSAGE "C" N("\5") MARKED N("\3") MARKED_NFC
#define TWO_ENTRIES N("\2") N("\2") "fa\0" N("\5") MARKED "\1" N("\3") MARKED_NFC
#define TWO_IMAGE "NPS2C" FIRST_COUNT TWO_ENTRIES

static uint8_t room[256], long_text[131088];

static int is_alone(npss_answer a, uint32_t status) {
    return is(a, status, 0, 0, 0, 0);
}

static int keeps(npss_node *node, uint64_t count) {
    return is(npss_node_count(node), NPSS_DONE, 0, 0, 0, count);
}

static int is_blank(size_t from) {
    for (size_t i = from; i < sizeof room; i++)
        if (room[i] != '.') return 0;
    return 1;
}

static void blank(void) {
    memset(room, '.', sizeof room);
}

/* Whether the room has these bytes in front, and nothing behind them. */
static int has(const char *made, size_t length) {
    return !memcmp(room, made, length) && is_blank(length);
}

/* An entry is its string and, right behind it, its key. */
static void check_entry(npss_node *node, uint64_t index, const char *string, const char *key) {
    char both[64];
    const size_t length = (size_t)snprintf(both, sizeof both, "%s%s", string, key);
    blank();
    npss_answer a = npss_node_entry(node, index, room, 64);
    CHECK(string, is(a, NPSS_DONE, 0, 0, strlen(string), length) && has(both, length));
}

/* Each call on a closed node. */
static void check_closed(npss_node *node, npss_handle *tables) {
    blank();
    CHECK("accept", is_alone(npss_node_accept(node, TEXT("a")), NPSS_CLOSED));
    CHECK("message", is_alone(npss_node_message(node, TEXT("a"), room, 64), NPSS_CLOSED));
    CHECK("take", is_alone(npss_node_take(node, TEXT(ONE_MESSAGE)), NPSS_CLOSED));
    CHECK("forget", is_alone(npss_node_forget(node, TEXT("a")), NPSS_CLOSED));
    CHECK("same", is_alone(npss_node_same(node, TEXT("a"), TEXT("a")), NPSS_CLOSED));
    CHECK("key", is_alone(npss_node_key(node, TEXT("a"), room, 64), NPSS_CLOSED));
    CHECK("entry", is_alone(npss_node_entry(node, 0, room, 64), NPSS_CLOSED));
    CHECK("count", is_alone(npss_node_count(node), NPSS_CLOSED));
    CHECK("image", is_alone(npss_node_image(node, room, 64), NPSS_CLOSED));
    CHECK("upgrade", is_alone(npss_node_upgrade(node, tables), NPSS_CLOSED));
    CHECK("version", is_alone(npss_node_version(node), NPSS_CLOSED));
    CHECK("nothing is written", is_blank(0));
}

static void check_new(npss_handle *tables) {
    npss_handle none = {0};
    npss_node node = {0};
    check_closed(&node, tables);
    npss_node_close(&node);
    CHECK("closing a closed node", !node.is_open);
    CHECK("no tables", is_alone(npss_node_new(&node, &none, 'x', 70000), NPSS_CLOSED) && !node.is_open);
    CHECK("no form", is_alone(npss_node_new(&node, tables, 'x', 70000), NPSS_NO_FORM) && !node.is_open);
    CHECK("too much room", is_alone(npss_node_new(&node, tables, NPSS_NFC, 65537), NPSS_BAD_ROOM) && !node.is_open);
    CHECK("all the room", is_alone(npss_node_new(&node, tables, NPSS_NFC, 65536), NPSS_DONE) && node.is_open);
    CHECK("one string", is_alone(npss_node_accept(&node, TEXT("a")), NPSS_DONE) && keeps(&node, 1));
    CHECK("the node is no handle", is_alone(npss_count((npss_handle *)&node), NPSS_CLOSED) && keeps(&node, 1));
    CHECK("a handle is no node", is_alone(npss_node_count((npss_node *)tables), NPSS_CLOSED));
    CHECK("the handle is as it was", npss_count(tables).length == 17660);
    CHECK("open anew", is_alone(npss_node_new(&node, tables, NPSS_NFD, 0), NPSS_DONE) && keeps(&node, 0));
    CHECK("no room at all", is_alone(npss_node_accept(&node, TEXT("a")), NPSS_FULL) && keeps(&node, 0));
    npss_node_close(&node);
    check_closed(&node, tables);
}

/* A node that was to be opened anew is as it was after each refusal. */
static void check_refused_anew(npss_handle *tables) {
    npss_handle none = {0};
    npss_node node = {0};
    CHECK("new", is_alone(npss_node_new(&node, tables, NPSS_NFC, 9), NPSS_DONE));
    CHECK("accept", is_alone(npss_node_accept(&node, TEXT("fa")), NPSS_DONE));
    CHECK("anew without tables", is_alone(npss_node_new(&node, &none, NPSS_NFC, 9), NPSS_CLOSED));
    CHECK("anew without a form", is_alone(npss_node_new(&node, tables, 'x', 9), NPSS_NO_FORM));
    CHECK("anew with too much room", is_alone(npss_node_new(&node, tables, NPSS_NFC, 65537), NPSS_BAD_ROOM));
    CHECK("restored without tables", is_alone(npss_node_restore(&node, &none, NPSS_NFC, 9, TEXT("x")), NPSS_CLOSED));
    CHECK("restored without a form", is_alone(npss_node_restore(&node, tables, 'x', 9, TEXT("x")), NPSS_NO_FORM));
    CHECK("restored with too much room", is_alone(npss_node_restore(&node, tables, NPSS_NFC, 65537, TEXT("x")), NPSS_BAD_ROOM));
    check_entry(&node, 0, "fa", "fa");
    CHECK("it is as it was", keeps(&node, 1));
    npss_node_close(&node);
}

static void check_strings(npss_handle *tables) {
    npss_node node = {0};
    CHECK("new", is_alone(npss_node_new(&node, tables, NPSS_NFC, 3), NPSS_DONE));
    CHECK("accept", is_alone(npss_node_accept(&node, TEXT("fa")), NPSS_DONE) && keeps(&node, 1));
    CHECK("known", is_alone(npss_node_accept(&node, TEXT("fa")), NPSS_KNOWN) && keeps(&node, 1));
    CHECK("too long", is_alone(npss_node_accept(&node, long_text, 65537), NPSS_TOO_LONG));
    CHECK("not UTF-8", is(npss_node_accept(&node, TEXT("fa\xff")), NPSS_NOT_UTF8, 0, 0, 2, 0));
    CHECK("unassigned", is(npss_node_accept(&node, TEXT("A" LATER)), NPSS_UNASSIGNED, 0, 0x16D67, 1, 0));
    CHECK("a NUL", is(npss_node_accept(&node, TEXT("fa\0fa")), NPSS_UNASSIGNED, 0, 0, 2, 0));
    CHECK("as it was", keeps(&node, 1));
    CHECK("another", is_alone(npss_node_accept(&node, TEXT(MARKED)), NPSS_DONE) && keeps(&node, 2));
    CHECK("as long as may be", is_alone(npss_node_accept(&node, long_text, 65536), NPSS_DONE) && keeps(&node, 3));
    CHECK("full", is_alone(npss_node_accept(&node, TEXT(MARKED_NFC)), NPSS_FULL) && keeps(&node, 3));
    CHECK("known where it is full", is_alone(npss_node_accept(&node, TEXT("fa")), NPSS_KNOWN));
    CHECK("forget", is_alone(npss_node_forget(&node, long_text, 65536), NPSS_DONE) && keeps(&node, 2));
    CHECK("forgotten", is_alone(npss_node_forget(&node, long_text, 65536), NPSS_NOT_KEPT) && keeps(&node, 2));
    CHECK("no message of what is forgotten", is_alone(npss_node_message(&node, long_text, 65536, room, 64), NPSS_NOT_KEPT));
    CHECK("no message of the empty string", is_alone(npss_node_message(&node, TEXT(""), room, 64), NPSS_NOT_KEPT));
    CHECK("forget what is no text", is_alone(npss_node_forget(&node, TEXT("\xff")), NPSS_NOT_KEPT));
    CHECK("forget what is too long", is_alone(npss_node_forget(&node, long_text, 65537), NPSS_NOT_KEPT));
    CHECK("a third", is_alone(npss_node_accept(&node, TEXT(MARKED_NFC)), NPSS_DONE) && keeps(&node, 3));
    CHECK("equivalent", is_alone(npss_node_same(&node, TEXT(MARKED), TEXT(MARKED_NFC)), NPSS_DONE));
    CHECK("different", is_alone(npss_node_same(&node, TEXT(MARKED), TEXT("fa")), NPSS_DIFFERENT));
    CHECK("the first isn't kept", is(npss_node_same(&node, TEXT("f"), TEXT("fa")), NPSS_NOT_KEPT, 1, 0, 0, 0));
    CHECK("the second isn't kept", is(npss_node_same(&node, TEXT("fa"), TEXT("\xff")), NPSS_NOT_KEPT, 2, 0, 0, 0));
    CHECK("neither is kept", is(npss_node_same(&node, TEXT("f"), TEXT("g")), NPSS_NOT_KEPT, 1, 0, 0, 0));
    CHECK("neither is a text", is(npss_node_same(&node, TEXT("\xff"), TEXT("\xff")), NPSS_NOT_KEPT, 1, 0, 0, 0));
    CHECK("forget the first", is_alone(npss_node_forget(&node, TEXT("fa")), NPSS_DONE));
    blank();
    check_entry(&node, 0, MARKED, MARKED_NFC);
    check_entry(&node, 1, MARKED_NFC, MARKED_NFC);
    blank();
    CHECK("no more", is_alone(npss_node_entry(&node, 2, room, 64), NPSS_NOT_KEPT) && is_blank(0));
    CHECK("far behind", is_alone(npss_node_entry(&node, UINT64_MAX, room, 64), NPSS_NOT_KEPT) && is_blank(0));
    for (size_t size = 0; size < 8; size++)
        CHECK("no room", is(npss_node_entry(&node, 0, room, size), NPSS_NO_ROOM, 0, 0, 5, 8) && is_blank(0));
    npss_answer a = npss_node_key(&node, TEXT(MARKED), room, 2);
    CHECK("no room for a key", is(a, NPSS_NO_ROOM, 0, 0, 0, 3) && is_blank(0));
    CHECK("no key", is_alone(npss_node_key(&node, TEXT("fa"), room, 64), NPSS_NOT_KEPT) && is_blank(0));
    CHECK("no key of no text", is_alone(npss_node_key(&node, TEXT("\xff"), room, 64), NPSS_NOT_KEPT) && is_blank(0));
    CHECK("key", is(npss_node_key(&node, TEXT(MARKED), room, 3), NPSS_DONE, 0, 0, 0, 3) && has(MARKED_NFC, 3));
    npss_node_close(&node);
    CHECK("closed", !node.is_open);
}

/* A message is written into room of its length, and not into less. */
static void check_message(npss_node *node, const char *string, const char *message, size_t length) {
    for (size_t size = 0; size <= length; size++) {
        blank();
        npss_answer a = npss_node_message(node, (const uint8_t *)string, strlen(string), room, size);
        if (size < length) {
            CHECK("no room for the message", is(a, NPSS_NO_ROOM, 0, 0, 0, length) && is_blank(0));
        } else {
            CHECK("the message", is(a, NPSS_DONE, 0, 0, 0, length) && has(message, length));
        }
    }
}

static void check_messages(npss_handle *tables) {
    npss_node node = {0}, away = {0};
    CHECK("new", is_alone(npss_node_new(&node, tables, NPSS_NFC, 9), NPSS_DONE));
    CHECK("new", is_alone(npss_node_new(&away, tables, NPSS_NFC, 2), NPSS_DONE));
    npss_node_accept(&node, TEXT("fa"));
    npss_node_accept(&node, TEXT(MARKED));
    check_message(&node, "fa", ONE_MESSAGE, sizeof ONE_MESSAGE - 1);
    check_message(&node, MARKED, OTHER_MESSAGE, sizeof OTHER_MESSAGE - 1);
    blank();
    CHECK("no message", is_alone(npss_node_message(&node, TEXT("f"), room, 64), NPSS_NOT_KEPT) && is_blank(0));
    CHECK("no text", is_alone(npss_node_message(&node, TEXT("\xff"), room, 64), NPSS_NOT_KEPT) && is_blank(0));
    CHECK("too long", is_alone(npss_node_message(&node, long_text, 65537, room, 64), NPSS_NOT_KEPT) && is_blank(0));
    for (size_t size = 0; size < sizeof ONE_MESSAGE - 1; size++) {
        uint64_t place = size < 1 ? 0 : size < 5 ? 1 : size < 7 ? 5 : size < 11 ? 7 : 11;
        npss_answer a = npss_node_take(&away, (const uint8_t *)ONE_MESSAGE, size);
        CHECK("a cut message", is(a, NPSS_MALFORMED, 0, 0, place, 0));
    }
    CHECK("a byte too many", is(npss_node_take(&away, TEXT(ONE_MESSAGE "x")), NPSS_MALFORMED, 0, 0, 13, 0));
    CHECK("zeros", is(npss_node_take(&away, TEXT(N("\0") N("\0") N("\0"))), NPSS_MALFORMED, 0, 0, 0, 0));
    CHECK("a long promise", is(npss_node_take(&away, TEXT("C\xff\xff\xff\xff" "fa")), NPSS_MALFORMED, 0, 0, 5, 0));
    CHECK("another form", is_alone(npss_node_take(&away, TEXT("D" N("\2") "fa" N("\2") "fa")), NPSS_OTHER_FORM));
    CHECK("no text", is(npss_node_take(&away, TEXT("C" N("\2") "f\xff" N("\1") "f")), NPSS_NOT_UTF8, 0, 0, 1, 0));
    npss_answer a = npss_node_take(&away, TEXT("C" N("\5") "A" LATER N("\5") "A" LATER));
    CHECK("unassigned", is(a, NPSS_UNASSIGNED, 0, 0x16D67, 1, 0));
    CHECK("another key", is_alone(npss_node_take(&away, TEXT("C" N("\2") "fa" N("\1") "f")), NPSS_KEY_DIFFERS));
    uint8_t *message = malloc(9 + 2 * 65537);
    memcpy(message, "C\0\1\0\1", 5);
    memset(message + 5, 'a', 65537);
    memcpy(message + 5 + 65537, "\0\1\0\1", 4);
    memset(message + 9 + 65537, 'a', 65537);
    CHECK("too long", is_alone(npss_node_take(&away, message, 9 + 2 * 65537), NPSS_TOO_LONG));
    free(message);
    CHECK("as it was", keeps(&away, 0));
    CHECK("taken", is_alone(npss_node_take(&away, TEXT(OTHER_MESSAGE)), NPSS_DONE) && keeps(&away, 1));
    CHECK("known", is_alone(npss_node_take(&away, TEXT(OTHER_MESSAGE)), NPSS_KNOWN) && keeps(&away, 1));
    a = npss_node_take(&away, TEXT("C" N("\5") MARKED N("\5") MARKED));
    CHECK("known, with another key", is_alone(a, NPSS_KEY_DIFFERS) && keeps(&away, 1));
    CHECK("taken", is_alone(npss_node_take(&away, TEXT(ONE_MESSAGE)), NPSS_DONE) && keeps(&away, 2));
    CHECK("full", is_alone(npss_node_take(&away, TEXT("C" N("\1") "f" N("\1") "f")), NPSS_FULL) && keeps(&away, 2));
    check_entry(&away, 0, MARKED, MARKED_NFC);
    npss_node_close(&away);
    npss_node_close(&node);
}

/* An image that is refused leaves a closed node closed, and an open one as it was. */
static void check_refused(npss_handle *tables, const char *image, size_t length, npss_answer wanted) {
    npss_node node = {0}, live = {0};
    npss_answer a = npss_node_restore(&node, tables, NPSS_NFC, 2, (const uint8_t *)image, length);
    CHECK("a refused image",
          !node.is_open && is(a, wanted.status, wanted.fault, wanted.code, wanted.place, wanted.length));
    CHECK("new", is_alone(npss_node_new(&live, tables, NPSS_NFC, 2), NPSS_DONE));
    CHECK("accept", is_alone(npss_node_accept(&live, TEXT(MARKED)), NPSS_DONE));
    a = npss_node_restore(&live, tables, NPSS_NFC, 2, (const uint8_t *)image, length);
    CHECK("a refused image over a node",
          keeps(&live, 1) && is(a, wanted.status, wanted.fault, wanted.code, wanted.place, wanted.length));
    check_entry(&live, 0, MARKED, MARKED_NFC);
    npss_node_close(&live);
}

#define REFUSED(image, status, fault, code, place, length)                                                             \
    check_refused(tables, image, sizeof(image) - 1, (npss_answer){status, fault, code, place, length})

static void check_refusals(npss_handle *tables) {
    REFUSED("", NPSS_MALFORMED, 0, 0, 0, 0);
    REFUSED("NPS3C", NPSS_MALFORMED, 0, 0, 0, 0);
    REFUSED("NPS2", NPSS_MALFORMED, 0, 0, 4, 0);
    REFUSED("NPS2C" FIRST_COUNT "\0\0\1", NPSS_MALFORMED, 0, 0, 9, 0);
    REFUSED("NPS1C\0\1\0\0\0\0\0", NPSS_MALFORMED, 0, 0, 9, 0);
    REFUSED("NPS2C" FIRST_COUNT "\0\1\0\0", NPSS_MALFORMED, 0, 0, 13, 0);
    REFUSED("NPS2C" FIRST_COUNT "\xff\xff\xff\xff" N("\1"), NPSS_MALFORMED, 0, 0, 17, 0);
    REFUSED(TWO_IMAGE "\0", NPSS_MALFORMED, 0, 0, 37, 0);
    REFUSED("NPS2C" FIRST_COUNT N("\1") N("\1") "f\2", NPSS_MALFORMED, 0, 0, 18, 0);
    REFUSED("NPS2C" FIRST_COUNT N("\1") N("\1") "f\1" N("\1") "f", NPSS_MALFORMED, 0, 0, 18, 0);
    REFUSED("NPS2d" FIRST_COUNT N("\0"), NPSS_OTHER_FORM, 0, 0, 0, 0);
    REFUSED("NPS2C" SECOND_COUNT N("\0"), NPSS_OLDER_TABLES, 0, 0, 17666, 17660);
    REFUSED("NPS2C" FIRST_COUNT N("\3") N("\1") "a\0" N("\1") "b\0" N("\1") "c\0", NPSS_FULL, 0, 0, 0, 0);
    REFUSED("NPS2C" FIRST_COUNT N("\1") N("\1") "\xff\0", NPSS_BAD_ENTRY, NPSS_NOT_UTF8, 0, 0, 0);
    REFUSED("NPS2C" FIRST_COUNT N("\2") N("\1") "f\0" N("\5") "A" LATER "\0",
            NPSS_BAD_ENTRY, NPSS_UNASSIGNED, 0x16D67, 1, 1);
    REFUSED("NPS2C" FIRST_COUNT N("\2") N("\1") "f\0" N("\5") MARKED "\0",
            NPSS_BAD_ENTRY, NPSS_KEY_DIFFERS, 0, 0, 1);
    REFUSED("NPS2C" FIRST_COUNT N("\2") N("\1") "f\0" N("\1") "f\0", NPSS_BAD_ENTRY, NPSS_MALFORMED, 0, 19, 1);
    uint8_t *image = malloc(18 + 65537);
    memcpy(image, "NPS2C" FIRST_COUNT N("\1") "\0\1\0\1", 17);
    memset(image + 17, 'a', 65537);
    image[17 + 65537] = 0;
    check_refused(tables, (const char *)image, 18 + 65537, (npss_answer){NPSS_BAD_ENTRY, NPSS_TOO_LONG, 0, 0, 0});
    free(image);
    npss_handle none = {0};
    npss_node node = {0};
    npss_answer a = npss_node_restore(&node, &none, 'x', 65537, TEXT("x"));
    CHECK("no tables", is_alone(a, NPSS_CLOSED) && !node.is_open);
    a = npss_node_restore(&node, tables, 'x', 65537, TEXT("x"));
    CHECK("no form", is_alone(a, NPSS_NO_FORM) && !node.is_open);
    a = npss_node_restore(&node, tables, NPSS_NFC, 65537, TEXT("x"));
    CHECK("too much room", is_alone(a, NPSS_BAD_ROOM) && !node.is_open);
}

static void check_images(npss_handle *tables) {
    npss_node node = {0};
    const size_t length = sizeof TWO_IMAGE - 1;
    CHECK("new", is_alone(npss_node_new(&node, tables, NPSS_NFC, 2), NPSS_DONE));
    blank();
    npss_answer a = npss_node_image(&node, room, 64);
    CHECK("nothing kept", is(a, NPSS_DONE, 0, 0, 0, 13) && has("NPS2C" FIRST_COUNT N("\0"), 13));
    npss_node_accept(&node, TEXT("fa"));
    npss_node_accept(&node, TEXT(MARKED));
    for (size_t size = 0; size <= length; size++) {
        blank();
        a = npss_node_image(&node, room, size);
        if (size < length) {
            CHECK("no room for the image", is(a, NPSS_NO_ROOM, 0, 0, 0, length) && is_blank(0));
        } else {
            CHECK("the image", is(a, NPSS_DONE, 0, 0, 0, length) && has(TWO_IMAGE, length));
        }
    }
    for (size_t size = 0; size < length; size++) {
        a = npss_node_restore(&node, tables, NPSS_NFC, 2, (const uint8_t *)TWO_IMAGE, size);
        CHECK("a cut image", a.status == NPSS_MALFORMED && a.place <= size && keeps(&node, 2));
    }
    a = npss_node_restore(&node, tables, NPSS_NFC, 2, TEXT(TWO_IMAGE));
    CHECK("restored", is_alone(a, NPSS_DONE) && keeps(&node, 2));
    check_entry(&node, 0, "fa", "fa");
    check_entry(&node, 1, MARKED, MARKED_NFC);
    CHECK("its room", is_alone(npss_node_accept(&node, TEXT("f")), NPSS_FULL));
    a = npss_node_restore(&node, tables, NPSS_NFC, 9, TEXT("NPS1C" N("\1") N("\2") "fa" N("\2") "fa"));
    CHECK("the first layout", is_alone(a, NPSS_DONE) && keeps(&node, 1));
    npss_node_close(&node);
    check_refusals(tables);
}

static void check_versions(npss_handle *first, npss_handle *second) {
    npss_handle none = {0};
    npss_node node = {0}, other = {0};
    CHECK("new", is_alone(npss_node_new(&node, first, NPSS_NFC, 9), NPSS_DONE));
    npss_node_accept(&node, TEXT(MARKED));
    CHECK("version", is(npss_node_version(&node), NPSS_DONE, 0, 0, 0, 17660));
    CHECK("no tables", is_alone(npss_node_upgrade(&node, &none), NPSS_CLOSED) && keeps(&node, 1));
    CHECK("its own version", is_alone(npss_node_upgrade(&node, first), NPSS_DONE) && keeps(&node, 1));
    CHECK("upgrade", is_alone(npss_node_upgrade(&node, second), NPSS_DONE) && keeps(&node, 1));
    CHECK("the later version", is(npss_node_version(&node), NPSS_DONE, 0, 0, 0, 17666));
    CHECK("no way back", is(npss_node_upgrade(&node, first), NPSS_DIFFERENT, NPSS_LOST, 0x1DFA, 0, 0));
    CHECK("as it was", is(npss_node_version(&node), NPSS_DONE, 0, 0, 0, 17666) && keeps(&node, 1));
    CHECK("new", is_alone(npss_node_new(&other, second, NPSS_NFC, 9), NPSS_DONE));
    npss_close(first);
    npss_close(second);
    CHECK("the tables are closed", is_alone(npss_node_accept(&node, TEXT(LATER)), NPSS_DONE) && keeps(&node, 2));
    blank();
    CHECK("key", is(npss_node_key(&node, TEXT(MARKED), room, 64), NPSS_DONE, 0, 0, 0, 3) && has(MARKED_NFC, 3));
    npss_node_close(&node);
    CHECK("the other lives on", is_alone(npss_node_take(&other, TEXT(OTHER_MESSAGE)), NPSS_DONE) && keeps(&other, 1));
    npss_node_close(&other);
}

/* So many strings, of a Hangul syllable and a code point for private use each. */
static void check_many(npss_handle *tables, uint32_t count) {
    npss_node node = {0}, again = {0};
    CHECK("new", is_alone(npss_node_new(&node, tables, NPSS_NFC, count), NPSS_DONE));
    for (uint32_t i = 0; i < count; i++) {
        const uint32_t c = 0xAC00 + i % 11172, d = 0xE000 + i / 11172;
        const uint8_t name[6] = {0xE0 | c >> 12, 0x80 | (c >> 6 & 63), 0x80 | (c & 63),
                                 0xE0 | d >> 12, 0x80 | (d >> 6 & 63), 0x80 | (d & 63)};
        CHECK("one of many", is_alone(npss_node_accept(&node, name, 6), NPSS_DONE));
    }
    CHECK("full", is_alone(npss_node_accept(&node, TEXT("a")), NPSS_FULL) && keeps(&node, count));
    const uint64_t length = 13 + 11 * (uint64_t)count;
    uint8_t *image = malloc(length);
    CHECK("its length", is(npss_node_image(&node, image, length - 1), NPSS_NO_ROOM, 0, 0, 0, length));
    CHECK("its image", is(npss_node_image(&node, image, length), NPSS_DONE, 0, 0, 0, length));
    npss_answer a = npss_node_restore(&again, tables, NPSS_NFC, count, image, length);
    CHECK("restored", is_alone(a, NPSS_DONE) && keeps(&again, count));
    free(image);
    npss_node_close(&again);
    npss_node_close(&node);
}

int main(int argc, char **argv) {
    if (argc != 6) return 2;
    npss_handle first = {0}, second = {0};
    memset(long_text, 'a', sizeof long_text);
    CHECK("open", open_files(&first, argv[1], argv[2]).status == NPSS_DONE);
    CHECK("open the second", open_files(&second, argv[3], argv[4]).status == NPSS_DONE);
    check_new(&first);
    check_refused_anew(&first);
    check_strings(&first);
    check_messages(&first);
    check_images(&first);
    const unsigned long many = strtoul(argv[5], NULL, 10) / 122;
    check_many(&first, many < 65536 ? (uint32_t)many : 65536);
    check_versions(&first, &second);
    return finish();
}
