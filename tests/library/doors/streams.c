/* streams DATA EXCLUSIONS BYTES: texts that come in pieces, over a fixture; the long ones have so many bytes. What is
 * made is compared with what npss_normalize and npss_key make of the whole text. */
#include "texts.h"

/* Marks, a ligature, three jamo, the sign of an angstrom with a dot below, marks again. */
#define MIXED MARKED "\xef\xac\x81\xe1\x84\x80\xe1\x85\xa1\xe1\x86\xa8\xe2\x84\xab\xcc\xa3" MARKED "\xcc\x81" "f"

static const uint8_t forms[] = {NPSS_NFD, NPSS_NFC, NPSS_NFKD, NPSS_NFKC};

typedef struct made {
    uint8_t *bytes;
    size_t length, size;
} made;

/* Takes all that is ready, in rooms of so many bytes; whether each answer told the truth. */
static int take_all(npss_stream *stream, made *to, size_t room) {
    for (;;) {
        if (to->size - to->length < room + 1) to->bytes = realloc(to->bytes, to->size = 2 * (to->size + room + 1));
        uint8_t *at = to->bytes + to->length;
        at[room] = '.';
        npss_answer a = npss_stream_take(stream, at, room);
        if (a.status != NPSS_DONE || a.fault || a.code || a.length > room || (a.place && a.length < room) || at[room] != '.') return 0;
        to->length += a.length;
        if (!a.place) return 1;
    }
}

/* The form of a text that came in pieces of so many bytes, the first of another length, as it is taken. */
static npss_answer stream_all(npss_handle *h, uint8_t form, const uint8_t *text, size_t length, size_t first, size_t piece,
                              size_t room, made *to) {
    npss_stream stream = {0};
    npss_answer a = npss_stream_new(&stream, h, form);
    CHECK("a new stream", is(a, NPSS_DONE, 0, 0, 0, 0) && stream.is_open);
    to->length = 0;
    for (size_t at = 0, n = first; at < length && a.status == NPSS_DONE; at += n, n = piece) {
        if (n > length - at) n = length - at;
        a = npss_stream_feed(&stream, text + at, n);
        if (room) CHECK("what is ready is taken", take_all(&stream, to, room));
    }
    if (a.status == NPSS_DONE) a = npss_stream_finish(&stream);
    CHECK("the rest is taken", take_all(&stream, to, room ? room : 1));
    npss_stream_close(&stream);
    CHECK("closed", !stream.is_open);
    return a;
}

/* Each cut of a text into two pieces, and pieces of a few bytes, give what the whole gives. */
static void check_cuts(npss_handle *h, const uint8_t *text, size_t length, uint32_t code, uint64_t place) {
    made to = {0};
    for (size_t f = 0; f < sizeof forms; f++) {
        uint8_t whole[256];
        npss_answer made = npss_normalize(h, forms[f], text, length, whole, sizeof whole);
        CHECK("the whole", made.status == NPSS_DONE);
        for (size_t first = 0; first <= length; first++) {
            for (size_t piece = 1; piece <= 4; piece++) {
                npss_answer a = stream_all(h, forms[f], text, length, first, first ? length : piece, piece - 1, &to);
                CHECK("how it ended", a.status == (code ? NPSS_UNASSIGNED : NPSS_DONE) && a.code == code && a.place == place && !a.fault);
                CHECK("what was made", to.length == made.length && !memcmp(to.bytes, whole, to.length));
            }
        }
    }
    free(to.bytes);
}

static void check_closed(npss_handle *h) {
    npss_handle closed = {0};
    npss_stream stream = {0};
    uint8_t room[4] = "....";
    CHECK("feed of a closed stream", is(npss_stream_feed(&stream, TEXT("a")), NPSS_CLOSED, 0, 0, 0, 0));
    CHECK("take of a closed stream", is(npss_stream_take(&stream, room, 4), NPSS_CLOSED, 0, 0, 0, 0));
    CHECK("finish of a closed stream", is(npss_stream_finish(&stream), NPSS_CLOSED, 0, 0, 0, 0));
    CHECK("a stream of closed tables", is(npss_stream_new(&stream, &closed, NPSS_NFC), NPSS_CLOSED, 0, 0, 0, 0) && !stream.is_open);
    CHECK("a stream of no form", is(npss_stream_new(&stream, h, 'x'), NPSS_NO_FORM, 0, 0, 0, 0) && !stream.is_open);
    npss_stream_close(&stream);
    CHECK("closed twice", !stream.is_open && !memcmp(room, "....", 4));
    CHECK("new", npss_stream_new(&stream, h, NPSS_NFC).status == NPSS_DONE);
    CHECK("feed", is(npss_stream_feed(&stream, TEXT("aa")), NPSS_DONE, 0, 0, 0, 1));
    CHECK("a stream is no table", is(npss_count((npss_handle *)&stream), NPSS_CLOSED, 0, 0, 0, 0));
    CHECK("a table is no stream", is(npss_stream_feed((npss_stream *)h, TEXT("a")), NPSS_CLOSED, 0, 0, 0, 0) && h->is_open);
    CHECK("finish", is(npss_stream_finish(&stream), NPSS_DONE, 0, 0, 0, 2));
    CHECK("feed of a finished stream", is(npss_stream_feed(&stream, TEXT("a")), NPSS_CLOSED, 0, 0, 0, 0));
    CHECK("finish of a finished stream", is(npss_stream_finish(&stream), NPSS_CLOSED, 0, 0, 0, 0));
    CHECK("take goes on", is(npss_stream_take(&stream, room, 1), NPSS_DONE, 0, 0, 1, 1) && !memcmp(room, "a...", 4));
    CHECK("no room", is(npss_stream_take(&stream, room, 0), NPSS_DONE, 0, 0, 1, 0));
    CHECK("the rest", is(npss_stream_take(&stream, room, 4), NPSS_DONE, 0, 0, 0, 1) && !memcmp(room, "a...", 4));
    CHECK("no more", is(npss_stream_take(&stream, room, 4), NPSS_DONE, 0, 0, 0, 0));
    CHECK("new again", npss_stream_new(&stream, h, NPSS_NFD).status == NPSS_DONE);
    CHECK("an empty text", is(npss_stream_finish(&stream), NPSS_DONE, 0, 0, 0, 0));
    CHECK("new once more", npss_stream_new(&stream, h, NPSS_NFC).status == NPSS_DONE);
    CHECK("a piece", is(npss_stream_feed(&stream, TEXT("aa")), NPSS_DONE, 0, 0, 0, 1));
    CHECK("new where the form is none", is(npss_stream_new(&stream, h, 0), NPSS_NO_FORM, 0, 0, 0, 0) && stream.is_open);
    CHECK("new where the tables are closed", is(npss_stream_new(&stream, &closed, NPSS_NFC), NPSS_CLOSED, 0, 0, 0, 0) && stream.is_open);
    CHECK("it goes on", is(npss_stream_finish(&stream), NPSS_DONE, 0, 0, 0, 2));
    npss_stream_close(&stream);
}

static void check_refusals(npss_handle *h) {
    npss_stream stream = {0};
    uint8_t room[16];
    CHECK("new", npss_stream_new(&stream, h, NPSS_NFC).status == NPSS_DONE);
    CHECK("a piece that is no text", is(npss_stream_feed(&stream, TEXT("aa\xff")), NPSS_NOT_UTF8, 0, 0, 2, 0));
    CHECK("a piece", is(npss_stream_feed(&stream, TEXT("aa\xcc")), NPSS_DONE, 0, 0, 0, 1));
    CHECK("what follows is no text", is(npss_stream_feed(&stream, TEXT("a")), NPSS_NOT_UTF8, 0, 0, 2, 0));
    CHECK("nor is this", is(npss_stream_feed(&stream, TEXT("\x82" "a\x80")), NPSS_NOT_UTF8, 0, 0, 5, 0));
    CHECK("nothing", is(npss_stream_feed(&stream, TEXT("")), NPSS_DONE, 0, 0, 0, 1));
    CHECK("it ends within a character", is(npss_stream_finish(&stream), NPSS_NOT_UTF8, 0, 0, 2, 0));
    CHECK("the rest of the character", is(npss_stream_feed(&stream, TEXT("\x82")), NPSS_DONE, 0, 0, 0, 1));
    CHECK("finish", is(npss_stream_finish(&stream), NPSS_DONE, 0, 0, 0, 3));
    CHECK("all of it", is(npss_stream_take(&stream, room, 16), NPSS_DONE, 0, 0, 0, 3) && !memcmp(room, "a\xc3\xa2", 3));
    CHECK("new", npss_stream_new(&stream, h, NPSS_NFC).status == NPSS_DONE);
    CHECK("the first of two", is(npss_stream_feed(&stream, TEXT("a\xf0\x96")), NPSS_DONE, 0, 0, 0, 0));
    CHECK("the rest of it", npss_stream_feed(&stream, TEXT("\xb5\xa7" "b" LATER)).status == NPSS_DONE);
    CHECK("unassigned", is(npss_stream_finish(&stream), NPSS_UNASSIGNED, 0, 0x16D67, 1, 10));
    CHECK("its form", is(npss_stream_take(&stream, room, 16), NPSS_DONE, 0, 0, 0, 10) && !memcmp(room, "a" LATER "b" LATER, 10));
    npss_stream_close(&stream);
}

/* A long text, by large and small pieces; the whole has one key. */
static void check_long(npss_handle *h, const char *unit, size_t length) {
    const size_t size = strlen(unit);
    length -= length % size;
    uint8_t *text = malloc(length), *whole = malloc(2 * length);
    for (size_t at = 0; at < length; at += size) memcpy(text + at, unit, size);
    made to = {0};
    for (size_t f = 0; f < sizeof forms; f++) {
        npss_answer key = npss_key(h, forms[f], text, length, whole, 2 * length);
        CHECK("the key of a long text", key.status == NPSS_DONE);
        static const struct { size_t piece, room; } rows[] = {{65536, 65536}, {65521, 1000}, {1000003, 0}, {13, 4096}};
        for (size_t i = 0; i < sizeof rows / sizeof *rows; i++) {
            npss_answer a = stream_all(h, forms[f], text, length, rows[i].piece, rows[i].piece, rows[i].room, &to);
            CHECK(unit, a.status == NPSS_DONE && to.length == key.length && !memcmp(to.bytes, whole, to.length));
        }
    }
    free(to.bytes);
    free(text);
    free(whole);
}

/* A text of more than 4 GiB: places count on, and a refusal tells one beyond. */
static void check_far(npss_handle *h) {
    enum { PIECE = 1 << 24, PIECES = 257 };
    uint8_t *piece = malloc(PIECE), *room = malloc(PIECE);
    uint64_t taken = 0;
    npss_stream stream = {0};
    memset(piece, 'a', PIECE);
    CHECK("new", npss_stream_new(&stream, h, NPSS_NFC).status == NPSS_DONE);
    for (int i = 0; i < PIECES; i++) {
        CHECK("a piece of a very long text", npss_stream_feed(&stream, piece, PIECE).status == NPSS_DONE);
        taken += npss_stream_take(&stream, room, PIECE).length;
    }
    const uint64_t place = (uint64_t)PIECE * PIECES;
    CHECK("all but its end was taken", place - taken <= 1);
    CHECK("no character beyond 4 GiB", is(npss_stream_feed(&stream, TEXT("\xff")), NPSS_NOT_UTF8, 0, 0, place, 0));
    CHECK("a character beyond 4 GiB", npss_stream_feed(&stream, TEXT(LATER)).status == NPSS_DONE);
    CHECK("unassigned beyond 4 GiB", is(npss_stream_finish(&stream), NPSS_UNASSIGNED, 0, 0x16D67, place, place - taken + 4));
    npss_stream_close(&stream);
    free(piece);
    free(room);
}

int main(int argc, char **argv) {
    if (argc != 4) return 2;
    const size_t length = strtoul(argv[3], NULL, 10);
    npss_handle handle = {0};
    CHECK("open", open_files(&handle, argv[1], argv[2]).status == NPSS_DONE);
    check_closed(&handle);
    check_refusals(&handle);
    check_cuts(&handle, TEXT(""), 0, 0);
    check_cuts(&handle, TEXT(MARKED MARKED), 0, 0);
    check_cuts(&handle, TEXT(MIXED), 0, 0);
    check_cuts(&handle, TEXT("AA" LATER MARKED LATER), 0x16D67, 2);
    check_cuts(&handle, TEXT("\xcc\x81\xcc\xa3\xcd\x84\xcc\xa7" "a"), 0, 0);
    check_cuts(&handle, TEXT("\xe1\x84\x80\xe1\x85\xa1\xe1\x86\xa8\xea\xb0\x80\xe1\x86\xa8"), 0, 0);
    check_long(&handle, "aaAf", length);
    check_long(&handle, MARKED "f\xe2\x84\xab", length);
    check_long(&handle, "\xcc\x81\xcc\xa3", length / 10);
    if (length > 1000000) check_far(&handle);
    npss_stream stream = {0};
    CHECK("new", npss_stream_new(&stream, &handle, NPSS_NFKC).status == NPSS_DONE);
    npss_close(&handle);
    uint8_t room[8];
    CHECK("the table lives on", is(npss_stream_feed(&stream, TEXT("\xef\xac\x81")), NPSS_DONE, 0, 0, 0, 1));
    CHECK("it ends", is(npss_stream_finish(&stream), NPSS_DONE, 0, 0, 0, 2));
    CHECK("its key", is(npss_stream_take(&stream, room, 8), NPSS_DONE, 0, 0, 0, 2) && !memcmp(room, "fi", 2));
    npss_stream_close(&stream);
    return finish();
}
