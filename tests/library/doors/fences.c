/* fences DATA EXCLUSIONS DATA2 EXCLUSIONS2 FOLDING: calls of nodes, of streams and on case between fences, and with memory that is
 * refused.
 *
 * Each text and each room lies right before a page that may not be touched, or right behind one. Then each call is made with
 * its first allocation refused, its second, and so on until it is done: it answers that memory ran out, and what it works on
 * is as it was. What is allocated is counted: all of it is given back. The second version extends the first, of which FOLDING is. */
#define _GNU_SOURCE
#include "files.h"

#include <malloc.h>
#include <sys/mman.h>
#include <unistd.h>

/* a, circumflex, dot below; and its key under NFC. */
#define NAME "a\xcc\x82\xcc\xa3"
#define KEY "\xe1\xba\xad"
/* U+FFFFD, which no version assigns. */
#define UNASSIGNED "\xf3\xbf\xbf\xbd"

/* ---- memory that is refused: the C library's own calls stand behind these. */

extern void *__libc_malloc(size_t), *__libc_calloc(size_t, size_t), *__libc_realloc(void *, size_t), *__libc_memalign(size_t, size_t);
extern void __libc_free(void *);
static long left = -1; /* how many allocations are granted before one is refused; none is where it is negative */
static int refused;
static int met; /* how many calls answered that memory ran out */
static long live; /* how many blocks are allocated */
static size_t held; /* how many bytes they have */

static int refuses(void) {
    if (left < 0 || left-- > 0) return 0;
    refused = 1;
    return 1;
}

static void *counted(void *made) {
    live += made != NULL;
    held += malloc_usable_size(made);
    return made;
}

void *malloc(size_t size) {
    return refuses() ? NULL : counted(__libc_malloc(size));
}

void *calloc(size_t count, size_t size) {
    return refuses() ? NULL : counted(__libc_calloc(count, size));
}

void *realloc(void *old, size_t size) {
    if (refuses()) return NULL;
    const size_t before = malloc_usable_size(old);
    void *made = __libc_realloc(old, size);
    if (made) {
        live += old == NULL;
        held += malloc_usable_size(made) - before;
    }
    return made;
}

int posix_memalign(void **made, size_t alignment, size_t size) {
    if (refuses()) return 12; /* ENOMEM */
    *made = counted(__libc_memalign(alignment, size));
    return *made ? 0 : 12;
}

void *aligned_alloc(size_t alignment, size_t size) {
    return refuses() ? NULL : counted(__libc_memalign(alignment, size));
}

void free(void *old) {
    live -= old != NULL;
    held -= malloc_usable_size(old);
    __libc_free(old);
}

/* ---- fences */

/* So many bytes that end at a fence, or begin behind one. */
static uint8_t *fenced(size_t length, int at_end) {
    const size_t page = (size_t)sysconf(_SC_PAGESIZE), pages = (length + page - 1) / page + (length == 0);
    uint8_t *whole = mmap(NULL, (pages + 2) * page, PROT_NONE, MAP_PRIVATE | MAP_ANONYMOUS, -1, 0);
    if (whole == MAP_FAILED || mprotect(whole + page, pages * page, PROT_READ | PROT_WRITE)) exit(3);
    return whole + page + (at_end ? pages * page - length : 0);
}

static const uint8_t *fenced_text(const char *bytes, size_t length, int at_end) {
    uint8_t *made = fenced(length, at_end);
    memcpy(made, bytes, length);
    return made;
}

static int ended(npss_answer a, uint32_t status, uint64_t length) {
    return a.status == status && a.length == length;
}

/* Each call of a node, with its texts and rooms at fences. */
static void check_node(npss_handle *old, npss_handle *new, int at_end) {
    static const char message[] = "C\0\0\0\5" NAME "\0\0\0\3" KEY;
    const size_t name = sizeof NAME - 1, key = sizeof KEY - 1, whole = sizeof message - 1, image = 13 + 4 + name + 1 + 4 + key;
    const uint8_t *text = fenced_text(NAME, name, at_end), *other = fenced_text(KEY, key, at_end);
    npss_node node = {0}, away = {0};
    CHECK("a node is new", npss_node_new(&node, old, NPSS_NFC, 3).status == NPSS_DONE);
    CHECK("a string at a fence", npss_node_accept(&node, text, name).status == NPSS_DONE);
    CHECK("no string at a fence", npss_node_accept(&node, fenced(0, at_end), 0).status == NPSS_DONE && npss_node_forget(&node, text, 0).status == NPSS_DONE);
    uint8_t *room = fenced(whole, at_end);
    CHECK("a message into a room of its length", ended(npss_node_message(&node, text, name, room, whole), NPSS_DONE, whole) && !memcmp(room, message, whole));
    CHECK("into one that lacks a byte", ended(npss_node_message(&node, text, name, fenced(whole - 1, at_end), whole - 1), NPSS_NO_ROOM, whole));
    CHECK("a message at a fence", npss_node_new(&away, new, NPSS_NFC, 3).status == NPSS_DONE && npss_node_take(&away, room, whole).status == NPSS_DONE);
    for (size_t length = 0; length < whole; length++)
        CHECK("a message that is cut", npss_node_take(&away, fenced_text(message, length, at_end), length).status == NPSS_MALFORMED);
    room = fenced(key, at_end);
    CHECK("a key", ended(npss_node_key(&node, text, name, room, key), NPSS_DONE, key) && !memcmp(room, KEY, key));
    CHECK("a key without its room", ended(npss_node_key(&node, text, name, fenced(key - 1, at_end), key - 1), NPSS_NO_ROOM, key));
    room = fenced(name + key, at_end);
    CHECK("an entry", ended(npss_node_entry(&node, 0, room, name + key), NPSS_DONE, name + key) && !memcmp(room, NAME KEY, name + key));
    CHECK("an entry without its room", ended(npss_node_entry(&node, 0, fenced(1, at_end), 1), NPSS_NO_ROOM, name + key));
    CHECK("no such entry", npss_node_entry(&node, UINT64_MAX, fenced(0, at_end), 0).status == NPSS_NOT_KEPT);
    CHECK("two strings", npss_node_accept(&node, other, key).status == NPSS_DONE && npss_node_same(&node, text, name, other, key).status == NPSS_DONE);
    CHECK("one is forgotten", npss_node_forget(&node, other, key).status == NPSS_DONE);
    room = fenced(image, at_end);
    CHECK("an image", ended(npss_node_image(&node, room, image), NPSS_DONE, image));
    CHECK("an image without its room", ended(npss_node_image(&node, fenced(image - 1, at_end), image - 1), NPSS_NO_ROOM, image));
    CHECK("an image at a fence", npss_node_restore(&away, old, NPSS_NFC, 3, room, image).status == NPSS_DONE && npss_node_count(&away).length == 1);
    for (size_t length = 0; length < image; length++)
        CHECK("an image that is cut", npss_node_restore(&away, old, NPSS_NFC, 3, fenced_text((char *)room, length, at_end), length).status == NPSS_MALFORMED);
    npss_node_close(&node);
    npss_node_close(&away);
}

/* A stream whose pieces and rooms stand at fences. */
static void check_stream(npss_handle *tables, int at_end) {
    const size_t name = sizeof NAME - 1, key = sizeof KEY - 1;
    npss_stream stream = {0};
    CHECK("a stream is new", npss_stream_new(&stream, tables, NPSS_NFC).status == NPSS_DONE);
    for (size_t at = 0; at < name; at++)
        CHECK("a byte at a fence", npss_stream_feed(&stream, fenced_text(&NAME[at], 1, at_end), 1).status == NPSS_DONE);
    CHECK("its end", ended(npss_stream_finish(&stream), NPSS_DONE, key));
    for (size_t at = 0; at < key; at++) {
        uint8_t *room = fenced(1, at_end);
        CHECK("a byte is taken", ended(npss_stream_take(&stream, room, 1), NPSS_DONE, 1) && *room == (uint8_t)KEY[at]);
    }
    CHECK("no more", ended(npss_stream_take(&stream, fenced(0, at_end), 0), NPSS_DONE, 0));
    npss_stream_close(&stream);
}

/* ---- refusals */

typedef npss_answer step(void *on);

/* Makes a step with each of its allocations refused in turn; `is_as_before` is asked after each refusal. */
static void refuse_each(const char *name, step *made, int (*is_as_before)(void *), void *on) {
    for (long granted = 0; granted < 1000; granted++) {
        npss_answer a;
        left = granted;
        refused = 0;
        a = made(on);
        left = -1;
        if (!refused) {
            CHECK(name, a.status == NPSS_DONE || a.status == NPSS_UNASSIGNED);
            return;
        }
        /* A refusal that the call can do without, as of a larger buffer, may be none of its own. */
        if (a.status == NPSS_DONE) return;
        CHECK(name, a.status == NPSS_MEMORY && is_as_before(on));
        met += a.status == NPSS_MEMORY;
    }
    CHECK(name, !"its allocations end");
}

/* A node, two tables, and the image that the node had before. */
typedef struct kept {
    npss_node node;
    npss_stream stream;
    npss_handle *old, *new;
    uint8_t image[4096], saved[4096];
    size_t length, saved_length;
} kept;

static int is_same_node(void *on) {
    kept *of = on;
    uint8_t now[4096];
    npss_answer a = npss_node_image(&of->node, now, sizeof now);
    return a.status == NPSS_DONE && a.length == of->length && !memcmp(now, of->image, of->length);
}

static int is_closed_node(void *on) {
    return npss_node_count(&((kept *)on)->node).status == NPSS_CLOSED;
}

static int is_open_stream(void *on) {
    return npss_stream_take(&((kept *)on)->stream, ((kept *)on)->saved, 0).status == NPSS_DONE;
}

static int is_closed_stream(void *on) {
    return npss_stream_take(&((kept *)on)->stream, ((kept *)on)->saved, 0).status == NPSS_CLOSED;
}

static void remember(kept *of) {
    of->length = (size_t)npss_node_image(&of->node, of->image, sizeof of->image).length;
}

static npss_answer make_new(void *on) {
    kept *of = on;
    return npss_node_new(&of->node, of->old, NPSS_NFC, 9);
}

static npss_answer accept_long(void *on) {
    return npss_node_accept(&((kept *)on)->node, (const uint8_t *)NAME NAME NAME NAME NAME, 5 * (sizeof NAME - 1));
}

static npss_answer take_one(void *on) {
    static const char message[] = "C\0\0\0\5" NAME "\0\0\0\3" KEY;
    return npss_node_take(&((kept *)on)->node, (const uint8_t *)message, sizeof message - 1);
}

static npss_answer upgrade(void *on) {
    kept *of = on;
    return npss_node_upgrade(&of->node, of->new);
}

static npss_answer restore(void *on) {
    kept *of = on;
    return npss_node_restore(&of->node, of->old, NPSS_NFC, 9, of->saved, of->saved_length);
}

static npss_answer stream_new(void *on) {
    kept *of = on;
    return npss_stream_new(&of->stream, of->old, NPSS_NFC);
}

static npss_answer stream_feed(void *on) {
    return npss_stream_feed(&((kept *)on)->stream, (const uint8_t *)NAME KEY NAME, 2 * sizeof NAME + sizeof KEY - 3);
}

static npss_answer stream_finish(void *on) {
    return npss_stream_finish(&((kept *)on)->stream);
}

static void check_refusals(npss_handle *old, npss_handle *new) {
    kept of = {0};
    const long blocks = live;
    of.old = old;
    of.new = new;
    refuse_each("memory for a new node", make_new, is_closed_node, &of);
    remember(&of);
    refuse_each("memory for a node in place of one", make_new, is_same_node, &of);
    refuse_each("memory for a string", accept_long, is_same_node, &of);
    remember(&of);
    refuse_each("memory for a message's string", take_one, is_same_node, &of);
    remember(&of);
    memcpy(of.saved, of.image, of.length);
    of.saved_length = of.length;
    refuse_each("memory for an upgrade", upgrade, is_same_node, &of);
    remember(&of);
    refuse_each("memory for an image's node", restore, is_same_node, &of);
    CHECK("the image came back", npss_node_count(&of.node).length == 2);
    npss_node_close(&of.node);
    refuse_each("memory for a new stream", stream_new, is_closed_stream, &of);
    refuse_each("memory for a stream in place of one", stream_new, is_open_stream, &of);
    refuse_each("memory for a piece", stream_feed, is_open_stream, &of);
    refuse_each("memory for the end", stream_finish, is_open_stream, &of);
    npss_answer a = npss_stream_take(&of.stream, of.image, sizeof of.image);
    CHECK("the form is whole", a.length == 9 && !memcmp(of.image, KEY KEY KEY, 9));
    npss_stream_close(&of.stream);
    CHECK("each kind of call was refused memory", met >= 10);
    /* A node may hold room that it asked for before a refusal, until it is closed. */
    CHECK("nothing is lost behind a refusal", live == blocks);
}

/* What takes no memory: with each allocation refused it answers as with memory. */
static void check_without_memory(npss_handle *old, npss_handle *new) {
    static const char message[] = "C\0\0\0\5" NAME "\0\0\0\3" KEY, other[] = "D\0\0\0\1a\0\0\0\1a";
    static const char later[] = "C\0\0\0\4" UNASSIGNED "\0\0\0\4" UNASSIGNED;
    static const char ascii[] = "aAfiafAfiaAfaifAfiAaaffiAAafia";
    const uint8_t *name = (const uint8_t *)NAME, *text = (const uint8_t *)ascii, *sent = (const uint8_t *)message;
    const size_t length = sizeof NAME - 1, whole = sizeof message - 1, letters = sizeof ascii - 1;
    uint8_t room[256];
    npss_node node = {0};
    CHECK("a node", npss_node_new(&node, old, NPSS_NFC, 9).status == NPSS_DONE && npss_node_accept(&node, name, length).status == NPSS_DONE);
    CHECK("a name that changes", npss_key(old, NPSS_NFC, name, length, room, sizeof room).status == NPSS_DONE);
    left = 0;
    CHECK("the next one without memory", ended(npss_key(old, NPSS_NFC, name, length, room, sizeof room), NPSS_DONE, sizeof KEY - 1));
    CHECK("a text of ASCII without memory", ended(npss_key(old, NPSS_NFC, text, letters, room, sizeof room), NPSS_DONE, letters));
    CHECK("a cut message without memory", npss_node_take(&node, sent, whole - 1).status == NPSS_MALFORMED);
    CHECK("a message of another form without memory", npss_node_take(&node, (const uint8_t *)other, sizeof other - 1).status == NPSS_OTHER_FORM);
    CHECK("a message of a later version without memory", npss_node_take(&node, (const uint8_t *)later, sizeof later - 1).status == NPSS_UNASSIGNED);
    CHECK("a known message without memory", npss_node_take(&node, sent, whole).status == NPSS_KNOWN);
    CHECK("a known string without memory", npss_node_accept(&node, name, length).status == NPSS_KNOWN);
    CHECK("an unassigned string without memory", npss_node_accept(&node, (const uint8_t *)UNASSIGNED, 4).status == NPSS_UNASSIGNED);
    CHECK("an upgrade without memory", npss_node_upgrade(&node, new).status == NPSS_DONE);
    CHECK("a message told without memory", ended(npss_node_message(&node, name, length, room, sizeof room), NPSS_DONE, whole));
    CHECK("a key told without memory", ended(npss_node_key(&node, name, length, room, sizeof room), NPSS_DONE, sizeof KEY - 1));
    CHECK("forgetting without memory", npss_node_forget(&node, name, length).status == NPSS_DONE);
    CHECK("no more of it without memory", npss_node_same(&node, name, length, name, length).status == NPSS_NOT_KEPT);
    left = -1;
    npss_node_close(&node);
}

/* The memory of a long text is given back, and so is that of each thing that is closed or opened anew. */
static void check_given_back(npss_handle *old, npss_handle *new) {
    enum { LONG = 1 << 20 };
    static uint8_t text[LONG], room[LONG];
    npss_handle shared = {0};
    npss_node node = {0};
    npss_stream stream = {0};
    for (size_t at = 0; at + sizeof NAME - 1 <= LONG; at += sizeof NAME - 1)
        memcpy(text + at, NAME, sizeof NAME - 1);
    const size_t length = LONG - LONG % (sizeof NAME - 1);
    CHECK("a short key", npss_key(old, NPSS_NFC, text, sizeof NAME - 1, room, LONG).status == NPSS_DONE);
    const size_t before = held;
    CHECK("a long key", npss_key(old, NPSS_NFC, text, length, room, LONG).status == NPSS_DONE && held <= before);
    CHECK("a long form", npss_normalize(old, NPSS_NFD, text, length, room, LONG).status == NPSS_DONE && held <= before);
    const long blocks = live;
    for (int turn = 0; turn < 2; turn++) {
        CHECK("shared", npss_share(turn ? old : new, &shared).status == NPSS_DONE);
        CHECK("a node", npss_node_new(&node, &shared, NPSS_NFC, 3).status == NPSS_DONE);
        CHECK("what it keeps", npss_node_accept(&node, text, 1000 * (sizeof NAME - 1)).status == NPSS_DONE);
        CHECK("a stream", npss_stream_new(&stream, &shared, NPSS_NFC).status == NPSS_DONE);
        CHECK("what is pending", npss_stream_feed(&stream, text, length).status == NPSS_DONE);
    }
    npss_stream_close(&stream);
    npss_node_close(&node);
    npss_close(&shared);
    CHECK("all is given back", live == blocks && held <= before);
}

/* ---- caseless keys */

/* The files of a version with its foldings, and a handle. */
typedef struct cased {
    npss_handle handle;
    file data, exclusions, folding;
    uint8_t room[64];
} cased;

static npss_answer open_caseless(void *on) {
    cased *of = on;
    return npss_open_caseless(&of->handle, of->data.bytes, of->data.length, of->exclusions.bytes, of->exclusions.length, of->folding.bytes,
                              of->folding.length);
}

static npss_answer caseless_key(void *on) {
    cased *of = on;
    return npss_caseless_key(&of->handle, NPSS_NFKC, (const uint8_t *)"A" NAME "A", sizeof NAME + 1, of->room, sizeof of->room);
}

static npss_answer caseless_match(void *on) {
    return npss_caseless_match(&((cased *)on)->handle, true, (const uint8_t *)"A" NAME, sizeof NAME, (const uint8_t *)"a" KEY, sizeof KEY);
}

static npss_answer fold_code(void *on) {
    cased *of = on;
    return npss_folding(&of->handle, 'A', of->room, sizeof of->room);
}

static int is_closed_handle(void *on) {
    return !((cased *)on)->handle.is_open;
}

/* The handle makes caseless keys, and nothing stands in the room. */
static int is_caseless_handle(void *on) {
    cased *of = on;
    uint8_t room[1];
    npss_answer a = npss_caseless_key(&of->handle, NPSS_NFC, (const uint8_t *)"A", 1, room, 1);
    return ended(a, NPSS_DONE, 1) && room[0] == 'a' && of->room[0] == 0;
}

/* Each call on case with its texts and rooms at fences, and then with each of its allocations refused. */
static void check_caseless(file data, file exclusions, file folding) {
    cased of = {{0}, data, exclusions, folding, {0}};
    const long blocks = live;
    const size_t name = sizeof NAME - 1, key = sizeof KEY - 1;
    refuse_each("memory for three files", open_caseless, is_closed_handle, &of);
    refuse_each("memory for three files in place of others", open_caseless, is_caseless_handle, &of);
    for (int at_end = 0; at_end < 2; at_end++) {
        const uint8_t *text = fenced_text(NAME, name, at_end), *letter = fenced_text("A", 1, at_end);
        uint8_t *room = fenced(key, at_end);
        CHECK("a caseless key", ended(npss_caseless_key(&of.handle, NPSS_NFC, text, name, room, key), NPSS_DONE, key) && !memcmp(room, KEY, key));
        CHECK("one without its room", ended(npss_caseless_key(&of.handle, NPSS_NFC, text, name, room, key - 1), NPSS_NO_ROOM, key));
        CHECK("one of no text", ended(npss_caseless_key(&of.handle, NPSS_NFC, fenced(0, at_end), 0, fenced(0, at_end), 0), NPSS_DONE, 0));
        CHECK("a match", npss_caseless_match(&of.handle, false, letter, 1, fenced_text("a", 1, at_end), 1).status == NPSS_DONE);
    }
    refuse_each("memory for a match", caseless_match, is_caseless_handle, &of);
    refuse_each("memory for a folding", fold_code, is_caseless_handle, &of);
    CHECK("the folding is whole", of.room[0] == 'a' && of.room[1] == 0);
    of.room[0] = 0;
    refuse_each("memory for a caseless key", caseless_key, is_caseless_handle, &of);
    CHECK("the key is whole", !memcmp(of.room, "a" KEY "a", key + 2) && of.room[key + 2] == 0);
    npss_close(&of.handle);
    CHECK("nothing of it is lost", live == blocks);
}

int main(int argc, char **argv) {
    if (argc != 6) return 2;
    npss_handle old = {0}, new = {0};
    CHECK("open", open_files(&old, argv[1], argv[2]).status == NPSS_DONE && open_files(&new, argv[3], argv[4]).status == NPSS_DONE);
    for (int at_end = 0; at_end < 2; at_end++) {
        check_node(&old, &new, at_end);
        check_stream(&old, at_end);
    }
    check_refusals(&old, &new);
    check_without_memory(&old, &new);
    check_given_back(&old, &new);
    file data = read_file(argv[1]), exclusions = read_file(argv[2]), folding = read_file(argv[5]);
    check_caseless(data, exclusions, folding);
    free(data.bytes), free(exclusions.bytes), free(folding.bytes);
    npss_close(&old);
    npss_close(&new);
    return finish();
}
