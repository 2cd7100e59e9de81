/* Keys and normal forms of Unicode text, from C: the proved library of this project.
 *
 * A key is a stabilized string (UAX #15, section 12): the normal form of a text, all of whose code points
 * the version of the Unicode Character Database at hand assigns. It stays the same under each later version
 * that extends this one.
 *
 *     npss_handle handle = {0};
 *     npss_answer a = npss_open(&handle, data, data_length, exclusions, exclusions_length);
 *     if (a.status == NPSS_DONE) a = npss_key(&handle, NPSS_NFC, text, text_length, room, room_length);
 *     if (a.status == NPSS_DONE) fwrite(room, 1, a.length, stdout);
 *     npss_close(&handle);
 *
 * What each call answers and leaves is proved, but for memory, times, and that MEMORY is told only where none was to be
 * had. It is proved for a caller who keeps these rules, which no proof can see:
 *
 * - No pointer is null. Where a length is 0, any address that is not null does.
 * - A pointer to bytes and its length name bytes that may be read, and of a room also written.
 * - A handle was zeros or was last touched by these calls. It isn't copied by an assignment or by memcpy.
 * - A handle has one call at a time. Two threads take two handles, which npss_share makes. The same holds of nodes.
 * - Two handles of one call are two. A room, a handle, a node and the bytes of a text don't overlap one another.
 * - No call is made from a signal handler, nor from the forked child of a process with threads.
 *
 * Memory is malloc's and free's. No call keeps a pointer to what it was lent. A refused call changes nothing but what it read:
 * a handle that was to be opened holds what it held before. */
#ifndef NPSS_H
#define NPSS_H

#include <stddef.h>
#include <stdint.h>
#ifndef __cplusplus
#include <stdbool.h>
#endif

/* The version of this header, as a text and as a number: 10,000 times the major version, 100 times the minor one, and the patch.
 * The library's name is libnpss.so.0 as long as no call, status or struct is taken away or changed. No version changes the key
 * of a text under the same two files. */
#define NPSS_VERSION "0.2.0"
#define NPSS_VERSION_NUMBER 200

#ifdef __cplusplus
extern "C" {
#endif

/* How a call ended. */
enum npss_status {
    /* What was asked for is done; or, of a question, yes. */
    NPSS_DONE = 0,
    /* The code point `code`, at byte `place` of the text, is not assigned in the version. */
    NPSS_UNASSIGNED = 1,
    /* The text is not UTF-8. Its longest front that is has `place` bytes. */
    NPSS_NOT_UTF8 = 2,
    /* What was made has `length` bytes, more than the room has. Nothing was written. */
    NPSS_NO_ROOM = 3,
    /* Memory ran out. */
    NPSS_MEMORY = 4,
    /* The handle, the node or the stream is closed, or the stream was finished. */
    NPSS_CLOSED = 5,
    /* The form is none of the four. */
    NPSS_NO_FORM = 6,
    /* UnicodeData.txt has the fault `fault` at line `place`: an `npss_file_fault`. */
    NPSS_DATA = 7,
    /* CompositionExclusions.txt has the fault NPSS_BAD_CODE at line `place`. */
    NPSS_EXCLUSIONS = 8,
    /* The tables have the fault `fault` at the code point `code`: an `npss_table_fault`. */
    NPSS_TABLES = 9,
    /* A file has more than 16,777,216 bytes: the data file where `fault` is 1, the exclusions where it is 2, the folding file
     * where it is 3. */
    NPSS_TOO_LARGE = 10,
    /* Of a question: no. Of npss_extends and npss_caseless_extends, `fault` is an `npss_break`, and `code` the code point that has
     * it. */
    NPSS_DIFFERENT = 11,
    /* The byte that is to end lines is neither 10 nor 0. */
    NPSS_NO_END = 12,
    /* The string was kept already. Nothing changed. */
    NPSS_KNOWN = 13,
    /* No such string, or no such entry, is kept. Of two strings `fault` tells which isn't, from 1: the first of
     * them. */
    NPSS_NOT_KEPT = 14,
    /* The string has more than 65,536 bytes; of npss_stream_feed, more than 18,446,744,073,709,551,615 would have come. */
    NPSS_TOO_LONG = 15,
    /* The node keeps as many strings as its room; or its room is too small for an image. */
    NPSS_FULL = 16,
    /* The bytes are no message, or no image: at byte `place` is the first field that is not whole or not allowed,
     * or the first byte left over. */
    NPSS_MALFORMED = 17,
    /* The message or image is of another form than the node. */
    NPSS_OTHER_FORM = 18,
    /* The key beside the string is not the string's key. */
    NPSS_KEY_DIFFERS = 19,
    /* The image was saved under a version with `place` assigned code points. The tables' version has fewer,
     * `length`. */
    NPSS_OLDER_TABLES = 20,
    /* Entry number `length`, from 0, of the image is refused. `fault` is the status that tells why, NPSS_TOO_LONG,
     * NPSS_NOT_UTF8, NPSS_UNASSIGNED, NPSS_KEY_DIFFERS, or NPSS_MALFORMED where an earlier entry has the string;
     * `code` and `place` are that status's. The place of NPSS_MALFORMED is the entry's first byte in the image,
     * each other place is one in the string. */
    NPSS_BAD_ENTRY = 21,
    /* A node has room for at most 65,536 strings. */
    NPSS_BAD_ROOM = 22,
    /* The number is no code point. */
    NPSS_NO_CODE = 23,
    /* CaseFolding.txt has the fault `fault` at line `place`: an `npss_folding_fault`. */
    NPSS_FOLDING = 24,
    /* The version has the fault `fault` with its foldings, at the code point `code`: an `npss_condition_fault`. */
    NPSS_FOLDINGS = 25,
    /* The handle was opened without CaseFolding.txt. Of npss_caseless_extends, `fault` tells which of the two was, from 1. */
    NPSS_NO_FOLDING = 26
};

/* Faults of a file; docs/FORMATS.md tells when each comes. */
enum npss_file_fault {
    NPSS_FIELD_COUNT = 1,
    NPSS_BAD_CODE = 2,
    NPSS_OUT_OF_ORDER = 3,
    NPSS_BAD_CATEGORY = 4,
    NPSS_BAD_CLASS = 5,
    NPSS_BAD_MAPPING = 6,
    NPSS_RANGE_OPEN = 7,
    NPSS_RANGE_LONE = 8,
    NPSS_RANGE_DIFFERS = 9,
    NPSS_RANGE_MAPS = 10
};

/* Faults of the tables that two files make. */
enum npss_table_fault {
    NPSS_MAPS_TO_UNASSIGNED = 1,
    NPSS_TOO_DEEP = 2,
    NPSS_DECOMPOSITION_TOO_LONG = 3,
    NPSS_AMBIGUOUS_PAIR = 4,
    NPSS_HANGUL_WRONG = 5
};

/* Faults of a folding file; docs/FORMATS.md tells when each comes. */
enum npss_folding_fault {
    NPSS_FOLDING_FIELD_COUNT = 1,
    NPSS_FOLDING_BAD_CODE = 2,
    NPSS_FOLDING_BAD_STATUS = 3,
    NPSS_FOLDING_OUT_OF_ORDER = 4,
    NPSS_FOLDING_STATUS_CONFLICT = 5,
    NPSS_FOLDING_BAD_MAPPING = 6
};

/* Faults of a version with its foldings. */
enum npss_condition_fault {
    NPSS_FOLDS_UNASSIGNED = 1,
    NPSS_FOLDS_TO_UNASSIGNED = 2,
    NPSS_FOLDS_AGAIN = 3,
    NPSS_FOLDED_TOO_LONG = 4,
    NPSS_NOT_FOLDED = 5
};

/* What a newer version can break of an older one, at a code point. */
enum npss_break {
    NPSS_LOST = 1,
    NPSS_CLASS_CHANGED = 2,
    NPSS_MAPPING_CHANGED = 3,
    NPSS_NOW_EXCLUDED = 4,
    NPSS_NOW_INCLUDED = 5,
    NPSS_NEW_COMPOSITE = 6,
    /* Of npss_caseless_extends alone: assigned in both, with unlike foldings. */
    NPSS_FOLDING_CHANGED = 7
};

/* The kinds of mapping of a code point. */
enum npss_mapping { NPSS_NO_MAPPING = 0, NPSS_CANONICAL = 1, NPSS_COMPATIBILITY = 2 };

/* The normalization forms. */
enum npss_form { NPSS_NFD = 'D', NPSS_NFC = 'C', NPSS_NFKD = 'd', NPSS_NFKC = 'c' };

/* How a call ended. What a status has no use for is 0. */
typedef struct npss_answer {
    uint32_t status; /* an npss_status */
    uint32_t fault;  /* the number of a fault, a break or a kind of mapping, which of the files, texts or handles is meant, from
                      * 1, 1 where a line was refused, or the status of an entry's refusal */
    uint32_t code;   /* a code point, or a combining class */
    uint64_t place;  /* a byte place from 0, a line from 1, or as NPSS_OLDER_TABLES and npss_node_entry tell */
    uint64_t length; /* bytes that were written, have no room or are ready, code points that are assigned, strings that are
                      * kept, or an entry's number */
} npss_answer;

/* A handle on the table of a version, in the caller's memory: two words. Zeros are a closed handle. */
typedef struct npss_handle {
    uint8_t is_open; /* 1 or 0; to be read alone */
    void *held;      /* none of the caller's */
} npss_handle;

/* What npss_answers and npss_caseless_answers are asked of each line. */
typedef struct npss_asked {
    uint8_t form; /* an npss_form: that of the keys */
    uint8_t end;  /* the byte that ends lines and answers: 10 or 0 */
} npss_asked;

/* Opens the handle on the version that the bytes of UnicodeData.txt and CompositionExclusions.txt make, and then lets go of
 * what it held. Where they make none it holds what it held. Takes 5 to 10 ms for the published files, and holds 3 MB: where
 * the handle was open, both tables until it is done.
 * DONE, DATA, EXCLUSIONS, TABLES, TOO_LARGE, MEMORY. */
npss_answer npss_open(npss_handle *handle, const uint8_t *data, size_t data_length,
                      const uint8_t *exclusions, size_t exclusions_length);

/* The same with the bytes of CaseFolding.txt: the handle has foldings too, and makes caseless keys. Every other call takes it
 * as ever. The first two files are judged first, then the lines of the third, then the version with its foldings: also
 * whether the three are of one version, as docs/STANDARD.md tells. Takes 12 to 25 ms for the published files, and holds 6 MB.
 * DONE, DATA, EXCLUSIONS, TABLES, FOLDING, FOLDINGS, TOO_LARGE, MEMORY. */
npss_answer npss_open_caseless(npss_handle *handle, const uint8_t *data, size_t data_length, const uint8_t *exclusions,
                               size_t exclusions_length, const uint8_t *folding, size_t folding_length);

/* Opens `other` on the version of `handle`, for another thread, and lets go of what it held: both share one table and its
 * foldings, which live as long as the longer of them. After a refusal `other` holds what it held. DONE, MEMORY, CLOSED. */
npss_answer npss_share(npss_handle *handle, npss_handle *other);

/* Writes the key of a text to the front of the room; `length` tells how many bytes it has.
 * DONE, UNASSIGNED, NOT_UTF8, NO_ROOM, MEMORY, CLOSED, NO_FORM. */
npss_answer npss_key(npss_handle *handle, uint8_t form, const uint8_t *text, size_t text_length,
                     uint8_t *room, size_t room_length);

/* Writes the normal form of a text to the front of the room, whether or not its code points are assigned.
 * DONE, NOT_UTF8, NO_ROOM, MEMORY, CLOSED, NO_FORM. */
npss_answer npss_normalize(npss_handle *handle, uint8_t form, const uint8_t *text, size_t text_length,
                           uint8_t *room, size_t room_length);

/* Writes the caseless key of a text to the front of the room; `length` tells how many bytes it has. Texts that match
 * caselessly have one, and it stays the same under each later version that extends this one with its foldings. It is made of
 * a text, or of its NFC or NFD key; the NFKC key may have another. `place` of UNASSIGNED counts in the text.
 * DONE, UNASSIGNED, NOT_UTF8, NO_ROOM, MEMORY, CLOSED, NO_FORM, NO_FOLDING. */
npss_answer npss_caseless_key(npss_handle *handle, uint8_t form, const uint8_t *text, size_t text_length,
                              uint8_t *room, size_t room_length);

/* Writes the answers to the lines of a text to the front of the room, each with the byte that ends it: `=` and the key
 * of the line, or `!` and why it has none, as docs/FORMATS.md tells. A last line without that byte is a line; an empty
 * text has none. The text needn't be UTF-8. `fault` is 1 where a line was refused, else 0; `length` tells how many bytes
 * the answers have. Takes the memory of the answers once more.
 * DONE, NO_ROOM, MEMORY, CLOSED, NO_FORM, NO_END. */
npss_answer npss_answers(npss_handle *handle, const npss_asked *asked, const uint8_t *text, size_t text_length,
                         uint8_t *room, size_t room_length);

/* As npss_answers, of the caseless keys of lines. DONE, NO_ROOM, MEMORY, CLOSED, NO_FORM, NO_END, NO_FOLDING. */
npss_answer npss_caseless_answers(npss_handle *handle, const npss_asked *asked, const uint8_t *text, size_t text_length,
                                  uint8_t *room, size_t room_length);

/* Whether a text is its own normal form. DONE (it is), DIFFERENT, NOT_UTF8, MEMORY, CLOSED, NO_FORM. */
npss_answer npss_is_form(npss_handle *handle, uint8_t form, const uint8_t *text, size_t text_length);

/* Whether each text of ASCII alone is its own key under a form, as under all published versions. A host that knows of a text
 * that it is ASCII need not ask for its key then. DONE (it is), DIFFERENT (that isn't known), CLOSED, NO_FORM. */
npss_answer npss_keeps_ascii(npss_handle *handle, uint8_t form);

/* Whether two texts are equivalent: compatible where `compat`, else canonical equivalents. Where one is not UTF-8,
 * `fault` is 1 or 2. DONE (they are), DIFFERENT, NOT_UTF8, MEMORY, CLOSED. */
npss_answer npss_equivalent(npss_handle *handle, bool compat, const uint8_t *left, size_t left_length,
                            const uint8_t *right, size_t right_length);

/* Whether two texts match caselessly (The Unicode Standard, D145; where `compat`, D146), whether or not their code points are
 * assigned. Where one is not UTF-8, `fault` is 1 or 2. DONE (they do), DIFFERENT, NOT_UTF8, MEMORY, CLOSED, NO_FOLDING. */
npss_answer npss_caseless_match(npss_handle *handle, bool compat, const uint8_t *left, size_t left_length,
                                const uint8_t *right, size_t right_length);

/* Whether the version of `newer` extends that of `older`, so that keys under the older one stay keys. Else the break
 * at the least code point. DONE (it does), DIFFERENT, CLOSED (one of the two is). */
npss_answer npss_extends(npss_handle *older, npss_handle *newer);

/* The same of versions with their foldings, so that caseless keys under the older one stay caseless keys: what the older one
 * assigns also folds alike. Of NO_FOLDING `fault` tells which of the two was opened without, from 1: the first of them.
 * DONE (it does), DIFFERENT, CLOSED (one of the two is), NO_FOLDING. */
npss_answer npss_caseless_extends(npss_handle *older, npss_handle *newer);

/* How many code points the version assigns: `length`. DONE, CLOSED. */
npss_answer npss_count(npss_handle *handle);

/* What the version says of a code point. DONE (it is assigned): `code` is its combining class, `fault` the kind of its
 * mapping, an npss_mapping, and `place` 1 where it is excluded from composition, else 0. A syllable of the Hangul
 * arithmetic has a canonical mapping. A surrogate is a code point here. UNASSIGNED (`code` is the code point), NO_CODE, CLOSED. */
npss_answer npss_property(npss_handle *handle, uint32_t code);

/* Writes the full decomposition of a code point to the front of the room, as UTF-8: the compatible one where `compat`, else
 * the canonical one. Where no mapping counts that is the code point itself, whether or not it is assigned. It is not put in
 * canonical order. `length` tells how many bytes it has. A surrogate has no UTF-8, and is NO_CODE.
 * DONE, NO_ROOM, NO_CODE, MEMORY, CLOSED. */
npss_answer npss_decomposition(npss_handle *handle, bool compat, uint32_t code, uint8_t *room, size_t room_length);

/* The primary composite of two code points: `code`. A surrogate is NO_CODE.
 * DONE, DIFFERENT (there is none), NO_CODE, CLOSED. */
npss_answer npss_composite(npss_handle *handle, uint32_t first, uint32_t second);

/* Writes what a code point folds to by itself to the front of the room, as UTF-8: the code point itself where it isn't listed.
 * `length` tells how many bytes it has. `code` of UNASSIGNED is the code point. A surrogate is NO_CODE.
 * DONE, UNASSIGNED, NO_ROOM, NO_CODE, MEMORY, CLOSED, NO_FOLDING. */
npss_answer npss_folding(npss_handle *handle, uint32_t code, uint8_t *room, size_t room_length);

/* The first code point of a text that is not assigned. Takes no memory.
 * DONE (each is assigned), UNASSIGNED, NOT_UTF8, CLOSED. */
npss_answer npss_first_unassigned(npss_handle *handle, const uint8_t *text, size_t text_length);

/* Closes the handle. A closed one stays closed. */
void npss_close(npss_handle *handle);

/* A node keeps strings, each beside its key, and compares them by it (docs/NODES.md):
 *
 *     npss_node node = {0};
 *     npss_answer a = npss_node_new(&node, &handle, NPSS_NFC, 1000);
 *     a = npss_node_accept(&node, name, name_length);
 *     if (a.status == NPSS_DONE) a = npss_node_message(&node, name, name_length, room, room_length);
 *     if (a.status == NPSS_DONE) send(room, a.length);
 *     npss_node_close(&node);
 *
 * It is in the caller's memory: two words. Zeros are a closed node. The rules for handles hold for nodes as well, and
 * a node may be handed to another thread. Messages and images are laid out as docs/FORMATS.md tells. */
typedef struct npss_node {
    uint8_t is_open; /* 1 or 0; to be read alone */
    void *held;      /* none of the caller's */
} npss_node;

/* Opens the node on the version of the tables with nothing kept, for keys of a form and with room for so many strings, and
 * lets go of what it was. The node shares the tables, which live as long as the longest of their handles and nodes.
 * In this order: CLOSED (the tables are), NO_FORM, BAD_ROOM, MEMORY, DONE. After a refusal the node is as it was. */
npss_answer npss_node_new(npss_node *node, npss_handle *tables, uint8_t form, uint32_t room);

/* The same with what an image of either layout holds. No key of the image is trusted: each is made anew. A refusal
 * for the shape, the form, the version or the room takes no memory, whatever the image promises. In this order:
 * CLOSED, NO_FORM, BAD_ROOM, MALFORMED, OTHER_FORM, OLDER_TABLES, FULL, BAD_ENTRY, DONE. MEMORY may stand in
 * place of what comes behind FULL. After a refusal the node is as it was. Where it was open, both nodes are held until the
 * new one is made. */
npss_answer npss_node_restore(npss_node *node, npss_handle *tables, uint8_t form, uint32_t room,
                              const uint8_t *image, size_t image_length);

/* Keeps a string behind the others, beside its key. Each status but DONE leaves the node as it was. A string that
 * is known takes no memory. In this order: CLOSED, TOO_LONG, NOT_UTF8, UNASSIGNED, KNOWN, FULL, MEMORY, DONE. */
npss_answer npss_node_accept(npss_node *node, const uint8_t *string, size_t string_length);

/* Writes the message that tells a kept string to the front of the room; `length` tells how many bytes it has.
 * Takes no memory. DONE, NO_ROOM, NOT_KEPT, CLOSED. */
npss_answer npss_node_message(npss_node *node, const uint8_t *string, size_t string_length,
                              uint8_t *room, size_t room_length);

/* Keeps the string of a message, where its key is right. Each status but DONE leaves the node as it was. Places of
 * NOT_UTF8 and UNASSIGNED count in the string. MEMORY may stand in place of KEY_DIFFERS and FULL too, where the
 * string isn't known. In this order: CLOSED, MALFORMED, OTHER_FORM, TOO_LONG, NOT_UTF8, UNASSIGNED, KEY_DIFFERS, KNOWN,
 * FULL, MEMORY, DONE. */
npss_answer npss_node_take(npss_node *node, const uint8_t *message, size_t message_length);

/* Forgets a string; the others keep their order. DONE (it was kept), NOT_KEPT, CLOSED. */
npss_answer npss_node_forget(npss_node *node, const uint8_t *string, size_t string_length);

/* Whether two kept strings are equivalent: compatible for NFKD and NFKC, else canonical equivalents.
 * DONE (they are), DIFFERENT, NOT_KEPT (`fault` tells which), CLOSED. */
npss_answer npss_node_same(npss_node *node, const uint8_t *left, size_t left_length,
                           const uint8_t *right, size_t right_length);

/* Writes the key of a kept string to the front of the room; `length` tells how many bytes it has.
 * DONE, NO_ROOM, NOT_KEPT, CLOSED. */
npss_answer npss_node_key(npss_node *node, const uint8_t *string, size_t string_length,
                          uint8_t *room, size_t room_length);

/* Writes the string of entry number `index`, from 0 in the order in which they were kept, to the front of the
 * room, and right behind it its key. `place` tells how many bytes the string has, `length` how many both have,
 * also where they have no room. DONE, NO_ROOM, NOT_KEPT (there are no more), CLOSED. */
npss_answer npss_node_entry(npss_node *node, uint64_t index, uint8_t *room, size_t room_length);

/* How many strings are kept: `length`. DONE, CLOSED. */
npss_answer npss_node_count(npss_node *node);

/* Writes the node's image to the front of the room, in the second layout; `length` tells how many bytes it has.
 * Takes no memory. DONE, NO_ROOM, CLOSED. */
npss_answer npss_node_image(npss_node *node, uint8_t *room, size_t room_length);

/* Moves to the version of the tables, where it extends the node's: strings and keys stay as they are. Else `fault`
 * is an `npss_break`, and `code` the code point that has it. DONE, DIFFERENT, MEMORY, CLOSED (the node or the
 * tables are). */
npss_answer npss_node_upgrade(npss_node *node, npss_handle *tables);

/* How many code points the node's version assigns: `length`. DONE, CLOSED. */
npss_answer npss_node_version(npss_node *node);

/* Closes the node. A closed one stays closed. */
void npss_node_close(npss_node *node);

/* A stream makes the normal form of a text that comes in pieces, in the memory of a piece, of its longest run of
 * non-starters and of what is ready and wasn't taken. The form can be taken as it becomes ready:
 *
 *     npss_stream stream = {0};
 *     npss_answer a = npss_stream_new(&stream, &handle, NPSS_NFC);
 *     while (a.status == NPSS_DONE && (n = fread(piece, 1, sizeof piece, in)) > 0) {
 *         a = npss_stream_feed(&stream, piece, n);
 *         while ((t = npss_stream_take(&stream, room, sizeof room)).length > 0) fwrite(room, 1, t.length, out);
 *     }
 *     if (a.status == NPSS_DONE) a = npss_stream_finish(&stream);
 *     while ((t = npss_stream_take(&stream, room, sizeof room)).length > 0) fwrite(room, 1, t.length, out);
 *     npss_stream_close(&stream);
 *
 * It is in the caller's memory: two words. Zeros are a closed stream. The rules for handles hold for streams as well. A
 * stream may be handed to another thread. After a refusal it is as it was before the call, and may go on. */
typedef struct npss_stream {
    uint8_t is_open; /* 1 or 0; to be read alone */
    void *held;      /* none of the caller's */
} npss_stream;

/* Opens the stream at the front of a text, under the version of the tables, and lets go of what it was. It shares the tables,
 * which live as long as the longest of their handles and streams. After a refusal it is as it was.
 * DONE, MEMORY, CLOSED (the tables are), NO_FORM. */
npss_answer npss_stream_new(npss_stream *stream, npss_handle *tables, uint8_t form);

/* Goes on with the next piece of the text, which may begin and end within a character. `length` tells how many bytes of the
 * form are ready. NOT_UTF8: what came and the piece begin no text; the longest front of them that is one has `place` bytes.
 * DONE, NOT_UTF8, TOO_LONG, MEMORY, CLOSED (also of a stream that was finished). */
npss_answer npss_stream_feed(npss_stream *stream, const uint8_t *piece, size_t piece_length);

/* Writes as much as fits of what is ready to the front of the room, which may end within a character: `length` bytes.
 * `place` tells how many are still ready. DONE, CLOSED. */
npss_answer npss_stream_take(npss_stream *stream, uint8_t *room, size_t room_length);

/* Ends the text: what was held back is ready too. `length` tells how many bytes are ready. DONE: all that was and will be
 * taken is the key of the text. UNASSIGNED: it is the normal form of the text, which has no key; `code` and `place`
 * tell the first code point of the whole text that is not assigned. NOT_UTF8: the text ends within a character, at
 * `place`, and the stream goes on. DONE, UNASSIGNED, NOT_UTF8, MEMORY, CLOSED (also of a stream that was finished). */
npss_answer npss_stream_finish(npss_stream *stream);

/* Closes the stream. A closed one stays closed. */
void npss_stream_close(npss_stream *stream);

/* The names of the numbers above, as the programs print them: ASCII that ends in NUL. A number that the library doesn't answer
 * has an empty one. A library that is later than this header names what it has more.
 *
 *     printf("%s %s\n", npss_status_name(a.status).text, npss_fault_name(a.status, a.fault).text);
 *
 * So it may be written from C11 on, and in C++; in C99 the name is first kept in a variable. Any thread may ask at any time. */
typedef struct npss_name {
    char text[32]; /* the name, and NULs to the end, at least one */
} npss_name;

/* The name of an npss_status: that of NPSS_NOT_UTF8 is `NotUtf8`. */
npss_name npss_status_name(uint32_t status);

/* The name of the `fault` of an answer: of DATA and EXCLUSIONS that of an npss_file_fault, of TABLES of an npss_table_fault, of
 * FOLDING of an npss_folding_fault, of FOLDINGS of an npss_condition_fault; of any other status empty. That of
 * NPSS_FIELD_COUNT is `FieldCount`, and that of NPSS_DECOMPOSITION_TOO_LONG `TooLong`. */
npss_name npss_fault_name(uint32_t status, uint32_t fault);

/* The name of an npss_break: that of NPSS_CLASS_CHANGED is `ClassChanged`. */
npss_name npss_break_name(uint32_t kind);

/* The name of an npss_form: `nfd`, `nfc`, `nfkd` or `nfkc`. */
npss_name npss_form_name(uint8_t form);

#ifdef __cplusplus
}
#endif
#endif
