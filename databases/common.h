/* What the extensions for databases share, of no database: the files of a version with their names and their limit, what their
 * digest is made of, forms by their words, and refusals by their names. Each extension opens files and takes memory by its
 * database's own means, and tells what went wrong as its database does. */
#ifndef NPSS_DATABASES_COMMON_H
#define NPSS_DATABASES_COMMON_H

#include <npss.h>

/* The files of a version, in the order in which npss_open_caseless takes them. A version may lack the last one: then it has no
 * bytes, and makes no caseless keys. */
enum { DATA_FILE, EXCLUSIONS_FILE, FOLDING_FILE, FILE_COUNT };
extern const char *const file_names[FILE_COUNT];

/* The most bytes of a file, and how one is opened: a pipe or a device is not waited for. */
#define MOST_OF_A_FILE 16777216
#define OPEN_A_FILE (O_RDONLY | O_NONBLOCK | O_CLOEXEC)

/* The room for why files make no version. */
#define FAULT_SIZE 128

typedef struct bytes {
    const uint8_t *at; /* NULL where a file isn't there */
    size_t length;
} bytes;

/* Whether a word may name a version, and so a folder beside others: letters, digits, dots, hyphens and underscores, fewer than
 * `size`, of which the first is no dot. */
bool is_label(const char *word, size_t size);

/* Whether an open file is a regular one of at most MOST_OF_A_FILE bytes, and how many it has. */
bool measure_file(int file, size_t *length);

/* Reads so many bytes of an open file into a room. Whether it has them. */
bool read_file(int file, uint8_t *room, size_t length);

/* How many bytes are digested for the first two files of a version, and puts them into a room: the length of the first file in
 * eight bytes from the lowest, the first file, the second. The digest is the SHA-256 of these. That of CaseFolding.txt is one of
 * its own, the SHA-256 of its bytes. */
size_t digested_size(const bytes files[FILE_COUNT]);
void put_digested(uint8_t *room, const bytes files[FILE_COUNT]);

/* Opens a handle on the version that the files make: what npss_open answers, or npss_open_caseless where there are three. */
npss_answer open_files(npss_handle *handle, const bytes files[FILE_COUNT]);

/* Whether a handle is open, and was opened with CaseFolding.txt. */
bool has_foldings(npss_handle *handle);

/* Whether keys that are stored under older tables stay keys under newer ones, where `caseless` caseless keys too: what
 * npss_extends answers, or npss_caseless_extends. NO_FOLDING where tables lack foldings that count. */
npss_answer keeps_keys(npss_handle *older, npss_handle *newer, bool caseless);

/* Whether each text of ASCII is its own key under each form. */
bool keeps_ascii(npss_handle *handle);

/* The form that a word names, in letters of either case; 0 where it names none. */
uint8_t form_named(const char *word, size_t length);

/* The name of what a newer version breaks, as an answer of npss_extends or npss_caseless_extends tells it. */
npss_name break_kind(npss_answer answer);

/* Puts into a room of FAULT_SIZE bytes why files make no version, by an answer of open_files that isn't done. */
void put_fault(char *room, npss_answer answer);

#endif
