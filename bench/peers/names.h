// What a peer of bench/names/run is: how it is made ready, and its ways to make a text's normal form.
#include <stddef.h>

#ifdef __cplusplus
extern "C" {
#endif

// Puts the form of a text into the room, of 4096 bytes: how many bytes that are, or -1 where the text is refused.
typedef long make_form(const char *text, size_t length, char *room);

extern const struct way {
    const char *name; // "form" alone, or "key", which is refused where a code point is unassigned
    make_form *make;
} ways[2];

// Whether the peer is ready for a form, `nfc` or `nfd`, by the words behind its own; the peer's version of Unicode.
const char *ready(const char *form, int count, char **words);

#ifdef __cplusplus
}
#endif
