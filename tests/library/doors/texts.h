/* What tests of single calls share: texts over the fixtures, and what an answer has to be. */
#ifndef TEXTS_H
#define TEXTS_H
#include "files.h"

/* A text and its length, as a call takes them. */
#define TEXT(literal) (const uint8_t *)(literal), sizeof(literal) - 1

/* A text whose key has other bytes: a, circumflex, dot below. */
#define MARKED "a\xcc\x82\xcc\xa3"
#define MARKED_NFC "\xe1\xba\xad"
#define MARKED_NFD "a\xcc\xa3\xcc\x82"
#define LIGATURE "\xef\xac\x81"
#define LATER "\xf0\x96\xb5\xa7" /* 16D67, assigned in the second version alone */

/* Whether an answer is this one, in each field. */
static inline int is(npss_answer a, uint32_t status, uint32_t fault, uint32_t code, uint64_t place, uint64_t length) {
    return a.status == status && a.fault == fault && a.code == code && a.place == place && a.length == length;
}
#endif
