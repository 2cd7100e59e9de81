/* What the files of the module share. It stands on CPython's stable ABI, from version 3.10 on. */
#ifndef NPSS_MODULE_H
#define NPSS_MODULE_H

#define PY_SSIZE_T_CLEAN
#define Py_LIMITED_API 0x030A0000
#include <Python.h>
#include <npss.h>
#include <stddef.h>
#include <string.h>
#include <structmember.h>

/* Texts of more bytes are worked on without the interpreter's lock. */
#define LONG_TEXT 4096
/* The room on the stack for what is made of others. */
#define SMALL_ROOM 6144

/* The objects that each interpreter has of its own. */
enum member {
    /* The names of the forms, interned, so that mostly the object tells: in the order of `form_names`. */
    FORM_NAME,
    FORM_NAMES = 8,
    /* The bytes of a file, from npss._files. */
    CONTENTS = FORM_NAMES,
    /* What is raised, from npss._errors, in the order of `error_names`. */
    BAD_TABLES,
    REFUSED,
    NO_FOLDING,
    TOO_LONG,
    NOT_UTF8,
    UNASSIGNED,
    FULL,
    MALFORMED,
    OTHER_FORM,
    KEY_DIFFERS,
    OLDER_TABLES,
    BAD_ENTRY,
    /* The members of npss._accepted.Accepted. */
    KEPT,
    KNOWN,
    /* The classes of npss._values. */
    BREAK_CLASS,
    ENTRY_CLASS,
    PROPERTY_CLASS,
    /* The module's own types. */
    TABLES_TYPE,
    NODE_TYPE,
    NODE_ITERATOR_TYPE,
    STREAM_TYPE,
    MEMBERS
};

typedef struct module_state {
    PyObject *of[MEMBERS];
} module_state;

typedef struct tables {
    PyObject_HEAD
    const module_state *state;
    PyObject *weak; /* the weak references to it */
    npss_handle handle;
    uint64_t keeps_ascii; /* under which forms each text of ASCII is its own key: `bit_of` each */
    uint8_t folds_ascii;  /* whether the caseless key of a text of ASCII is its characters, each as `folded` has it */
    uint8_t folded[128];
} tables;

/* Bytes that are lent, and what has to be let go afterwards; NULL where that is nothing. */
typedef struct bytes {
    const uint8_t *at;
    Py_ssize_t length;
    PyObject *owner;
} bytes;

extern PyType_Spec tables_spec, node_spec, node_iterator_spec, stream_spec;

/* The members of a type whose objects may have weak references, which stand in `weak`. */
#define WEAK_MEMBERS(type)                                                                  \
    {                                                                                       \
        {"__weaklistoffset__", T_PYSSIZET, offsetof(type, weak), READONLY, NULL}, {NULL, 0, 0, 0, NULL}, \
    }

/* The exception of an answer that is not done; NULL where an error was raised. `text` has the bytes in which a place counts. */
PyObject *refusal(const module_state *state, npss_answer a, const uint8_t *text);

/* Raises what an answer tells that is not done, and answers NULL. */
PyObject *refuse(const module_state *state, npss_answer a, const uint8_t *text);

/* The same of an image; `image` has its bytes. */
PyObject *refuse_image(const module_state *state, npss_answer a, const uint8_t *image);
/* The same of files that make no version; which were named is told with their names. */
PyObject *refuse_files(const module_state *state, npss_answer a, PyObject *const *files);

/* The first break, which an answer tells. */
PyObject *break_of(const module_state *state, npss_answer a);

#endif
