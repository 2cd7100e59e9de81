/* What the files about tables share: what is asked of the library, and the methods that stand in files of their own. */
#ifndef NPSS_TABLES_H
#define NPSS_TABLES_H

#include "arguments.h"

/* A call that writes into a room, and what it is asked for. */
typedef struct maker {
    enum { KEY, CASELESS_KEY, FORM, ANSWERS, CASELESS_ANSWERS } what;
    npss_asked asked;
} maker;

static inline npss_answer call(const maker *maker, npss_handle *handle, bytes b, uint8_t *room, size_t size) {
    switch (maker->what) {
    case KEY:
        return npss_key(handle, maker->asked.form, b.at, (size_t)b.length, room, size);
    case CASELESS_KEY:
        return npss_caseless_key(handle, maker->asked.form, b.at, (size_t)b.length, room, size);
    case FORM:
        return npss_normalize(handle, maker->asked.form, b.at, (size_t)b.length, room, size);
    case CASELESS_ANSWERS:
        return npss_caseless_answers(handle, &maker->asked, b.at, (size_t)b.length, room, size);
    default:
        return npss_answers(handle, &maker->asked, b.at, (size_t)b.length, room, size);
    }
}

/* In lines.c. */
PyObject *tables_answers(PyObject *of, PyObject *const *given, Py_ssize_t count, PyObject *words);

/* In questions.c. */
PyObject *tables_is_normalized(PyObject *of, PyObject *const *given, Py_ssize_t count, PyObject *words);
PyObject *tables_equivalent(PyObject *of, PyObject *const *given, Py_ssize_t count, PyObject *words);
PyObject *tables_caseless_match(PyObject *of, PyObject *const *given, Py_ssize_t count, PyObject *words);
PyObject *tables_extends(PyObject *self, PyObject *const *given, Py_ssize_t count, PyObject *words);
PyObject *tables_first_break(PyObject *self, PyObject *const *given, Py_ssize_t count, PyObject *words);

/* In codes.c. */
PyObject *tables_property(PyObject *of, PyObject *given);
PyObject *tables_decomposition(PyObject *of, PyObject *const *given, Py_ssize_t count, PyObject *words);
PyObject *tables_composite(PyObject *of, PyObject *const *given, Py_ssize_t count);
PyObject *tables_first_unassigned(PyObject *of, PyObject *text);
PyObject *tables_folding(PyObject *of, PyObject *given);

/* In streams.c. */
PyObject *tables_stream(PyObject *of, PyObject *const *given, Py_ssize_t count, PyObject *words);

#endif
