/* What a call was given: texts, strings, data, forms, arguments by place or by name. */
#ifndef NPSS_ARGUMENTS_H
#define NPSS_ARGUMENTS_H

#include "npssmodule.h"

/* Lets go what stood behind bytes. */
static inline void let_go(bytes *lent) {
    Py_CLEAR(lent->owner);
}

/* The UTF-8 of a str; of one with a lone surrogate UnicodeEncodeError. */
static inline int text_of(PyObject *text, bytes *found) {
    found->owner = NULL;
    found->at = (const uint8_t *)PyUnicode_AsUTF8AndSize(text, &found->length);
    if (found->at) return 0;
    if (!PyUnicode_Check(text))
        PyErr_Format(PyExc_TypeError, "a str is wanted, not %R", (PyObject *)Py_TYPE(text));
    return -1;
}

/* Bytes, or what lends some (bytearray, memoryview), of which a copy is kept. */
static inline int data_of(PyObject *data, bytes *found) {
    char *at;
    if (PyBytes_Check(data)) {
        Py_INCREF(data);
        found->owner = data;
    } else {
        PyObject *view = PyMemoryView_FromObject(data);
        if (!view) {
            if (PyErr_ExceptionMatches(PyExc_TypeError))
                PyErr_Format(PyExc_TypeError, "bytes are wanted, not %R", (PyObject *)Py_TYPE(data));
            return -1;
        }
        found->owner = PyBytes_FromObject(view);
        Py_DECREF(view);
        if (!found->owner) return -1;
    }
    if (PyBytes_AsStringAndSize(found->owner, &at, &found->length)) return -1;
    found->at = (const uint8_t *)at;
    return 0;
}

/* A string: a str, or bytes where it comes from elsewhere. */
static inline int string_of(PyObject *string, bytes *found) {
    if (PyUnicode_Check(string)) return text_of(string, found);
    if (!data_of(string, found)) return 0;
    if (PyErr_ExceptionMatches(PyExc_TypeError))
        PyErr_Format(PyExc_TypeError, "a str or bytes are wanted, not %R", (PyObject *)Py_TYPE(string));
    return -1;
}

/* Whether a flag was given and is true; -1 where an error was raised. */
static inline int flag_of(PyObject *given) {
    return given ? PyObject_IsTrue(given) : 0;
}

static const struct {
    const char *name;
    uint8_t form;
} form_names[FORM_NAMES] = {
    {"nfc", NPSS_NFC}, {"nfd", NPSS_NFD}, {"nfkc", NPSS_NFKC}, {"nfkd", NPSS_NFKD},
    {"NFC", NPSS_NFC}, {"NFD", NPSS_NFD}, {"NFKC", NPSS_NFKC}, {"NFKD", NPSS_NFKD},
};

/* The form of a name; NULL is NFC. Mostly the object tells, since a program's own words are interned. */
static inline int form_of(const module_state *state, PyObject *name, uint8_t *form) {
    *form = NPSS_NFC;
    if (!name) return 0;
    for (size_t i = 0; i < FORM_NAMES; i++) {
        if (name == state->of[FORM_NAME + i]) {
            *form = form_names[i].form;
            return 0;
        }
    }
    if (!PyUnicode_Check(name)) {
        PyErr_Format(PyExc_TypeError, "a form is a str, not %R", (PyObject *)Py_TYPE(name));
        return -1;
    }
    for (size_t i = 0; i < FORM_NAMES; i++) {
        if (!PyUnicode_CompareWithASCIIString(name, form_names[i].name)) {
            *form = form_names[i].form;
            return 0;
        }
    }
    PyErr_Format(PyExc_ValueError, "a form is 'nfc', 'nfd', 'nfkc' or 'nfkd', not %R", name);
    return -1;
}

/* The arguments by name, behind those by place, which stand there already. */
static int parse_named(PyObject *const *given, PyObject *words, const char *const *names, PyObject **arguments) {
    Py_ssize_t named = words ? PyTuple_Size(words) : 0;
    for (Py_ssize_t i = 0; i < named; i++) {
        PyObject *word = PyTuple_GetItem(words, i);
        Py_ssize_t at = 0;
        while (names[at] && PyUnicode_CompareWithASCIIString(word, names[at])) at++;
        if (!names[at] || arguments[at]) {
            PyErr_Format(PyExc_TypeError, names[at] ? "%R was given twice" : "there is no argument %R", word);
            return -1;
        }
        arguments[at] = given[i];
    }
    return 0;
}

/* The arguments by place or by name; `names` ends in NULL. The first `least` must be there. */
static inline int parse_arguments(PyObject *const *given, Py_ssize_t count, PyObject *words, const char *const *names,
                                  Py_ssize_t least, PyObject **arguments) {
    Py_ssize_t most = 0;
    while (names[most]) {
        arguments[most] = most < count ? given[most] : NULL;
        most++;
    }
    if (count > most) {
        PyErr_Format(PyExc_TypeError, "at most %zd arguments are taken, %zd were given", most, count);
        return -1;
    }
    if (words && parse_named(given + count, words, names, arguments)) return -1;
    for (Py_ssize_t i = 0; i < least; i++) {
        if (!arguments[i]) {
            PyErr_Format(PyExc_TypeError, "the argument '%s' is wanted", names[i]);
            return -1;
        }
    }
    return 0;
}

#endif
