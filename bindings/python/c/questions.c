/* Questions on texts and versions. */
#include "tables.h"

/* Whether an answer says yes; -1 where an error was raised. */
static int truth_of(const module_state *state, npss_answer a) {
    if (a.status == NPSS_DONE || a.status == NPSS_DIFFERENT) return a.status == NPSS_DONE;
    refuse(state, a, NULL);
    return -1;
}

PyObject *tables_is_normalized(PyObject *of, PyObject *const *given, Py_ssize_t count, PyObject *words) {
    tables *self = (tables *)of;
    npss_handle own = {0, NULL};
    static const char *const names[] = {"text", "form", NULL};
    PyObject *arguments[2];
    npss_answer a;
    uint8_t form;
    bytes b;
    int yes;
    if (parse_arguments(given, count, words, names, 1, arguments) || form_of(self->state, arguments[1], &form) ||
        text_of(arguments[0], &b))
        return NULL;
    if (b.length <= LONG_TEXT) {
        a = npss_is_form(&self->handle, form, b.at, (size_t)b.length);
    } else if ((a = npss_share(&self->handle, &own)).status == NPSS_DONE) {
        Py_BEGIN_ALLOW_THREADS
        a = npss_is_form(&own, form, b.at, (size_t)b.length);
        npss_close(&own);
        Py_END_ALLOW_THREADS
    }
    return (yes = truth_of(self->state, a)) < 0 ? NULL : PyBool_FromLong(yes);
}

/* A question on two texts. */
typedef npss_answer question(npss_handle *, bool, const uint8_t *, size_t, const uint8_t *, size_t);

/* Asks it; long texts are compared without the interpreter's lock, on a handle of its own. */
static PyObject *compare(PyObject *of, question *ask, PyObject *const *given, Py_ssize_t count, PyObject *words) {
    static const char *const names[] = {"left", "right", "compatible", NULL};
    tables *self = (tables *)of;
    npss_handle own = {0, NULL};
    PyObject *arguments[3];
    npss_answer a;
    bytes left, right;
    int yes, compatible;
    if (parse_arguments(given, count, words, names, 2, arguments) || text_of(arguments[0], &left) || text_of(arguments[1], &right) ||
        (compatible = flag_of(arguments[2])) < 0)
        return NULL;
    if (left.length + right.length <= LONG_TEXT) {
        a = ask(&self->handle, compatible != 0, left.at, (size_t)left.length, right.at, (size_t)right.length);
    } else if ((a = npss_share(&self->handle, &own)).status == NPSS_DONE) {
        Py_BEGIN_ALLOW_THREADS
        a = ask(&own, compatible != 0, left.at, (size_t)left.length, right.at, (size_t)right.length);
        npss_close(&own);
        Py_END_ALLOW_THREADS
    }
    return (yes = truth_of(self->state, a)) < 0 ? NULL : PyBool_FromLong(yes);
}

PyObject *tables_equivalent(PyObject *of, PyObject *const *given, Py_ssize_t count, PyObject *words) {
    return compare(of, npss_equivalent, given, count, words);
}

PyObject *tables_caseless_match(PyObject *of, PyObject *const *given, Py_ssize_t count, PyObject *words) {
    return compare(of, npss_caseless_match, given, count, words);
}

/* A question on two versions. */
typedef npss_answer comparison(npss_handle *, npss_handle *);

/* The answer of two handles that may be one, of which the second has to extend the first. */
static npss_answer extension_of(tables *older, tables *newer, comparison *compare) {
    npss_handle own = {0, NULL};
    npss_answer a;
    if (older != newer) return compare(&older->handle, &newer->handle);
    a = npss_share(&older->handle, &own);
    if (a.status == NPSS_DONE) a = compare(&own, &newer->handle);
    npss_close(&own);
    return a;
}

/* Whether this version extends an older one; both handles are used under the interpreter's lock. */
static int extension(PyObject *of, PyObject *const *given, Py_ssize_t count, PyObject *words, npss_answer *a) {
    static const char *const names[] = {"older", "caseless", NULL};
    tables *self = (tables *)of;
    PyObject *arguments[2];
    int caseless;
    if (parse_arguments(given, count, words, names, 1, arguments) || (caseless = flag_of(arguments[1])) < 0) return -1;
    if (!PyObject_TypeCheck(arguments[0], (PyTypeObject *)self->state->of[TABLES_TYPE])) {
        PyErr_Format(PyExc_TypeError, "a Tables is wanted, not %R", (PyObject *)Py_TYPE(arguments[0]));
        return -1;
    }
    *a = extension_of((tables *)arguments[0], self, caseless ? npss_caseless_extends : npss_extends);
    return truth_of(self->state, *a);
}

PyObject *tables_extends(PyObject *self, PyObject *const *given, Py_ssize_t count, PyObject *words) {
    npss_answer a;
    int yes = extension(self, given, count, words, &a);
    return yes < 0 ? NULL : PyBool_FromLong(yes);
}

PyObject *tables_first_break(PyObject *self, PyObject *const *given, Py_ssize_t count, PyObject *words) {
    npss_answer a;
    int yes = extension(self, given, count, words, &a);
    if (yes < 0) return NULL;
    if (yes) Py_RETURN_NONE;
    return break_of(((tables *)self)->state, a);
}
