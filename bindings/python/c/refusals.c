/* What is raised where the library refuses. */
#include "npssmodule.h"

/* How many characters stand before a byte place. */
static Py_ssize_t index_at(const uint8_t *text, uint64_t place) {
    Py_ssize_t index = 0;
    for (uint64_t i = 0; i < place; i++) index += (text[i] & 0xC0) != 0x80;
    return index;
}

static const char *const file_names[] = {"data", "exclusions", "folding"};

/* Which file an answer refuses, from 0; -1 where it refuses what the first two make together, or none. */
static int refused_file(npss_answer a) {
    switch (a.status) {
    case NPSS_DATA:
        return 0;
    case NPSS_EXCLUSIONS:
        return 1;
    case NPSS_FOLDING:
    case NPSS_FOLDINGS:
        return 2;
    case NPSS_TOO_LARGE:
        return (int)a.fault - 1;
    default:
        return -1;
    }
}

static PyObject *bad_tables(const module_state *state, npss_answer a) {
    PyObject *class = state->of[BAD_TABLES];
    const int number = refused_file(a);
    const char *file = number < 0 ? "tables" : file_names[number];
    switch (a.status) {
    case NPSS_TABLES:
    case NPSS_FOLDINGS:
        return PyObject_CallFunction(class, "sOsI", file, Py_None, npss_fault_name(a.status, a.fault).text, a.code);
    case NPSS_TOO_LARGE:
        return PyObject_CallFunction(class, "sOs", file, Py_None, npss_status_name(a.status).text);
    default:
        return PyObject_CallFunction(class, "sKs", file, (unsigned long long)a.place, npss_fault_name(a.status, a.fault).text);
    }
}

/* The class of a refusal that tells nothing but itself, or a place alone; -1 of any other. */
static int plain_class(uint32_t status) {
    switch (status) {
    case NPSS_TOO_LONG:
        return TOO_LONG;
    case NPSS_FULL:
        return FULL;
    case NPSS_OTHER_FORM:
        return OTHER_FORM;
    case NPSS_KEY_DIFFERS:
        return KEY_DIFFERS;
    case NPSS_NO_FOLDING:
        return NO_FOLDING;
    default:
        return -1;
    }
}

PyObject *refusal(const module_state *state, npss_answer a, const uint8_t *text) {
    unsigned long long place = a.place, length = a.length;
    int plain = plain_class(a.status);
    if (plain >= 0) return PyObject_CallObject(state->of[plain], NULL);
    switch (a.status) {
    case NPSS_UNASSIGNED:
        return PyObject_CallFunction(state->of[UNASSIGNED], "IKn", a.code, place, index_at(text, a.place));
    case NPSS_NOT_UTF8:
        return PyObject_CallFunction(state->of[NOT_UTF8], "K", place);
    case NPSS_MALFORMED:
        return PyObject_CallFunction(state->of[MALFORMED], "K", place);
    case NPSS_OLDER_TABLES:
        return PyObject_CallFunction(state->of[OLDER_TABLES], "KK", place, length);
    case NPSS_DATA:
    case NPSS_EXCLUSIONS:
    case NPSS_TABLES:
    case NPSS_TOO_LARGE:
    case NPSS_FOLDING:
    case NPSS_FOLDINGS:
        return bad_tables(state, a);
    case NPSS_MEMORY:
        return PyErr_NoMemory();
    default:
        return PyErr_Format(PyExc_SystemError, "the library answered %u", a.status);
    }
}

static PyObject *raise(PyObject *error) {
    if (error) {
        PyErr_SetObject((PyObject *)Py_TYPE(error), error);
        Py_DECREF(error);
    }
    return NULL;
}

PyObject *refuse(const module_state *state, npss_answer a, const uint8_t *text) {
    return raise(refusal(state, a, text));
}

PyObject *refuse_files(const module_state *state, npss_answer a, PyObject *const *files) {
    const int number = refused_file(a);
    PyObject *file = number < 0 ? NULL : files[number], *error;
    const int is_path = file && (PyUnicode_Check(file) || PyObject_HasAttrString(file, "__fspath__"));
    error = refusal(state, a, NULL);
    if (error && is_path && PyObject_SetAttrString(error, "path", file)) Py_CLEAR(error);
    return raise(error);
}

/* Behind a length and what it counts. The library has told that they are there. */
static const uint8_t *behind_field(const uint8_t *at) {
    size_t length = (size_t)at[0] << 24 | (size_t)at[1] << 16 | (size_t)at[2] << 8 | at[3];
    return at + 4 + length;
}

/* The string of an entry of an image that has it (docs/FORMATS.md, "Image"). */
static const uint8_t *string_at(const uint8_t *image, uint64_t number) {
    int second = image[3] == '2';
    const uint8_t *at = image + (second ? 13 : 9);
    while (number-- > 0) {
        at = behind_field(at);
        if (!second || *at++ == 1) at = behind_field(at);
    }
    return at + 4;
}

PyObject *refuse_image(const module_state *state, npss_answer a, const uint8_t *image) {
    npss_answer of = {0};
    PyObject *cause;
    if (a.status != NPSS_BAD_ENTRY) return refuse(state, a, NULL);
    of.status = a.fault, of.code = a.code, of.place = a.place;
    if (!(cause = refusal(state, of, string_at(image, a.length)))) return NULL;
    /* "N" takes the cause. */
    return raise(PyObject_CallFunction(state->of[BAD_ENTRY], "KN", (unsigned long long)a.length, cause));
}

PyObject *break_of(const module_state *state, npss_answer a) {
    return PyObject_CallFunction(state->of[BREAK_CLASS], "sI", npss_break_name(a.fault).text, a.code);
}
