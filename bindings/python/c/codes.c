/* What a version says of code points: for those who have to explain a key. */
#include "tables.h"

/* A code point: a number, or a str of one character. */
static int code_of(PyObject *given, uint32_t *code) {
    int past;
    long number;
    if (PyUnicode_Check(given)) {
        Py_UCS4 character;
        if (PyUnicode_GetLength(given) != 1 || (character = PyUnicode_ReadChar(given, 0)) == (Py_UCS4)-1) {
            PyErr_Format(PyExc_ValueError, "one character is wanted, not %R", given);
            return -1;
        }
        *code = character;
        return 0;
    }
    number = PyLong_AsLongAndOverflow(given, &past);
    if (number == -1 && PyErr_Occurred()) return -1;
    if (past || number < 0 || number > 0x10FFFF) {
        PyErr_Format(PyExc_ValueError, "%R is no code point", given);
        return -1;
    }
    *code = (uint32_t)number;
    return 0;
}

static PyObject *no_code(PyObject *given) {
    return PyErr_Format(PyExc_ValueError, "%R is a surrogate, which no text has", given);
}

static PyObject *mapping_name(uint32_t kind) {
    if (kind == NPSS_NO_MAPPING) Py_RETURN_NONE;
    return PyUnicode_FromString(kind == NPSS_CANONICAL ? "canonical" : "compatibility");
}

PyObject *tables_property(PyObject *of, PyObject *given) {
    tables *self = (tables *)of;
    PyObject *mapping;
    npss_answer a;
    uint32_t code;
    int assigned;
    if (code_of(given, &code)) return NULL;
    a = npss_property(&self->handle, code);
    assigned = a.status == NPSS_DONE;
    if (!assigned && a.status != NPSS_UNASSIGNED) return refuse(self->state, a, NULL);
    if (!(mapping = mapping_name(a.fault))) return NULL;
    /* "N" takes the mapping. */
    return PyObject_CallFunction(self->state->of[PROPERTY_CLASS], "OINO", assigned ? Py_True : Py_False, assigned ? a.code : 0, mapping,
                                 a.place ? Py_True : Py_False);
}

PyObject *tables_decomposition(PyObject *of, PyObject *const *given, Py_ssize_t count, PyObject *words) {
    static const char *const names[] = {"code", "compatible", NULL};
    tables *self = (tables *)of;
    uint8_t room[SMALL_ROOM]; /* a full decomposition has at most 64 code points */
    PyObject *arguments[2];
    int compatible;
    npss_answer a;
    uint32_t code;
    if (parse_arguments(given, count, words, names, 1, arguments) || code_of(arguments[0], &code) ||
        (compatible = flag_of(arguments[1])) < 0)
        return NULL;
    a = npss_decomposition(&self->handle, compatible != 0, code, room, sizeof room);
    if (a.status == NPSS_NO_CODE) return no_code(arguments[0]);
    if (a.status != NPSS_DONE) return refuse(self->state, a, NULL);
    return PyUnicode_DecodeUTF8((const char *)room, (Py_ssize_t)a.length, NULL);
}

PyObject *tables_folding(PyObject *of, PyObject *given) {
    tables *self = (tables *)of;
    uint8_t room[4 * 32]; /* a folding has at most 32 code points */
    npss_answer a;
    uint32_t code;
    if (code_of(given, &code)) return NULL;
    a = npss_folding(&self->handle, code, room, sizeof room);
    if (a.status == NPSS_UNASSIGNED) Py_RETURN_NONE;
    if (a.status == NPSS_NO_CODE) return no_code(given);
    if (a.status != NPSS_DONE) return refuse(self->state, a, NULL);
    return PyUnicode_DecodeUTF8((const char *)room, (Py_ssize_t)a.length, NULL);
}

PyObject *tables_composite(PyObject *of, PyObject *const *given, Py_ssize_t count) {
    tables *self = (tables *)of;
    uint32_t first, second;
    Py_UCS4 made;
    npss_answer a;
    if (count != 2) return PyErr_Format(PyExc_TypeError, "composite() takes two code points, %zd were given", count);
    if (code_of(given[0], &first) || code_of(given[1], &second)) return NULL;
    a = npss_composite(&self->handle, first, second);
    if (a.status == NPSS_DIFFERENT || a.status == NPSS_NO_CODE) Py_RETURN_NONE;
    if (a.status != NPSS_DONE) return refuse(self->state, a, NULL);
    made = a.code;
    return PyUnicode_DecodeUTF32((const char *)&made, sizeof made, NULL, NULL);
}

PyObject *tables_first_unassigned(PyObject *of, PyObject *text) {
    tables *self = (tables *)of;
    npss_answer a;
    bytes b;
    if (text_of(text, &b)) return NULL;
    a = npss_first_unassigned(&self->handle, b.at, (size_t)b.length);
    if (a.status == NPSS_DONE) Py_RETURN_NONE;
    return a.status == NPSS_UNASSIGNED ? refusal(self->state, a, b.at) : refuse(self->state, a, b.at);
}
