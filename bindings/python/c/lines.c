/* The answers to lines, in pieces. */
#include "tables.h"

/* Lines are answered in pieces of so many bytes, and Python is asked after each. */
#define PIECE (1 << 20)

/* The byte that ends lines: of b"\n" or b"\0", or NULL for the first. */
static int end_of(PyObject *given, uint8_t *end) {
    char *at = "\n";
    Py_ssize_t length = 1;
    if (given && PyBytes_AsStringAndSize(given, &at, &length)) return -1;
    if (length == 1 && (*at == '\n' || *at == 0)) {
        *end = (uint8_t)*at;
        return 0;
    }
    PyErr_Format(PyExc_ValueError, "the end of lines is b'\\n' or b'\\0', not %R", given);
    return -1;
}

/* What is made of lines, as it grows. */
typedef struct answers {
    uint8_t *room;
    size_t used, size;
    int refused;
} answers;

/* Appends the answers to some whole lines. Worked on without the interpreter's lock. */
static npss_answer append(answers *made, const maker *maker, npss_handle *own, bytes lines) {
    npss_answer a;
    for (;;) {
        uint8_t *larger;
        Py_BEGIN_ALLOW_THREADS
        a = call(maker, own, lines, made->room + made->used, made->size - made->used);
        Py_END_ALLOW_THREADS
        if (a.status != NPSS_NO_ROOM) break;
        /* By half as much more, so that it is not copied at each piece. */
        made->size = made->used + (size_t)a.length + made->size / 2;
        if (!(larger = PyMem_Realloc(made->room, made->size))) {
            a.status = NPSS_MEMORY;
            break;
        }
        made->room = larger;
    }
    if (a.status == NPSS_DONE) {
        made->used += (size_t)a.length;
        made->refused |= a.fault != 0;
    }
    return a;
}

/* How many bytes the first lines have, some PIECE of them, or all that are left. */
static Py_ssize_t first_lines(bytes left, uint8_t end) {
    const uint8_t *found;
    if (left.length <= PIECE) return left.length;
    found = memchr(left.at + PIECE, end, (size_t)(left.length - PIECE));
    return found ? found - left.at + 1 : left.length;
}

/* Answers lines piece by piece; -1 where an error was raised. */
static int answer_pieces(tables *self, const maker *maker, bytes left, answers *made) {
    npss_handle own = {0, NULL};
    npss_answer a = npss_share(&self->handle, &own);
    int signalled = 0;
    made->size = (size_t)(left.length < PIECE ? left.length : PIECE) * 3 / 2 + 64;
    if (a.status == NPSS_DONE && !(made->room = PyMem_Malloc(made->size))) a.status = NPSS_MEMORY;
    while (a.status == NPSS_DONE && left.length > 0 && !(signalled = PyErr_CheckSignals())) {
        bytes lines = {left.at, first_lines(left, maker->asked.end), NULL};
        a = append(made, maker, &own, lines);
        left.at += lines.length;
        left.length -= lines.length;
    }
    npss_close(&own);
    if (a.status != NPSS_DONE) refuse(self->state, a, NULL);
    return signalled || a.status != NPSS_DONE ? -1 : 0;
}

PyObject *tables_answers(PyObject *of, PyObject *const *given, Py_ssize_t count, PyObject *words) {
    static const char *const names[] = {"lines", "form", "end", "caseless", NULL};
    tables *self = (tables *)of;
    maker maker = {ANSWERS, {0, 0}};
    answers made = {NULL, 0, 0, 0};
    PyObject *arguments[4], *written = NULL;
    int caseless;
    bytes lines;
    if (parse_arguments(given, count, words, names, 1, arguments) || form_of(self->state, arguments[1], &maker.asked.form) ||
        end_of(arguments[2], &maker.asked.end) || (caseless = flag_of(arguments[3])) < 0 || data_of(arguments[0], &lines))
        return NULL;
    if (caseless) maker.what = CASELESS_ANSWERS;
    if (!answer_pieces(self, &maker, lines, &made))
        written = PyBytes_FromStringAndSize((const char *)made.room, (Py_ssize_t)made.used);
    PyMem_Free(made.room);
    let_go(&lines);
    return written;
}
