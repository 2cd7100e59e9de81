/* Tables: keys, normal forms and questions under one version. */
#include "tables.h"

/* After so many texts of a list Python is asked whether a signal came. */
#define TEXTS 1024

/* The str of what was made of a text; the text itself where that has the same bytes. */
static inline PyObject *str_of(PyObject *text, bytes b, const uint8_t *made, uint64_t length) {
    if (length == (uint64_t)b.length && !memcmp(made, b.at, (size_t)length)) {
        Py_INCREF(text);
        return text;
    }
    return PyUnicode_DecodeUTF8((const char *)made, (Py_ssize_t)length, NULL);
}

/* What a call makes of bytes, in a room of its own, which the caller frees; NULL where an error was raised. `size` is
 * its first size. Worked on without the interpreter's lock, on a handle of its own, since others may call meanwhile. */
static uint8_t *make_long(tables *self, const maker *maker, bytes b, size_t size, npss_answer *a) {
    npss_handle own = {0, NULL};
    uint8_t *room = NULL;
    *a = npss_share(&self->handle, &own);
    if (a->status == NPSS_DONE) a->status = NPSS_NO_ROOM, a->length = size;
    while (a->status == NPSS_NO_ROOM) {
        PyMem_Free(room);
        size = (size_t)a->length;
        if (!(room = PyMem_Malloc(size))) {
            a->status = NPSS_MEMORY;
        } else {
            Py_BEGIN_ALLOW_THREADS *a = call(maker, &own, b, room, size);
            Py_END_ALLOW_THREADS
        }
    }
    npss_close(&own);
    if (a->status == NPSS_DONE) return room;
    PyMem_Free(room);
    refuse(self->state, *a, b.at);
    return NULL;
}

/* A bit of a form's own: the letters of the four differ in their last six bits. */
static inline uint64_t bit_of(uint8_t form) {
    return UINT64_C(1) << (form & 63);
}

/* Whether a text is ASCII: it has as many bytes as code points. */
static inline int is_ascii(PyObject *text, bytes b) {
    return PyUnicode_GetLength(text) == b.length;
}

/* Whether a text is known to be its own key, and so its own form. */
static inline int stays(const tables *self, const maker *maker, PyObject *text, bytes b) {
    return maker->what != CASELESS_KEY && (self->keeps_ascii & bit_of(maker->asked.form)) && is_ascii(text, b);
}

/* Whether the caseless key of a text is known to be its characters, each folded. */
static inline int folds(const tables *self, const maker *maker, PyObject *text, bytes b) {
    return maker->what == CASELESS_KEY && self->folds_ascii && b.length <= SMALL_ROOM && is_ascii(text, b);
}

/* What a call makes of a text. */
static PyObject *make(tables *self, const maker *maker, PyObject *text) {
    uint8_t small[SMALL_ROOM], *room;
    PyObject *made;
    npss_answer a;
    bytes b;
    if (text_of(text, &b)) return NULL;
    if (stays(self, maker, text, b)) {
        Py_INCREF(text);
        return text;
    }
    if (folds(self, maker, text, b)) {
        for (Py_ssize_t i = 0; i < b.length; i++) small[i] = self->folded[b.at[i]];
        return str_of(text, b, small, (uint64_t)b.length);
    }
    if (b.length <= LONG_TEXT) {
        a = call(maker, &self->handle, b, small, sizeof small);
        if (a.status == NPSS_DONE) return str_of(text, b, small, a.length);
        if (a.status != NPSS_NO_ROOM) return refuse(self->state, a, b.at);
    }
    if (!(room = make_long(self, maker, b, (size_t)b.length + (size_t)b.length / 2, &a))) return NULL;
    made = str_of(text, b, room, a.length);
    PyMem_Free(room);
    return made;
}

/* What kind of key is asked for; -1 where an error was raised. */
static int kind_of(PyObject *caseless, maker *maker) {
    int yes = flag_of(caseless);
    maker->what = yes > 0 ? CASELESS_KEY : KEY;
    return yes < 0 ? -1 : 0;
}

static PyObject *tables_key(PyObject *self, PyObject *const *given, Py_ssize_t count, PyObject *words) {
    static const char *const names[] = {"text", "form", "caseless", NULL};
    maker key = {KEY, {0, 0}};
    PyObject *arguments[3];
    if (parse_arguments(given, count, words, names, 1, arguments) || form_of(((tables *)self)->state, arguments[1], &key.asked.form) ||
        kind_of(arguments[2], &key))
        return NULL;
    return make((tables *)self, &key, arguments[0]);
}

static PyObject *tables_normalize(PyObject *self, PyObject *const *given, Py_ssize_t count, PyObject *words) {
    static const char *const names[] = {"text", "form", NULL};
    maker form = {FORM, {0, 0}};
    PyObject *arguments[2];
    if (parse_arguments(given, count, words, names, 1, arguments) || form_of(((tables *)self)->state, arguments[1], &form.asked.form)) return NULL;
    return make((tables *)self, &form, arguments[0]);
}

/* Tells in an Unassigned which of several texts it is of, from 0. */
static void add_number(const module_state *state, Py_ssize_t number) {
    PyObject *class, *error, *trace, *value;
    if (!PyErr_ExceptionMatches(state->of[UNASSIGNED])) return;
    PyErr_Fetch(&class, &error, &trace);
    PyErr_NormalizeException(&class, &error, &trace);
    if ((value = PyLong_FromSsize_t(number)) && !PyObject_SetAttrString(error, "number", value)) {
        PyErr_Restore(class, error, trace);
    } else {
        Py_XDECREF(class);
        Py_XDECREF(error);
        Py_XDECREF(trace);
    }
    Py_XDECREF(value);
}

static PyObject *tables_keys(PyObject *of, PyObject *const *given, Py_ssize_t count, PyObject *words) {
    static const char *const names[] = {"texts", "form", "caseless", NULL};
    tables *self = (tables *)of;
    maker key = {KEY, {0, 0}};
    PyObject *arguments[3], *iterator, *text, *keys;
    Py_ssize_t number = 0;
    if (parse_arguments(given, count, words, names, 1, arguments) || form_of(self->state, arguments[1], &key.asked.form) ||
        kind_of(arguments[2], &key))
        return NULL;
    if (PyUnicode_Check(arguments[0]))
        return PyErr_Format(PyExc_TypeError, "many texts are wanted, as a list of them; key makes the key of one str");
    if (!(iterator = PyObject_GetIter(arguments[0]))) return NULL;
    keys = PyList_New(0);
    while (keys && (text = PyIter_Next(iterator))) {
        PyObject *made = make(self, &key, text);
        Py_DECREF(text);
        if (!made) add_number(self->state, number);
        if (!made || PyList_Append(keys, made) || (++number % TEXTS == 0 && PyErr_CheckSignals())) Py_CLEAR(keys);
        Py_XDECREF(made);
    }
    Py_DECREF(iterator);
    if (keys && PyErr_Occurred()) Py_CLEAR(keys);
    return keys;
}

static PyObject *tables_count(PyObject *self, void *unused) {
    (void)unused;
    return PyLong_FromUnsignedLongLong(npss_count(&((tables *)self)->handle).length);
}

/* The forms under which each text of ASCII is its own key. */
static uint64_t ask_of_ascii(npss_handle *handle) {
    static const uint8_t forms[] = {NPSS_NFD, NPSS_NFC, NPSS_NFKD, NPSS_NFKC};
    uint64_t keeps = 0;
    for (size_t i = 0; i < sizeof forms; i++)
        if (npss_keeps_ascii(handle, forms[i]).status == NPSS_DONE) keeps |= bit_of(forms[i]);
    return keeps;
}

/* What each character of ASCII folds to; whether that is ASCII, one character each. What folds to it doesn't fold again. */
static int ask_of_foldings(npss_handle *handle, uint8_t folded[128]) {
    for (uint32_t code = 0; code < 128; code++) {
        npss_answer a = npss_folding(handle, code, &folded[code], 1);
        if (a.status != NPSS_DONE || a.length != 1) return 0;
    }
    return 1;
}

/* Asks once what is asked of each name. A character that has one byte is ASCII. */
static void ask_once(tables *self) {
    const uint64_t all = bit_of(NPSS_NFD) | bit_of(NPSS_NFC) | bit_of(NPSS_NFKD) | bit_of(NPSS_NFKC);
    self->keeps_ascii = ask_of_ascii(&self->handle);
    self->folds_ascii = self->keeps_ascii == all && ask_of_foldings(&self->handle, self->folded);
}

/* The files of a version. */
enum { DATA_FILE, EXCLUSIONS_FILE, FOLDING_FILE, FILES };

/* The bytes of the files that were named; those of a folding file that wasn't have no owner. */
static int read_files(const module_state *state, PyObject *const arguments[FILES], bytes files[FILES]) {
    int failed = 0;
    for (int i = 0; i < FILES && !failed; i++) {
        PyObject *file;
        if (!arguments[i] || (i == FOLDING_FILE && arguments[i] == Py_None)) continue;
        failed = !(file = PyObject_CallFunctionObjArgs(state->of[CONTENTS], arguments[i], NULL)) || data_of(file, &files[i]);
        Py_XDECREF(file);
    }
    return failed;
}

/* Opens a handle on the version of the files, without the interpreter's lock. */
static npss_answer open_files(npss_handle *handle, const bytes files[FILES]) {
    const bytes data = files[DATA_FILE], exclusions = files[EXCLUSIONS_FILE], folding = files[FOLDING_FILE];
    npss_answer a;
    Py_BEGIN_ALLOW_THREADS
    a = folding.owner ? npss_open_caseless(handle, data.at, (size_t)data.length, exclusions.at, (size_t)exclusions.length,
                                           folding.at, (size_t)folding.length)
                      : npss_open(handle, data.at, (size_t)data.length, exclusions.at, (size_t)exclusions.length);
    Py_END_ALLOW_THREADS
    return a;
}

static PyObject *tables_open(PyObject *class, PyObject *const *given, Py_ssize_t count, PyObject *words) {
    static const char *const names[] = {"data", "exclusions", "folding", NULL};
    const module_state *state = PyType_GetModuleState((PyTypeObject *)class);
    allocfunc alloc = (allocfunc)PyType_GetSlot((PyTypeObject *)class, Py_tp_alloc);
    PyObject *arguments[FILES];
    bytes files[FILES] = {{NULL, 0, NULL}, {NULL, 0, NULL}, {NULL, 0, NULL}};
    tables *made = NULL;
    npss_answer a;
    if (parse_arguments(given, count, words, names, 2, arguments)) return NULL;
    if (!read_files(state, arguments, files) && (made = (tables *)alloc((PyTypeObject *)class, 0))) { /* zeros: closed */
        made->state = state;
        a = open_files(&made->handle, files);
        if (a.status != NPSS_DONE) {
            refuse_files(state, a, arguments);
            Py_CLEAR(made);
        } else {
            ask_once(made);
        }
    }
    for (int i = 0; i < FILES; i++) let_go(&files[i]);
    return (PyObject *)made;
}

/* A handle is this process's own. Without this, protocols 0 and 1 would pickle what can't be read back. */
static PyObject *tables_reduce(PyObject *self, PyObject *unused) {
    (void)self, (void)unused;
    return PyErr_Format(PyExc_TypeError,
                        "a Tables isn't pickled: hand over the names of its files, and call Tables.open there");
}

/* Tables never change, so a copy of them is they themselves. */
static PyObject *tables_copy(PyObject *self, PyObject *unused) {
    (void)unused;
    Py_INCREF(self);
    return self;
}

static PyObject *tables_repr(PyObject *self) {
    return PyUnicode_FromFormat("<npss.Tables: %llu code points>", (unsigned long long)npss_count(&((tables *)self)->handle).length);
}

static void tables_dealloc(PyObject *self) {
    PyTypeObject *type = Py_TYPE(self);
    if (((tables *)self)->weak) PyObject_ClearWeakRefs(self);
    npss_close(&((tables *)self)->handle);
    ((freefunc)PyType_GetSlot(type, Py_tp_free))(self);
    Py_DECREF(type);
}

#define FAST(function) (PyCFunction)(void (*)(void))(function), METH_FASTCALL | METH_KEYWORDS

static PyMethodDef methods[] = {
    {"open", (PyCFunction)(void (*)(void))tables_open, METH_FASTCALL | METH_KEYWORDS | METH_CLASS,
     "open($type, /, data, exclusions, folding=None)\n--\n\nThe version of UnicodeData.txt, CompositionExclusions.txt and, for "
     "caseless keys, CaseFolding.txt.\n\nEach is a path, or the bytes of the file, and all are of one version. Raises BadTables "
     "where they make none.\nTakes 5 to 10 ms and 3 MB for the published files, with CaseFolding.txt 12 to\n25 ms and 6 MB."},
    {"key", FAST(tables_key),
     "key($self, /, text, form='nfc', caseless=False)\n--\n\nThe key of a text: its stabilized string under the form.\n\nThe form is "
     "'nfc', 'nfd', 'nfkc' or 'nfkd'. Raises Unassigned where the version does not\nassign a code point of the text, "
     "and UnicodeEncodeError at a lone surrogate.\n\nWith caseless=True it is the caseless key, which texts that differ by "
     "case have alike. Make it of a text, or\nof its 'nfc' or 'nfd' key, and not of its 'nfkc' key. Raises NoFolding where the "
     "tables have no CaseFolding.txt."},
    {"keys", FAST(tables_keys),
     "keys($self, /, texts, form='nfc', caseless=False)\n--\n\nThe keys of several texts, a list. Raises as key does, at the first "
     "text that has none;\nUnassigned tells in `number` which, from 0."},
    {"answers", FAST(tables_answers),
     "answers($self, /, lines, form='nfc', end=b'\\n', caseless=False)\n--\n\nThe answers to the lines of some bytes, which are told as "
     "bytes.\n\nThe end is b'\\n' or b'\\0'. The answer to a line is '=' and its key, or '!' and why it has none, and "
     "then the\nend. A last line without an end is a line. No line makes the call fail: see docs/FORMATS.md.\n\nWith "
     "caseless=True keys are caseless. Raises NoFolding where the tables have no CaseFolding.txt."},
    {"normalize", FAST(tables_normalize),
     "normalize($self, /, text, form='nfc')\n--\n\nThe normal form of a text, whether or not its code points are "
     "assigned."},
    {"is_normalized", FAST(tables_is_normalized),
     "is_normalized($self, /, text, form='nfc')\n--\n\nWhether a text is its own normal form."},
    {"equivalent", FAST(tables_equivalent),
     "equivalent($self, /, left, right, compatible=False)\n--\n\nWhether two texts are canonical equivalents, or "
     "compatible ones where `compatible`."},
    {"caseless_match", FAST(tables_caseless_match),
     "caseless_match($self, /, left, right, compatible=False)\n--\n\nWhether two texts match caselessly: canonically, or "
     "compatibly where `compatible`.\n\nTexts match exactly where their caseless keys are equal. Code points that are not "
     "assigned are taken too.\nRaises NoFolding where the tables have no CaseFolding.txt."},
    {"property", tables_property, METH_O,
     "property($self, code, /)\n--\n\nWhat the version says of a code point, a Property. It is a number, or a str of one "
     "character."},
    {"decomposition", FAST(tables_decomposition),
     "decomposition($self, /, code, compatible=False)\n--\n\nThe full decomposition of a code point: the canonical one, or "
     "the compatible one.\n\nOf one that has no mapping it is the code point itself."},
    {"folding", tables_folding, METH_O,
     "folding($self, code, /)\n--\n\nWhat a code point folds to by itself, a str: mostly itself. None where the version does not "
     "assign it.\n\nRaises NoFolding where the tables have no CaseFolding.txt."},
    {"composite", (PyCFunction)(void (*)(void))tables_composite, METH_FASTCALL,
     "composite($self, first, second, /)\n--\n\nThe primary composite of two code points; None where there is none."},
    {"first_unassigned", tables_first_unassigned, METH_O,
     "first_unassigned($self, text, /)\n--\n\nThe Unassigned that key would raise; None where each code point is "
     "assigned.\n\nWith the tables of an earlier version it tells what a machine that lags behind lacks of a key."},
    {"stream", FAST(tables_stream),
     "stream($self, /, form='nfc')\n--\n\nA Stream, for a text that comes in pieces."},
    {"__copy__", tables_copy, METH_NOARGS, "__copy__($self, /)\n--\n\nItself, since it never changes."},
    {"__deepcopy__", tables_copy, METH_O, "__deepcopy__($self, memo, /)\n--\n\nItself, since it never changes."},
    {"__reduce__", tables_reduce, METH_NOARGS, "Raises TypeError: a Tables isn't pickled."},
    {"extends", FAST(tables_extends),
     "extends($self, /, older, caseless=False)\n--\n\nWhether this version extends an older one, so that keys under the older one stay "
     "keys.\n\nWith caseless=True so that its caseless keys stay caseless keys: what it assigns also folds alike. Raises\nNoFolding "
     "where one of the two has no CaseFolding.txt."},
    {"first_break", FAST(tables_first_break),
     "first_break($self, /, older, caseless=False)\n--\n\nWhat this version breaks of an older one at the least code point, a Break; "
     "None where it\nextends the older one. With caseless=True its kind may be 'FoldingChanged' too."},
    {NULL, NULL, 0, NULL},
};

static PyGetSetDef properties[] = {
    {"count", tables_count, NULL, "How many code points the version assigns.", NULL},
    {NULL, NULL, NULL, NULL, NULL},
};

static PyMemberDef members[] = WEAK_MEMBERS(tables);

static PyType_Slot slots[] = {
    {Py_tp_doc, "The tables of a version of Unicode. Tables.open makes them. One serves all threads."},
    {Py_tp_dealloc, tables_dealloc},
    {Py_tp_repr, tables_repr},
    {Py_tp_members, members},
    {Py_tp_methods, methods},
    {Py_tp_getset, properties},
    {0, NULL},
};

PyType_Spec tables_spec = {"npss.Tables", sizeof(tables), 0, Py_TPFLAGS_DEFAULT | Py_TPFLAGS_DISALLOW_INSTANTIATION,
                           slots};
