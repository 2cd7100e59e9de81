/* Streams: the normal form of a text that comes in pieces. */
#include "tables.h"

typedef struct stream {
    PyObject_HEAD
    const module_state *state;
    PyObject *weak; /* the weak references to it */
    npss_stream stream;
    PyObject *unassigned; /* NULL until the stream is finished */
    int is_busy;          /* a thread is within the library, without the interpreter's lock */
} stream;

PyObject *tables_stream(PyObject *of, PyObject *const *given, Py_ssize_t count, PyObject *words) {
    static const char *const names[] = {"form", NULL};
    tables *self = (tables *)of;
    PyTypeObject *class = (PyTypeObject *)self->state->of[STREAM_TYPE];
    PyObject *arguments[1];
    npss_answer a;
    uint8_t form;
    stream *made;
    if (parse_arguments(given, count, words, names, 0, arguments) || form_of(self->state, arguments[0], &form)) return NULL;
    if (!(made = (stream *)((allocfunc)PyType_GetSlot(class, Py_tp_alloc))(class, 0))) return NULL; /* zeros: closed */
    made->state = self->state;
    a = npss_stream_new(&made->stream, &self->handle, form);
    if (a.status != NPSS_DONE) {
        refuse(self->state, a, NULL);
        Py_CLEAR(made);
    }
    return (PyObject *)made;
}

static void stream_dealloc(PyObject *self) {
    PyTypeObject *class = Py_TYPE(self);
    if (((stream *)self)->weak) PyObject_ClearWeakRefs(self);
    npss_stream_close(&((stream *)self)->stream);
    Py_XDECREF(((stream *)self)->unassigned);
    ((freefunc)PyType_GetSlot(class, Py_tp_free))(self);
    Py_DECREF(class);
}

/* Whether a piece may come; an error was raised where not. */
static int is_going_on(stream *self) {
    if (self->is_busy) {
        PyErr_SetString(PyExc_RuntimeError, "another thread works on this stream");
    } else if (self->unassigned) {
        PyErr_SetString(PyExc_ValueError, "the stream is finished");
    } else {
        return 1;
    }
    return 0;
}

/* What is ready, as bytes. */
static PyObject *ready(stream *self, uint64_t length) {
    PyObject *made = PyBytes_FromStringAndSize(NULL, (Py_ssize_t)length);
    if (made) npss_stream_take(&self->stream, (uint8_t *)PyBytes_AsString(made), (size_t)length);
    return made;
}

static PyObject *stream_feed(PyObject *of, PyObject *given) {
    stream *self = (stream *)of;
    PyObject *made;
    npss_answer a;
    bytes piece;
    if (!is_going_on(self) || string_of(given, &piece)) return NULL;
    self->is_busy = 1;
    if (piece.length <= LONG_TEXT) {
        a = npss_stream_feed(&self->stream, piece.at, (size_t)piece.length);
    } else {
        Py_BEGIN_ALLOW_THREADS
        a = npss_stream_feed(&self->stream, piece.at, (size_t)piece.length);
        Py_END_ALLOW_THREADS
    }
    self->is_busy = 0;
    made = a.status == NPSS_DONE ? ready(self, a.length) : refuse(self->state, a, NULL);
    let_go(&piece);
    return made;
}

/* The first code point of the whole text that isn't assigned; None where each is. */
static PyObject *unassigned_of(const module_state *state, npss_answer a) {
    if (a.status == NPSS_DONE) Py_RETURN_NONE;
    return PyObject_CallFunction(state->of[UNASSIGNED], "IKO", a.code, (unsigned long long)a.place, Py_None);
}

static PyObject *stream_finish(PyObject *of, PyObject *unused) {
    stream *self = (stream *)of;
    npss_answer a;
    (void)unused;
    if (!is_going_on(self)) return NULL;
    a = npss_stream_finish(&self->stream);
    if (a.status != NPSS_DONE && a.status != NPSS_UNASSIGNED) return refuse(self->state, a, NULL);
    if (!(self->unassigned = unassigned_of(self->state, a))) return NULL;
    return ready(self, a.length);
}

static PyObject *stream_unassigned(PyObject *of, void *unused) {
    stream *self = (stream *)of;
    (void)unused;
    if (!self->unassigned) {
        PyErr_SetString(PyExc_ValueError, "the stream isn't finished");
        return NULL;
    }
    Py_INCREF(self->unassigned);
    return self->unassigned;
}

static PyMethodDef methods[] = {
    {"feed", stream_feed, METH_O,
     "feed($self, piece, /)\n--\n\nGoes on with the next piece of the text: a str, or bytes, which may end within a "
     "character.\n\nAnswers what is ready of the form, as bytes of UTF-8. Raises NotUtf8; then the stream is as it was."},
    {"finish", stream_finish, METH_NOARGS,
     "finish($self, /)\n--\n\nEnds the text, and answers the last bytes of its form. Raises NotUtf8 where it ends within "
     "a character;\nthen the stream goes on."},
    {NULL, NULL, 0, NULL},
};

static PyGetSetDef properties[] = {
    {"unassigned", stream_unassigned, NULL,
     "Of a stream that is finished: None, so that its form is the text's key; or the Unassigned that tells why it has none.",
     NULL},
    {NULL, NULL, NULL, NULL, NULL},
};

static const char doc[] = "The normal form of a text that comes in pieces. Tables.stream makes one.\n\n"
                          "    stream = tables.stream('nfc')\n"
                          "    for piece in pieces:\n"
                          "        out.write(stream.feed(piece))\n"
                          "    out.write(stream.finish())\n"
                          "    if stream.unassigned is None: ...  # what was written is a key";

static PyMemberDef members[] = WEAK_MEMBERS(stream);

static PyType_Slot slots[] = {
    {Py_tp_doc, (void *)doc},
    {Py_tp_dealloc, stream_dealloc},
    {Py_tp_members, members},
    {Py_tp_methods, methods},
    {Py_tp_getset, properties},
    {0, NULL},
};

PyType_Spec stream_spec = {"npss.Stream", sizeof(stream), 0, Py_TPFLAGS_DEFAULT | Py_TPFLAGS_DISALLOW_INSTANTIATION,
                           slots};
