/* Nodes: strings beside their keys, told to others and saved. */
#include "nodes.h"

#define MOST_ROOM 65536
/* Behind the form and the length of a message stands its string (docs/FORMATS.md, "Message"). */
#define MESSAGE_STRING 5

/* ---- making one */

static int room_of(PyObject *given, uint32_t *room) {
    int past;
    long number;
    *room = MOST_ROOM;
    if (!given) return 0;
    number = PyLong_AsLongAndOverflow(given, &past);
    if (number == -1 && PyErr_Occurred()) return -1;
    if (past || number < 0 || number > MOST_ROOM) {
        PyErr_Format(PyExc_ValueError, "a node has room for 0 to %d strings, not %R", MOST_ROOM, given);
        return -1;
    }
    *room = (uint32_t)number;
    return 0;
}

static int is_tables(const module_state *state, PyObject *of) {
    if (PyObject_TypeCheck(of, (PyTypeObject *)state->of[TABLES_TYPE])) return 1;
    PyErr_Format(PyExc_TypeError, "a Tables is wanted, not %R", (PyObject *)Py_TYPE(of));
    return 0;
}

/* A closed node over tables; NULL where an error was raised. `given` is the tables, the form and the room. */
static node *unopened(PyTypeObject *class, const module_state *state, PyObject *const *given) {
    allocfunc alloc = (allocfunc)PyType_GetSlot(class, Py_tp_alloc);
    uint32_t room;
    uint8_t form;
    node *made;
    if (!is_tables(state, given[0]) || form_of(state, given[1], &form) || room_of(given[2], &room)) return NULL;
    if (!(made = (node *)alloc(class, 0))) return NULL; /* zeros: closed */
    Py_INCREF(given[0]);
    made->state = state;
    made->tables = given[0];
    made->form = form;
    made->room = room;
    return made;
}

static PyObject *node_new(PyTypeObject *class, PyObject *places, PyObject *words) {
    static char *names[] = {"tables", "form", "room", NULL};
    const module_state *state = PyType_GetModuleState(class);
    PyObject *given[3] = {NULL, NULL, NULL};
    npss_answer a;
    node *made;
    if (!PyArg_ParseTupleAndKeywords(places, words, "O|OO:Node", names, &given[0], &given[1], &given[2])) return NULL;
    if (!(made = unopened(class, state, given))) return NULL;
    a = npss_node_new(&made->node, &((tables *)given[0])->handle, made->form, made->room);
    if (a.status != NPSS_DONE) {
        refuse(state, a, NULL);
        Py_CLEAR(made);
    }
    return (PyObject *)made;
}

static PyObject *node_restore(PyObject *class, PyObject *const *given, Py_ssize_t count, PyObject *words) {
    static const char *const names[] = {"tables", "image", "form", "room", NULL};
    const module_state *state = PyType_GetModuleState((PyTypeObject *)class);
    npss_handle own = {0, NULL};
    PyObject *arguments[4];
    npss_answer a;
    bytes image;
    node *made;
    if (parse_arguments(given, count, words, names, 2, arguments) || data_of(arguments[1], &image)) return NULL;
    arguments[1] = arguments[0]; /* now the tables, the form and the room stand side by side */
    if (!(made = unopened((PyTypeObject *)class, state, arguments + 1))) {
        let_go(&image);
        return NULL;
    }
    a = npss_share(&((tables *)made->tables)->handle, &own);
    if (a.status == NPSS_DONE) {
        Py_BEGIN_ALLOW_THREADS
        a = npss_node_restore(&made->node, &own, made->form, made->room, image.at, (size_t)image.length);
        npss_close(&own);
        Py_END_ALLOW_THREADS
    }
    if (a.status != NPSS_DONE) {
        refuse_image(state, a, image.at);
        Py_CLEAR(made);
    }
    let_go(&image);
    return (PyObject *)made;
}

static void node_dealloc(PyObject *self) {
    PyTypeObject *class = Py_TYPE(self);
    if (((node *)self)->weak) PyObject_ClearWeakRefs(self);
    npss_node_close(&((node *)self)->node);
    Py_XDECREF(((node *)self)->tables);
    ((freefunc)PyType_GetSlot(class, Py_tp_free))(self);
    Py_DECREF(class);
}

/* ---- strings and messages that come */

/* Kept or known, which an answer tells. */
static PyObject *accepted(node *self, npss_answer a, const uint8_t *text) {
    PyObject *outcome;
    if (a.status != NPSS_DONE && a.status != NPSS_KNOWN) return refuse(self->state, a, text);
    self->changes += a.status == NPSS_DONE;
    outcome = self->state->of[a.status == NPSS_DONE ? KEPT : KNOWN];
    Py_INCREF(outcome);
    return outcome;
}

static PyObject *node_accept(PyObject *of, PyObject *given) {
    node *self = (node *)of;
    PyObject *outcome;
    bytes string;
    if (string_of(given, &string)) return NULL;
    outcome = accepted(self, npss_node_accept(&self->node, string.at, (size_t)string.length), string.at);
    let_go(&string);
    return outcome;
}

static PyObject *node_take(PyObject *of, PyObject *given) {
    node *self = (node *)of;
    PyObject *outcome;
    bytes message;
    if (data_of(given, &message)) return NULL;
    outcome = accepted(self, npss_node_take(&self->node, message.at, (size_t)message.length), message.at + MESSAGE_STRING);
    let_go(&message);
    return outcome;
}

static PyObject *node_forget(PyObject *of, PyObject *given) {
    node *self = (node *)of;
    npss_answer a;
    bytes string;
    if (string_of(given, &string)) return NULL;
    a = npss_node_forget(&self->node, string.at, (size_t)string.length);
    let_go(&string);
    if (a.status != NPSS_DONE && a.status != NPSS_NOT_KEPT) return refuse(self->state, a, NULL);
    self->changes += a.status == NPSS_DONE;
    return PyBool_FromLong(a.status == NPSS_DONE);
}

static PyObject *node_upgrade(PyObject *of, PyObject *to) {
    node *self = (node *)of;
    PyObject *before = self->tables;
    npss_answer a;
    if (!is_tables(self->state, to)) return NULL;
    a = npss_node_upgrade(&self->node, &((tables *)to)->handle);
    if (a.status == NPSS_DIFFERENT) return break_of(self->state, a);
    if (a.status != NPSS_DONE) return refuse(self->state, a, NULL);
    Py_INCREF(to);
    self->tables = to;
    Py_DECREF(before);
    Py_RETURN_NONE;
}

/* ---- what is kept */

/* What a call of a node is asked for, that writes into a room. */
typedef struct asked {
    enum { KEY, MESSAGE, ENTRY, IMAGE } what;
    node *self;
    bytes string;
    uint64_t index;
} asked;

static npss_answer call(asked *asked, uint8_t *room, size_t size) {
    npss_node *node = &asked->self->node;
    const bytes *string = &asked->string;
    switch (asked->what) {
    case KEY:
        return npss_node_key(node, string->at, (size_t)string->length, room, size);
    case MESSAGE:
        return npss_node_message(node, string->at, (size_t)string->length, room, size);
    case ENTRY:
        return npss_node_entry(node, asked->index, room, size);
    default:
        return npss_node_image(node, room, size);
    }
}

/* What is asked for, as bytes; None of what isn't kept. */
static PyObject *written(asked *asked) {
    PyObject *made = NULL;
    uint8_t nowhere;
    npss_answer a = call(asked, &nowhere, 0);
    if (a.status == NPSS_NO_ROOM) {
        if (!(made = PyBytes_FromStringAndSize(NULL, (Py_ssize_t)a.length))) return NULL;
        a = call(asked, (uint8_t *)PyBytes_AsString(made), (size_t)a.length);
    }
    if (a.status == NPSS_DONE && made) return made;
    Py_XDECREF(made);
    if (a.status == NPSS_NOT_KEPT) Py_RETURN_NONE;
    return refuse(asked->self->state, a, NULL);
}

/* The same in a room: the one that is lent where that is large enough, else one that the caller frees, or NULL. */
static uint8_t *in_room(asked *asked, uint8_t *small, size_t size, npss_answer *a) {
    uint8_t *room;
    *a = call(asked, small, size);
    if (a->status != NPSS_NO_ROOM) return small;
    size = (size_t)a->length;
    if (!(room = PyMem_Malloc(size))) {
        a->status = NPSS_MEMORY;
        return small;
    }
    *a = call(asked, room, size);
    return room;
}

static PyObject *node_message(PyObject *self, PyObject *given) {
    asked message = {MESSAGE, (node *)self, {NULL, 0, NULL}, 0};
    PyObject *made;
    if (string_of(given, &message.string)) return NULL;
    made = written(&message);
    let_go(&message.string);
    return made;
}

static PyObject *node_image(PyObject *self, PyObject *unused) {
    asked image = {IMAGE, (node *)self, {NULL, 0, NULL}, 0};
    (void)unused;
    return written(&image);
}

static PyObject *node_key(PyObject *self, PyObject *given) {
    asked key = {KEY, (node *)self, {NULL, 0, NULL}, 0};
    uint8_t small[SMALL_ROOM], *room;
    PyObject *made;
    npss_answer a;
    if (string_of(given, &key.string)) return NULL;
    room = in_room(&key, small, sizeof small, &a);
    if (a.status == NPSS_NOT_KEPT) {
        made = Py_None;
        Py_INCREF(made);
    } else if (a.status != NPSS_DONE) {
        made = refuse(key.self->state, a, NULL);
    } else if (PyUnicode_CheckExact(given) && (uint64_t)key.string.length == a.length &&
               !memcmp(room, key.string.at, (size_t)a.length)) {
        made = given;
        Py_INCREF(made);
    } else {
        made = PyUnicode_DecodeUTF8((const char *)room, (Py_ssize_t)a.length, NULL);
    }
    if (room != small) PyMem_Free(room);
    let_go(&key.string);
    return made;
}

static PyObject *node_same(PyObject *of, PyObject *const *given, Py_ssize_t count) {
    node *self = (node *)of;
    bytes left, right;
    npss_answer a;
    if (count != 2) return PyErr_Format(PyExc_TypeError, "same() takes two strings, %zd were given", count);
    if (string_of(given[0], &left)) return NULL;
    if (string_of(given[1], &right)) {
        let_go(&left);
        return NULL;
    }
    a = npss_node_same(&self->node, left.at, (size_t)left.length, right.at, (size_t)right.length);
    let_go(&left);
    let_go(&right);
    if (a.status == NPSS_NOT_KEPT) Py_RETURN_NONE;
    if (a.status != NPSS_DONE && a.status != NPSS_DIFFERENT) return refuse(self->state, a, NULL);
    return PyBool_FromLong(a.status == NPSS_DONE);
}

Py_ssize_t node_length(PyObject *self) {
    return (Py_ssize_t)npss_node_count(&((node *)self)->node).length;
}

/* ---- entries */

/* The entry of a string and its key, which stand behind one another in a room. */
static PyObject *entry_of(const module_state *state, const uint8_t *room, npss_answer a) {
    Py_ssize_t of_string = (Py_ssize_t)a.place, of_key = (Py_ssize_t)(a.length - a.place);
    PyObject *string = PyUnicode_DecodeUTF8((const char *)room, of_string, NULL), *key;
    if (!string) return NULL;
    if (of_string == of_key && !memcmp(room, room + of_string, (size_t)of_key)) {
        key = string;
        Py_INCREF(key);
    } else if (!(key = PyUnicode_DecodeUTF8((const char *)room + of_string, of_key, NULL))) {
        Py_DECREF(string);
        return NULL;
    }
    /* "N" takes them. */
    return PyObject_CallFunction(state->of[ENTRY_CLASS], "NN", string, key);
}

/* Entry number `index`, from 0; IndexError where there is none. */
PyObject *node_item(PyObject *self, Py_ssize_t index) {
    asked entry = {ENTRY, (node *)self, {NULL, 0, NULL}, (uint64_t)index};
    uint8_t small[SMALL_ROOM], *room;
    PyObject *found = NULL;
    npss_answer a;
    if (index < 0 || index >= node_length(self)) {
        PyErr_SetString(PyExc_IndexError, "node index out of range");
        return NULL;
    }
    room = in_room(&entry, small, sizeof small, &a);
    found = a.status == NPSS_DONE ? entry_of(entry.self->state, room, a) : refuse(entry.self->state, a, NULL);
    if (room != small) PyMem_Free(room);
    return found;
}

static PyObject *node_slice(PyObject *self, PyObject *slice) {
    Py_ssize_t start, stop, step, count;
    PyObject *found;
    if (PySlice_Unpack(slice, &start, &stop, &step)) return NULL;
    count = PySlice_AdjustIndices(node_length(self), &start, &stop, step);
    found = PyList_New(0);
    for (Py_ssize_t i = 0; found && i < count; i++) {
        PyObject *entry = node_item(self, start + i * step);
        if (!entry || PyList_Append(found, entry)) Py_CLEAR(found);
        Py_XDECREF(entry);
    }
    return found;
}

static PyObject *node_subscript(PyObject *self, PyObject *given) {
    Py_ssize_t index;
    if (PySlice_Check(given)) return node_slice(self, given);
    index = PyNumber_AsSsize_t(given, PyExc_IndexError);
    if (index == -1 && PyErr_Occurred()) return NULL;
    return node_item(self, index < 0 ? index + node_length(self) : index);
}

static int node_contains(PyObject *of, PyObject *given) {
    node *self = (node *)of;
    uint8_t nowhere;
    npss_answer a;
    bytes string;
    if (string_of(given, &string)) return -1;
    a = npss_node_key(&self->node, string.at, (size_t)string.length, &nowhere, 0);
    let_go(&string);
    if (a.status == NPSS_DONE || a.status == NPSS_NO_ROOM) return 1;
    if (a.status == NPSS_NOT_KEPT) return 0;
    refuse(self->state, a, NULL);
    return -1;
}

/* ---- the type */

static PyObject *form_name(const node *self) {
    for (size_t i = 0; i < FORM_NAMES; i++) {
        if (form_names[i].form == self->form) {
            Py_INCREF(self->state->of[FORM_NAME + i]);
            return self->state->of[FORM_NAME + i];
        }
    }
    return PyErr_Format(PyExc_SystemError, "a node has no form");
}

static PyObject *node_form(PyObject *self, void *unused) {
    (void)unused;
    return form_name((node *)self);
}

static PyObject *node_room(PyObject *self, void *unused) {
    (void)unused;
    return PyLong_FromUnsignedLong(((node *)self)->room);
}

static PyObject *node_tables(PyObject *self, void *unused) {
    (void)unused;
    Py_INCREF(((node *)self)->tables);
    return ((node *)self)->tables;
}

/* How many strings are kept, and none of them: they may be names of persons. */
static PyObject *node_repr(PyObject *of) {
    node *self = (node *)of;
    PyObject *form = form_name(self), *text;
    if (!form) return NULL;
    text = PyUnicode_FromFormat("<npss.Node: %zd strings, form %R, room %u>", node_length(of), form, self->room);
    Py_DECREF(form);
    return text;
}

static PyMethodDef methods[] = {
    {"restore", (PyCFunction)(void (*)(void))node_restore, METH_FASTCALL | METH_KEYWORDS | METH_CLASS,
     "restore($type, /, tables, image, form='nfc', room=65536)\n--\n\nThe node of an image that was saved, by this node "
     "or another.\n\nEach key is made anew and compared. Raises Malformed, OtherForm, OlderTables, Full, or BadEntry "
     "at the first entry\nthat is wrong. Other threads run meanwhile."},
    {"accept", node_accept, METH_O,
     "accept($self, string, /)\n--\n\nKeeps a string behind the others, beside its key.\n\nThe answer is Accepted.KEPT, "
     "or Accepted.KNOWN where it was kept already. Raises TooLong, NotUtf8, Unassigned or Full;\nthen the node is as it "
     "was. message(string) tells it to other nodes."},
    {"take", node_take, METH_O,
     "take($self, message, /)\n--\n\nKeeps the string of another node's message.\n\nThe key in it is never trusted. The "
     "answer is Accepted.KEPT or Accepted.KNOWN. Raises Malformed, OtherForm, TooLong,\nNotUtf8, Unassigned, KeyDiffers "
     "or Full; then the node is as it was."},
    {"message", node_message, METH_O,
     "message($self, string, /)\n--\n\nThe message, as bytes, that tells a kept string to other nodes; None of a string "
     "that isn't kept."},
    {"forget", node_forget, METH_O,
     "forget($self, string, /)\n--\n\nForgets a string; whether it was kept. The others keep their order."},
    {"same", (PyCFunction)(void (*)(void))node_same, METH_FASTCALL,
     "same($self, left, right, /)\n--\n\nWhether two kept strings are equivalent, by their keys; None where one of them "
     "isn't kept."},
    {"key", node_key, METH_O, "key($self, string, /)\n--\n\nThe key of a kept string; None of one that isn't kept."},
    {"image", node_image, METH_NOARGS,
     "image($self, /)\n--\n\nWhat the node keeps, as bytes that restore reads, under this version and each later one."},
    {"upgrade", node_upgrade, METH_O,
     "upgrade($self, tables, /)\n--\n\nGoes on to a version that extends the present one. Strings and keys stay.\n\n"
     "None; or, where it doesn't extend it, the first Break, and nothing changes."},
    {NULL, NULL, 0, NULL},
};

static PyGetSetDef properties[] = {
    {"form", node_form, NULL, "The form of the keys: 'nfc', 'nfd', 'nfkc' or 'nfkd'.", NULL},
    {"room", node_room, NULL, "The most strings that may be kept.", NULL},
    {"tables", node_tables, NULL, "The tables of the version that the keys are made under.", NULL},
    {NULL, NULL, NULL, NULL, NULL},
};

static const char doc[] =
    "Node(tables, form='nfc', room=65536)\n--\n\n"
    "Strings in the order in which they were kept, each beside its key.\n\n"
    "    home, away = Node(tables), Node(tables)\n"
    "    if home.accept(name) is Accepted.KEPT:\n"
    "        away.take(home.message(name))\n"
    "    saved = home.image()\n"
    "    home = Node.restore(tables, saved)\n\n"
    "A string is a str, or bytes where it comes from elsewhere, of at most 65,536 bytes of UTF-8. len(node) tells how\n"
    "many are kept, `string in node` whether one is; node[i] and iteration give each Entry(string, key). A refusal is a\n"
    "Refused, and leaves the node as it was. A node serves one thread at a time.";

static PyMemberDef members[] = WEAK_MEMBERS(node);

static PyType_Slot slots[] = {
    {Py_tp_doc, (void *)doc},
    {Py_tp_new, node_new},
    {Py_tp_dealloc, node_dealloc},
    {Py_tp_repr, node_repr},
    {Py_tp_iter, node_iterator},
    {Py_tp_members, members},
    {Py_tp_methods, methods},
    {Py_tp_getset, properties},
    {Py_mp_length, node_length},
    {Py_mp_subscript, node_subscript},
    {Py_sq_length, node_length},
    {Py_sq_item, node_item},
    {Py_sq_contains, node_contains},
    {0, NULL},
};

PyType_Spec node_spec = {"npss.Node", sizeof(node), 0, Py_TPFLAGS_DEFAULT, slots};
