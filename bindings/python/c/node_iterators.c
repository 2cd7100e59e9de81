/* What goes over the entries of a node: as with a dict, the node may not change meanwhile. */
#include "nodes.h"

typedef struct iterator {
    PyObject_HEAD
    PyObject *node; /* NULL at the end */
    uint64_t changes;
    Py_ssize_t next;
} iterator;

PyObject *node_iterator(PyObject *of) {
    PyTypeObject *class = (PyTypeObject *)((node *)of)->state->of[NODE_ITERATOR_TYPE];
    iterator *made = (iterator *)((allocfunc)PyType_GetSlot(class, Py_tp_alloc))(class, 0);
    if (!made) return NULL;
    Py_INCREF(of);
    made->node = of;
    made->changes = ((node *)of)->changes;
    return (PyObject *)made;
}

static PyObject *iterator_next(PyObject *of) {
    iterator *self = (iterator *)of;
    if (!self->node) return NULL;
    if (((node *)self->node)->changes != self->changes) {
        PyErr_SetString(PyExc_RuntimeError, "the node changed during iteration");
        return NULL;
    }
    if (self->next < node_length(self->node)) return node_item(self->node, self->next++);
    Py_CLEAR(self->node);
    return NULL;
}

/* How many entries are left, so that a list of them is made at once. */
static PyObject *iterator_length(PyObject *of, PyObject *unused) {
    iterator *self = (iterator *)of;
    (void)unused;
    return PyLong_FromSsize_t(self->node ? node_length(self->node) - self->next : 0);
}

static void iterator_dealloc(PyObject *self) {
    PyTypeObject *class = Py_TYPE(self);
    Py_XDECREF(((iterator *)self)->node);
    ((freefunc)PyType_GetSlot(class, Py_tp_free))(self);
    Py_DECREF(class);
}

static PyMethodDef methods[] = {
    {"__length_hint__", iterator_length, METH_NOARGS, "How many entries are left."},
    {NULL, NULL, 0, NULL},
};

static PyType_Slot slots[] = {
    {Py_tp_dealloc, iterator_dealloc},
    {Py_tp_iter, PyObject_SelfIter},
    {Py_tp_iternext, iterator_next},
    {Py_tp_methods, methods},
    {0, NULL},
};

PyType_Spec node_iterator_spec = {"npss._npss.NodeIterator", sizeof(iterator), 0, Py_TPFLAGS_DEFAULT | Py_TPFLAGS_DISALLOW_INSTANTIATION,
                                  slots};
