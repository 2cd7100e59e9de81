/* What the files about nodes share. */
#ifndef NPSS_NODES_H
#define NPSS_NODES_H

#include "arguments.h"

typedef struct node {
    PyObject_HEAD
    const module_state *state;
    PyObject *weak; /* the weak references to it */
    npss_node node;
    PyObject *tables;
    uint64_t changes; /* how often a string was kept or forgotten */
    uint8_t form;
    uint32_t room;
} node;

/* In nodes.c: how many entries there are, and entry number `index`, from 0; IndexError where there is none. */
Py_ssize_t node_length(PyObject *self);
PyObject *node_item(PyObject *self, Py_ssize_t index);

/* In node_iterators.c: goes over the entries, and raises RuntimeError where the node changed meanwhile. */
PyObject *node_iterator(PyObject *self);

#endif
