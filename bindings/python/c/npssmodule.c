/* The C half of the Python module `npss`: it hands texts to the proved library, and answers back. */
#include "arguments.h"

static const char *const file_names[] = {"contents"};
static const char *const value_names[] = {"Break", "Entry", "Property"};
static const char *const error_names[] = {"BadTables", "Refused",   "NoFolding", "TooLong",    "NotUtf8",     "Unassigned",
                                          "Full",      "Malformed", "OtherForm", "KeyDiffers", "OlderTables", "BadEntry"};

/* Puts an attribute of a Python half into the state. */
static int bring(module_state *state, int member, PyObject *from, const char *name) {
    return (state->of[member] = PyObject_GetAttrString(from, name)) ? 0 : -1;
}

/* Puts attributes of a module of the Python half into the state, from a member on. */
static int bring_all(module_state *state, const char *module, int first, const char *const *names, int count) {
    PyObject *from = PyImport_ImportModule(module);
    int failed = !from;
    for (int i = 0; !failed && i < count; i++) failed = bring(state, first + i, from, names[i]);
    Py_XDECREF(from);
    return failed;
}

static int bring_members(module_state *state) {
    PyObject *accepted = PyImport_ImportModule("npss._accepted");
    PyObject *members = accepted ? PyObject_GetAttrString(accepted, "Accepted") : NULL;
    int failed = !members || bring(state, KEPT, members, "KEPT") || bring(state, KNOWN, members, "KNOWN");
    Py_XDECREF(members);
    Py_XDECREF(accepted);
    return failed;
}

/* Puts a type into the state and the module. */
static int add_type(PyObject *module, module_state *state, int member, const char *name, PyObject *type) {
    state->of[member] = type;
    return type ? PyModule_AddObjectRef(module, name, type) : -1;
}

static int begin(PyObject *module) {
    module_state *state = PyModule_GetState(module);
    for (size_t i = 0; i < FORM_NAMES; i++) {
        if (!(state->of[FORM_NAME + i] = PyUnicode_InternFromString(form_names[i].name))) return -1;
    }
    if (bring_all(state, "npss._files", CONTENTS, file_names, 1) ||
        bring_all(state, "npss._errors", BAD_TABLES, error_names, BAD_ENTRY - BAD_TABLES + 1) ||
        bring_all(state, "npss._values", BREAK_CLASS, value_names, 3) || bring_members(state))
        return -1;
    if (add_type(module, state, TABLES_TYPE, "Tables", PyType_FromModuleAndSpec(module, &tables_spec, NULL)) ||
        add_type(module, state, NODE_TYPE, "Node", PyType_FromModuleAndSpec(module, &node_spec, NULL)) ||
        !(state->of[NODE_ITERATOR_TYPE] = PyType_FromModuleAndSpec(module, &node_iterator_spec, NULL)) ||
        add_type(module, state, STREAM_TYPE, "Stream", PyType_FromModuleAndSpec(module, &stream_spec, NULL)))
        return -1;
    return 0;
}

static int traverse(PyObject *module, visitproc visit, void *arg) {
    module_state *state = PyModule_GetState(module);
    for (int i = 0; i < MEMBERS; i++) Py_VISIT(state->of[i]);
    return 0;
}

static int clear(PyObject *module) {
    module_state *state = PyModule_GetState(module);
    for (int i = 0; i < MEMBERS; i++) Py_CLEAR(state->of[i]);
    return 0;
}

static void end(void *module) {
    clear(module);
}

static PyModuleDef_Slot parts[] = {
    {Py_mod_exec, begin},
    {0, NULL},
};

static struct PyModuleDef module = {PyModuleDef_HEAD_INIT, "npss._npss", "The C half of npss.", sizeof(module_state),
                                    NULL,                  parts,        traverse,              clear,
                                    end};

PyMODINIT_FUNC PyInit__npss(void) {
    return PyModuleDef_Init(&module);
}
