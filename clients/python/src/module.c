/* The module: its state, its types, and how the arguments of calls are read. */
#include "client.h"

static struct PyModuleDef definition;

State *state_of_type(PyTypeObject *type) {
    /* A subclass in Python has no module of this definition, so its bases are looked at. */
    for (; type != NULL; type = PyType_GetSlot(type, Py_tp_base)) {
        PyObject *module = PyType_GetModule(type);
        if (module != NULL && PyModule_GetDef(module) == &definition) return PyModule_GetState(module);
        PyErr_Clear();
    }
    PyErr_SetString(PyExc_TypeError, "this is no type of mmdb");
    return NULL;
}

/* Returns the place of a name, or -1. */
static Py_ssize_t place_of_name(const char *const *names, Py_ssize_t all, PyObject *name) {
    for (Py_ssize_t i = 0; i < all; i++) {
        if (PyUnicode_CompareWithASCIIString(name, names[i]) == 0) return i;
    }
    return -1;
}

/* Reads the arguments that were passed by name. */
static bool read_keywords(const char *function, const char *const *names, Py_ssize_t all, PyObject *const *arguments, PyObject *keywords,
                          PyObject **values) {
    Py_ssize_t count = PyTuple_Size(keywords);
    for (Py_ssize_t i = 0; i < count; i++) {
        PyObject *name = PyTuple_GetItem(keywords, i);
        Py_ssize_t place = place_of_name(names, all, name);
        if (place < 0 || values[place] != NULL) {
            const char *words = place < 0 ? "%s() got an unexpected keyword argument %R" : "%s() got two values for the argument %R";
            PyErr_Format(PyExc_TypeError, words, function, name);
            return false;
        }
        values[place] = arguments[i];
    }
    return true;
}

bool arguments_read(const char *function, const char *const *names, Py_ssize_t required, Py_ssize_t all, PyObject *const *arguments,
                    Py_ssize_t count, PyObject *keywords, PyObject **values) {
    if (count > all) {
        PyErr_Format(PyExc_TypeError, "%s() takes at most %zd arguments, and %zd were given", function, all, count);
        return false;
    }
    for (Py_ssize_t i = 0; i < count; i++) values[i] = arguments[i];
    if (keywords != NULL && !read_keywords(function, names, all, arguments + count, keywords, values)) return false;
    for (Py_ssize_t i = 0; i < required; i++) {
        if (values[i] == NULL) {
            PyErr_Format(PyExc_TypeError, "%s() misses the argument '%s'", function, names[i]);
            return false;
        }
    }
    return true;
}

/* Makes a type and adds it to the module. Returns whether that succeeded. */
static bool add_type(PyObject *module, PyType_Spec *spec, PyTypeObject **type) {
    *type = (PyTypeObject *)PyType_FromModuleAndSpec(module, spec, NULL);
    return *type != NULL && PyModule_AddType(module, *type) == 0;
}

static bool add_types(PyObject *module, State *state) {
    return add_type(module, &connection_spec, &state->connection_type) && add_type(module, &cursor_spec, &state->cursor_type) &&
           add_type(module, &savepoint_spec, &state->savepoint_type) && add_type(module, &row_spec, &state->row_type) &&
           add_type(module, &columns_spec, &state->columns_type) && add_type(module, &buffer_spec, &state->buffer_type);
}

/* Returns whether the module can work with a version of the library. If not, raises ImportError. */
static bool check_version(uint32_t version) {
    if (version / 1000000 == MMDB_VERSION / 1000000 && version >= MMDB_VERSION) return true;
    PyErr_Format(PyExc_ImportError, "the library mmdb has the version %u.%u.%u, and the module was built for %d.%d.%d",
                 (unsigned)(version / 1000000), (unsigned)(version / 1000 % 1000), (unsigned)(version % 1000), MMDB_VERSION / 1000000,
                 MMDB_VERSION / 1000 % 1000, MMDB_VERSION % 1000);
    return false;
}

static bool add_version(PyObject *module, uint32_t version) {
    PyObject *parts = Py_BuildValue("(III)", version / 1000000, version / 1000 % 1000, version % 1000);
    bool is_added = parts != NULL && PyModule_AddObjectRef(module, "library_version", parts) == 0;
    Py_XDECREF(parts);
    return is_added;
}

static int module_exec(PyObject *module) {
    static const mmdb_column line = {.type = MMDB_STRING, .len = 4, .name = "line"};
    State *state = PyModule_GetState(module);
    uint32_t version = mmdb_version();
    if (!check_version(version) || !add_version(module, version)) return -1;
    if (!errors_create(module, state) || !add_types(module, state)) return -1;
    if (!errors_add_to_type(state, state->connection_type)) return -1;
    if ((state->no_values = PyTuple_New(0)) == NULL) return -1;
    if ((state->keys = PyUnicode_InternFromString("keys")) == NULL) return -1;
    if ((state->iter = PyUnicode_InternFromString("__iter__")) == NULL) return -1;
    if ((state->make_row = PyObject_GetAttrString(module, "_row")) == NULL) return -1;
    if ((state->line_shape = shape_new(&line, 1)) == NULL) {
        PyErr_NoMemory();
        return -1;
    }
    return 0;
}

/* Returns the words of a status: for the shell, whose calls return statuses. */
static PyObject *module_words(PyObject *module, PyObject *number) {
    (void)module;
    unsigned long status = PyLong_AsUnsignedLong(number);
    if (PyErr_Occurred()) return NULL;
    uint8_t words[64];
    size_t length = status > UINT8_MAX ? 0 : mmdb_words((uint8_t)status, words, sizeof words);
    return PyUnicode_DecodeUTF8((const char *)words, (Py_ssize_t)(length < sizeof words ? length : sizeof words), "replace");
}

static int module_traverse(PyObject *module, visitproc visit, void *arg) {
    State *state = PyModule_GetState(module);
    PyTypeObject *types[] = {state->connection_type, state->cursor_type,  state->savepoint_type,
                             state->row_type,        state->columns_type, state->buffer_type};
    for (size_t i = 0; i < sizeof types / sizeof *types; i++) Py_VISIT((PyObject *)types[i]);
    for (size_t i = 0; i < ERROR_CLASSES; i++) Py_VISIT(state->errors[i]);
    Py_VISIT(state->no_values);
    Py_VISIT(state->keys);
    Py_VISIT(state->iter);
    Py_VISIT(state->make_row);
    return 0;
}

static int module_clear(PyObject *module) {
    State *state = PyModule_GetState(module);
    PyTypeObject **types[] = {&state->connection_type, &state->cursor_type,  &state->savepoint_type,
                              &state->row_type,        &state->columns_type, &state->buffer_type};
    for (size_t i = 0; i < sizeof types / sizeof *types; i++) {
        PyObject *type = (PyObject *)*types[i];
        *types[i] = NULL;
        Py_XDECREF(type);
    }
    for (size_t i = 0; i < ERROR_CLASSES; i++) Py_CLEAR(state->errors[i]);
    Py_CLEAR(state->no_values);
    Py_CLEAR(state->keys);
    Py_CLEAR(state->iter);
    Py_CLEAR(state->make_row);
    shape_release(state->line_shape);
    state->line_shape = NULL;
    return 0;
}

static void module_free(void *module) { module_clear(module); }

static PyMethodDef module_methods[] = {
    {"_row", row_unpickle, METH_VARARGS, "Makes a Row of its type, its names and its values, for pickle and copy."},
    {"_words", module_words, METH_O, "Returns the words of a status of the library, or an empty text."},
    {NULL, NULL, 0, NULL},
};

static PyModuleDef_Slot module_slots[] = {{Py_mod_exec, module_exec}, {0, NULL}};

static struct PyModuleDef definition = {
    PyModuleDef_HEAD_INIT,
    .m_name = "mmdb._mmdb",
    .m_doc = "The part of the package mmdb that is written in C.",
    .m_size = sizeof(State),
    .m_methods = module_methods,
    .m_slots = module_slots,
    .m_traverse = module_traverse,
    .m_clear = module_clear,
    .m_free = module_free,
};

PyMODINIT_FUNC PyInit__mmdb(void);
PyMODINIT_FUNC PyInit__mmdb(void) { return PyModuleDef_Init(&definition); }
