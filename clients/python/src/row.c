/* Rows whose values have names. */
#include "client.h"

typedef struct Row {
    PyObject_HEAD
    PyObject *names, *values;   /* tuples of the same size */
} Row;

static PyObject *row_make(PyTypeObject *type, PyObject *names, PyObject *values) {
    Row *self = (Row *)PyType_GenericAlloc(type, 0);
    if (self == NULL) return NULL;
    self->names = Py_NewRef(names);
    self->values = Py_NewRef(values);
    return (PyObject *)self;
}

static PyObject *row_new(PyTypeObject *type, PyObject *arguments, PyObject *keywords) {
    State *state = state_of_type(type);
    PyObject *cursor, *values;
    if (state == NULL) return NULL;
    if (keywords != NULL && PyDict_Size(keywords) > 0) return PyErr_Format(PyExc_TypeError, "Row takes no keyword arguments");
    if (!PyArg_ParseTuple(arguments, "O!O!:Row", state->cursor_type, &cursor, &PyTuple_Type, &values)) return NULL;
    Shape *shape = shape_retain(((Cursor *)cursor)->shape);
    PyObject *row = NULL;
    if (shape == NULL || (size_t)PyTuple_Size(values) != shape->width) {
        PyErr_SetString(PyExc_ValueError, "a row has a value for each column of its cursor");
    } else {
        PyObject *names = shape_names(shape);
        row = names == NULL ? NULL : row_make(type, names, values);
    }
    shape_release(shape);
    return row;
}

PyObject *row_unpickle(PyObject *module, PyObject *arguments) {
    State *state = PyModule_GetState(module);
    PyObject *type, *names, *values;
    if (!PyArg_ParseTuple(arguments, "O!O!O!:_row", &PyType_Type, &type, &PyTuple_Type, &names, &PyTuple_Type, &values)) return NULL;
    if (!PyType_IsSubtype((PyTypeObject *)type, state->row_type) || PyTuple_Size(names) != PyTuple_Size(values)) {
        return PyErr_Format(PyExc_TypeError, "these are not the parts of a Row");
    }
    return row_make((PyTypeObject *)type, names, values);
}

static PyObject *row_reduce(PyObject *object, PyObject *unused) {
    (void)unused;
    Row *self = (Row *)object;
    State *state = state_of_type(Py_TYPE(object));
    return state == NULL ? NULL : Py_BuildValue("(O(OOO))", state->make_row, Py_TYPE(object), self->names, self->values);
}

static int row_traverse(PyObject *object, visitproc visit, void *arg) {
    Row *self = (Row *)object;
    Py_VISIT(Py_TYPE(object));
    Py_VISIT(self->names);
    Py_VISIT(self->values);
    return 0;
}

/* A tuple never changes, and the collector can clear it. So it need not clear a row, whose methods always find their tuples. */
static void row_dealloc(PyObject *object) {
    Row *self = (Row *)object;
    PyObject_GC_UnTrack(object);
    Py_XDECREF(self->names);
    Py_XDECREF(self->values);
    free_object(object);
}

/* Returns the place of the first column with a name, or -1. Names are compared as texts, whatever their class. */
static Py_ssize_t place_of_name(const Row *self, PyObject *name) {
    Py_ssize_t width = PyTuple_Size(self->names);
    for (Py_ssize_t i = 0; i < width; i++) {
        PyObject *other = PyTuple_GetItem(self->names, i);
        if (other == name || PyUnicode_Compare(other, name) == 0) return i;
    }
    return -1;
}

static PyObject *row_item(PyObject *object, Py_ssize_t place) {
    PyObject *value = PyTuple_GetItem(((Row *)object)->values, place);
    return Py_XNewRef(value);
}

static PyObject *row_subscript(PyObject *object, PyObject *key) {
    Row *self = (Row *)object;
    if (!PyUnicode_Check(key)) return PyObject_GetItem(self->values, key);
    Py_ssize_t place = place_of_name(self, key);
    if (place < 0) return PyErr_Format(PyExc_IndexError, "no column is named %R", key);
    return row_item(object, place);
}

static Py_ssize_t row_length(PyObject *self) { return PyTuple_Size(((Row *)self)->values); }

static PyObject *row_iter(PyObject *self) { return PyObject_GetIter(((Row *)self)->values); }

static PyObject *row_compare(PyObject *object, PyObject *other_object, int operation) {
    State *state = state_of_type(Py_TYPE(object));
    if (state == NULL) return NULL;
    bool is_equality = operation == Py_EQ || operation == Py_NE;
    if (!is_equality || !PyObject_TypeCheck(other_object, state->row_type)) return Py_NewRef(Py_NotImplemented);
    Row *self = (Row *)object, *other = (Row *)other_object;
    int is_equal = PyObject_RichCompareBool(self->names, other->names, Py_EQ);
    if (is_equal > 0) is_equal = PyObject_RichCompareBool(self->values, other->values, Py_EQ);
    return is_equal < 0 ? NULL : PyBool_FromLong(is_equal == (operation == Py_EQ));
}

static Py_hash_t row_hash(PyObject *object) {
    Row *self = (Row *)object;
    PyObject *both = PyTuple_Pack(2, self->names, self->values);
    if (both == NULL) return -1;
    Py_hash_t hash = PyObject_Hash(both);
    Py_DECREF(both);
    return hash;
}

static PyObject *row_repr(PyObject *object) {
    Row *self = (Row *)object;
    PyObject *parts = PyList_New(0);
    for (Py_ssize_t i = 0; parts != NULL && i < row_length(object); i++) {
        PyObject *part = PyUnicode_FromFormat("%U=%R", PyTuple_GetItem(self->names, i), PyTuple_GetItem(self->values, i));
        if (part == NULL || PyList_Append(parts, part) < 0) Py_CLEAR(parts);
        Py_XDECREF(part);
    }
    PyObject *comma = parts == NULL ? NULL : PyUnicode_FromString(", ");
    PyObject *all = comma == NULL ? NULL : PyUnicode_Join(comma, parts);
    PyObject *repr = all == NULL ? NULL : PyUnicode_FromFormat("Row(%U)", all);
    Py_XDECREF(parts);
    Py_XDECREF(comma);
    Py_XDECREF(all);
    return repr;
}

/* PySequence_List would do the same, but up to CPython 3.11 it loses a reference if an allocation fails. */
static PyObject *row_keys(PyObject *object, PyObject *unused) {
    (void)unused;
    PyObject *names = ((Row *)object)->names;
    PyObject *list = PyList_New(PyTuple_Size(names));
    for (Py_ssize_t i = 0; list != NULL && i < PyTuple_Size(names); i++) PyList_SetItem(list, i, Py_NewRef(PyTuple_GetItem(names, i)));
    return list;
}

static PyObject *row_count(PyObject *self, PyObject *value) {
    Py_ssize_t count = PySequence_Count(((Row *)self)->values, value);
    return count < 0 ? NULL : PyLong_FromSsize_t(count);
}

static PyObject *row_index(PyObject *self, PyObject *arguments) {
    PyObject *index = PyObject_GetAttrString(((Row *)self)->values, "index");
    PyObject *place = index == NULL ? NULL : PyObject_CallObject(index, arguments);
    Py_XDECREF(index);
    return place;
}

static PyMethodDef row_methods[] = {
    {"keys", row_keys, METH_NOARGS, "keys($self, /)\n--\n\nReturns a list of the names of the columns, from left to right."},
    {"count", row_count, METH_O, "count($self, value, /)\n--\n\nReturns the number of values that are equal to one."},
    {"index", row_index, METH_VARARGS,
     "index($self, value, start=0, stop=9223372036854775807, /)\n--\n\n"
     "Returns the place of the first value that is equal to one. Raises ValueError if there is none."},
    {"__reduce__", row_reduce, METH_NOARGS, "__reduce__($self, /)\n--\n\nReturns what pickle and copy make the row again of."},
    {NULL, NULL, 0, NULL},
};

static PyType_Slot row_slots[] = {
    {Py_tp_doc, "Row(cursor, values, /)\n--\n\n"
                "A row as a sequence, whose values are also found by the names of their columns: row[\"title\"], row[1].\n\n"
                "If two columns have the same name, it finds the first of them. Row is a row factory: connection.row_factory = mmdb.Row."},
    {Py_tp_new, row_new},
    {Py_tp_dealloc, row_dealloc},
    {Py_tp_traverse, row_traverse},
    {Py_tp_methods, row_methods},
    {Py_tp_iter, row_iter},
    {Py_tp_richcompare, row_compare},
    {Py_tp_hash, row_hash},
    {Py_tp_repr, row_repr},
    {Py_sq_length, row_length},
    {Py_sq_item, row_item},
    {Py_mp_length, row_length},
    {Py_mp_subscript, row_subscript},
    {0, NULL},
};

PyType_Spec row_spec = {
    .name = "mmdb.Row",
    .basicsize = sizeof(Row),
    .flags = Py_TPFLAGS_DEFAULT | Py_TPFLAGS_BASETYPE | Py_TPFLAGS_HAVE_GC,
    .slots = row_slots,
};
