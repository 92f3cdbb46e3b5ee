/* Results as columns: buffers over the memory of a result, for NumPy and for Arrow. */
#include "client.h"

/* ---- Buffers: a part of a result's memory ----------------------------------------------------------------------------------------- */

typedef struct Buffer {
    PyObject_HEAD
    Result *result;
    const void *data;
    Py_ssize_t count, item_size;
    const char *format;
} Buffer;

static void buffer_dealloc(PyObject *object) {
    result_release(((Buffer *)object)->result);
    free_object(object);
}

static int buffer_get(PyObject *object, Py_buffer *view, int flags) {
    Buffer *self = (Buffer *)object;
    if (PyBuffer_FillInfo(view, object, (void *)self->data, self->count * self->item_size, 1, flags) < 0) return -1;
    view->itemsize = self->item_size;
    view->format = (flags & PyBUF_FORMAT) != 0 ? (char *)self->format : NULL;
    if (view->shape != NULL) view->shape = &self->count;
    if (view->strides != NULL) view->strides = &self->item_size;
    return 0;
}

static PyType_Slot buffer_slots[] = {
    {Py_tp_doc, "A part of a result's memory."},
    {Py_tp_dealloc, buffer_dealloc},
    {Py_bf_getbuffer, buffer_get},
    {0, NULL},
};

PyType_Spec buffer_spec = {
    .name = "mmdb._mmdb.Buffer",
    .basicsize = sizeof(Buffer),
    .flags = Py_TPFLAGS_DEFAULT | Py_TPFLAGS_DISALLOW_INSTANTIATION,
    .slots = buffer_slots,
};

/* Returns a memoryview of a part of a result's memory. */
static PyObject *view_of(const State *state, Result *result, const void *data, size_t count, Py_ssize_t item_size, const char *format) {
    Buffer *buffer = (Buffer *)PyType_GenericAlloc(state->buffer_type, 0);
    if (buffer == NULL) return NULL;
    buffer->result = result_retain(result);
    buffer->data = data;
    buffer->count = (Py_ssize_t)count;
    buffer->item_size = item_size;
    buffer->format = format;
    PyObject *view = PyMemoryView_FromObject((PyObject *)buffer);
    Py_DECREF((PyObject *)buffer);
    return view;
}

/* ---- Columns ---------------------------------------------------------------------------------------------------------------------- */

/* Returns a result of the row that a cursor has as a tuple, or of no rows. Raises an exception and returns NULL if it fails. */
static Result *result_of_tuple(const State *state, const Shape *shape, PyObject *tuple) {
    mmdb_cell cells[MOST_COLUMNS];
    if (tuple != NULL && cells_from_row(state, tuple, cells, shape->width) != CONVERTED) return NULL;
    Result *result = result_new(shape->columns, shape->width, 1);
    if (result != NULL && result_append(result, cells, tuple != NULL)) return result;
    result_release(result);
    PyErr_NoMemory();
    return NULL;
}

/* Returns the columns of a result from a row on. Takes the reference of the result, which may be NULL with an exception. */
static PyObject *columns_new(const State *state, Result *result, Shape *shape, size_t first, size_t rows) {
    Columns *self = result == NULL ? NULL : (Columns *)PyType_GenericAlloc(state->columns_type, 0);
    if (self == NULL) {
        result_release(result);
        return NULL;
    }
    self->result = result;
    self->shape = shape_retain(shape);
    self->first = first;
    self->rows = rows;
    return (PyObject *)self;
}

PyObject *columns_from_cursor(Cursor *cursor) {
    State *state = cursor->connection->state;
    /* The rows are taken from the cursor first: making objects may run code that uses it. */
    size_t first = cursor->at;
    Result *result = result_retain(cursor->result);
    Shape *shape = shape_retain(cursor->shape);
    PyObject *one = cursor->one;
    cursor->one = NULL;
    cursor->at = cursor->rows;
    size_t rows = cursor->rows - first;
    PyObject *columns = result != NULL ? columns_new(state, result, shape, first, rows)
                                       : columns_new(state, result_of_tuple(state, shape, one), shape, 0, rows);
    /* If they could not be made, and the cursor was not used meanwhile, it gets them back. */
    if (columns == NULL && cursor->shape == shape && cursor->at == cursor->rows && cursor->one == NULL) {
        cursor->at = first;
        cursor->one = one;
        one = NULL;
    }
    shape_release(shape);
    Py_XDECREF(one);
    return columns;
}

static void columns_dealloc(PyObject *object) {
    Columns *self = (Columns *)object;
    result_release(self->result);
    shape_release(self->shape);
    free_object(object);
}

static Py_ssize_t columns_length(PyObject *self) { return (Py_ssize_t)((Columns *)self)->shape->width; }

/* Returns the offsets and the bytes of a column of texts. */
static PyObject *views_of_texts(const State *state, const Columns *self, const Column *column) {
    const int32_t *offsets = column->offsets + self->first;
    PyObject *places = view_of(state, self->result, offsets, self->rows + 1, sizeof *offsets, "i");
    PyObject *bytes = view_of(state, self->result, column->bytes, (size_t)offsets[self->rows], 1, "B");
    PyObject *both = places == NULL || bytes == NULL ? NULL : PyTuple_Pack(2, places, bytes);
    Py_XDECREF(places);
    Py_XDECREF(bytes);
    return both;
}

static PyObject *columns_item(PyObject *object, Py_ssize_t place) {
    Columns *self = (Columns *)object;
    State *state = state_of_type(Py_TYPE(object));
    if (state == NULL) return NULL;
    if (place < 0 || place >= columns_length(object)) return PyErr_Format(PyExc_IndexError, "there is no such column");
    const Column *column = &self->result->columns[place];
    if (column->kind == MMDB_STRING) return views_of_texts(state, self, column);
    return view_of(state, self->result, column->numbers + self->first, self->rows, sizeof *column->numbers, "q");
}

static PyObject *columns_subscript(PyObject *object, PyObject *key) {
    if (!PyUnicode_Check(key)) {
        Py_ssize_t place = PyNumber_AsSsize_t(key, PyExc_IndexError);
        if (place == -1 && PyErr_Occurred()) return NULL;
        return columns_item(object, place < 0 ? place + columns_length(object) : place);
    }
    PyObject *names = shape_names(((Columns *)object)->shape);
    Py_ssize_t place = names == NULL ? -1 : PySequence_Index(names, key);
    if (place >= 0) return columns_item(object, place);
    if (PyErr_ExceptionMatches(PyExc_ValueError)) PyErr_Format(PyExc_KeyError, "no column is named %R", key);
    return NULL;
}

static PyObject *get_names(PyObject *self, void *unused) {
    (void)unused;
    return Py_XNewRef(shape_names(((Columns *)self)->shape));
}

static PyObject *get_rows(PyObject *self, void *unused) {
    (void)unused;
    return PyLong_FromSize_t(((Columns *)self)->rows);
}

static PyMethodDef columns_methods[] = {
    {"__arrow_c_schema__", columns_arrow_schema, METH_NOARGS,
     "__arrow_c_schema__($self, /)\n--\n\nReturns the types of the columns as a capsule of Arrow's C data interface."},
    {"__arrow_c_array__", FAST_CALL(columns_arrow_array), METH_FASTCALL | METH_KEYWORDS,
     "__arrow_c_array__($self, /, requested_schema=None)\n--\n\n"
     "Returns the types and the rows as a pair of capsules of Arrow's C data interface. The rows are not copied."},
    {NULL, NULL, 0, NULL},
};

static PyGetSetDef columns_attributes[] = {
    {"names", get_names, NULL, "The names of the columns as a tuple.", NULL},
    {"rows", get_rows, NULL, "The number of rows.", NULL},
    {NULL, NULL, NULL, NULL, NULL},
};

static PyType_Slot columns_slots[] = {
    {Py_tp_doc, "The rows of a result as columns, as Cursor.fetchcolumns makes them. They share the memory of the result.\n\n"
                "columns[0] and columns[\"name\"] are a column: for INT a memoryview of int64; for TEXT a pair of memoryviews, the\n"
                "offsets (int32) at which each text begins and the last one ends, and the bytes of all texts. This is Arrow's layout.\n"
                "If two columns have the same name, it finds the first of them."},
    {Py_tp_dealloc, columns_dealloc},
    {Py_tp_methods, columns_methods},
    {Py_tp_getset, columns_attributes},
    {Py_sq_length, columns_length},
    {Py_sq_item, columns_item},
    {Py_mp_length, columns_length},
    {Py_mp_subscript, columns_subscript},
    {0, NULL},
};

PyType_Spec columns_spec = {
    .name = "mmdb.Columns",
    .basicsize = sizeof(Columns),
    .flags = Py_TPFLAGS_DEFAULT | Py_TPFLAGS_DISALLOW_INSTANTIATION,
    .slots = columns_slots,
};
