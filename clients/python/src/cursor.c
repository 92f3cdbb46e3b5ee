/* Cursors: their rows and how they are fetched. No function here calls the library. */
#include "client.h"

Cursor *cursor_new(Connection *connection) {
    PyTypeObject *type = connection->state->cursor_type;
    Cursor *self = (Cursor *)PyType_GenericAlloc(type, 0);
    if (self == NULL) return NULL;
    self->connection = (Connection *)Py_NewRef((PyObject *)connection);
    self->row_factory = Py_XNewRef(connection->row_factory);
    self->array_size = 1;
    self->row_count = -1;
    return self;
}

static int cursor_init(PyObject *object, PyObject *arguments, PyObject *keywords) {
    static char *names[] = {"connection", NULL};
    Cursor *self = (Cursor *)object;
    State *state = state_of_type(Py_TYPE(object));
    PyObject *connection;
    if (state == NULL) return -1;
    if (!PyArg_ParseTupleAndKeywords(arguments, keywords, "O!:Cursor", names, state->connection_type, &connection)) return -1;
    if (self->connection != NULL) {
        raise_words(state, PROGRAMMING_ERROR, "a cursor is made once");
        return -1;
    }
    if (!connection_check((Connection *)connection)) return -1;
    self->connection = (Connection *)Py_NewRef(connection);
    self->row_factory = Py_XNewRef(self->connection->row_factory);
    self->array_size = 1;
    self->row_count = -1;
    return 0;
}

void cursor_forget(Cursor *self) {
    PyObject *one = self->one;
    Result *result = self->result;
    Shape *shape = self->shape;
    self->has_rows = false;
    self->row_count = -1;
    self->at = self->rows = 0;
    self->one = NULL;
    self->result = NULL;
    self->shape = NULL;
    result_release(result);
    shape_release(shape);
    /* A text_factory may have put anything into the row, so code may run here. The cursor is as it should be already. */
    Py_XDECREF(one);
}

bool cursor_check_open(Cursor *self) {
    if (self->connection == NULL) {
        State *state = state_of_type(Py_TYPE((PyObject *)self));
        if (state != NULL) raise_words(state, PROGRAMMING_ERROR, "Cursor.__init__ was not called");
        return false;
    }
    if (self->is_closed) raise_words(self->connection->state, PROGRAMMING_ERROR, "the cursor is closed");
    return !self->is_closed;
}

bool cursor_check(Cursor *self) { return cursor_check_open(self) && connection_check(self->connection); }

bool cursor_check_rows(Cursor *self) {
    if (!cursor_check_open(self)) return false;
    if (self->connection->phase != OPEN) return connection_check(self->connection);
    if (self->has_rows) return true;
    raise_words(self->connection->state, PROGRAMMING_ERROR, "there are no rows to fetch: the last line returned none");
    return false;
}

/* ---- Fetching --------------------------------------------------------------------------------------------------------------------- */

/* Gives rows back that were taken from a cursor and could not be made, unless it was used meanwhile. */
static void give_back(Cursor *self, const Result *result, size_t first, size_t count) {
    if (self->result == result && self->at == first + count) self->at = first;
}

/* Returns the next row as a tuple. There is one. */
static PyObject *next_tuple(Cursor *self) {
    size_t at = self->at++;
    if (self->one != NULL) {
        PyObject *row = self->one;
        self->one = NULL;
        return row;
    }
    /* Making the row may run code that uses this cursor or sets another text_factory, so both are held. */
    Result *result = result_retain(self->result);
    PyObject *factory = Py_XNewRef(self->connection->text_factory);
    PyObject *row = row_from_result(factory, result, at);
    if (row == NULL) give_back(self, result, at, 1);
    Py_XDECREF(factory);
    result_release(result);
    return row;
}

/* Returns what the row factory makes of a row, whose reference it takes. */
static PyObject *made_row(Cursor *self, PyObject *row) {
    if (row == NULL || self->row_factory == NULL || self->row_factory == Py_None) return row;
    PyObject *factory = Py_NewRef(self->row_factory);
    PyObject *made = PyObject_CallFunctionObjArgs(factory, (PyObject *)self, row, NULL);
    Py_DECREF(factory);
    Py_DECREF(row);
    return made;
}

/* Returns the next row, or NULL without an exception if there is none. */
static PyObject *cursor_next(PyObject *object) {
    Cursor *self = (Cursor *)object;
    if (!cursor_check_rows(self) || self->at >= self->rows) return NULL;
    return made_row(self, next_tuple(self));
}

static PyObject *cursor_fetchone(PyObject *self, PyObject *unused) {
    (void)unused;
    PyObject *row = cursor_next(self);
    return row != NULL || PyErr_Occurred() ? row : Py_NewRef(Py_None);
}

/* Returns the next count rows of a result as tuples. The cursor is not used. */
static PyObject *fetch_tuples(PyObject *factory, Result *result, size_t first, size_t count) {
    PyObject *list = PyList_New((Py_ssize_t)count);
    for (size_t i = 0; list != NULL && i < count; i++) {
        PyObject *row = row_from_result(factory, result, first + i);
        if (row == NULL) {
            Py_CLEAR(list);
        } else {
            PyList_SetItem(list, (Py_ssize_t)i, row);
        }
    }
    return list;
}

/* Returns the next rows one after the other, as a factory may fetch rows of this cursor too. */
static PyObject *fetch_each(Cursor *self, size_t most) {
    PyObject *list = PyList_New(0);
    for (size_t i = 0; list != NULL && i < most && self->has_rows && self->at < self->rows; i++) {
        PyObject *row = made_row(self, next_tuple(self));
        if (row == NULL || PyList_Append(list, row) < 0) Py_CLEAR(list);
        Py_XDECREF(row);
    }
    return list;
}

static PyObject *fetch(Cursor *self, size_t most) {
    if (!cursor_check_rows(self)) return NULL;
    bool has_factory = self->row_factory != NULL && self->row_factory != Py_None;
    if (self->result == NULL || has_factory || has_own_texts(self->connection->text_factory)) return fetch_each(self, most);
    /* The rows are taken from the cursor first: a finalizer may use it while they are made. */
    Result *result = result_retain(self->result);
    PyObject *factory = Py_XNewRef(self->connection->text_factory);
    size_t first = self->at, left = self->rows - first;
    if (left > most) left = most;
    self->at += left;
    PyObject *list = fetch_tuples(factory, result, first, left);
    if (list == NULL) give_back(self, result, first, left);
    Py_XDECREF(factory);
    result_release(result);
    return list;
}

static PyObject *cursor_fetchmany(PyObject *object, PyObject *const *arguments, Py_ssize_t count, PyObject *keywords) {
    static const char *const names[] = {"size"};
    Cursor *self = (Cursor *)object;
    PyObject *given = NULL;
    if (!arguments_read("fetchmany", names, 0, 1, arguments, count, keywords, &given)) return NULL;
    Py_ssize_t size = self->array_size;
    if (given != NULL && given != Py_None) size = PyNumber_AsSsize_t(given, PyExc_OverflowError);
    if (size == -1 && PyErr_Occurred()) return NULL;
    return fetch(self, size < 0 ? 0 : (size_t)size);
}

static PyObject *cursor_fetchall(PyObject *self, PyObject *unused) {
    (void)unused;
    return fetch((Cursor *)self, SIZE_MAX);
}

static PyObject *cursor_fetchcolumns(PyObject *object, PyObject *unused) {
    (void)unused;
    Cursor *self = (Cursor *)object;
    return cursor_check_rows(self) ? columns_from_cursor(self) : NULL;
}

/* ---- Running lines ---------------------------------------------------------------------------------------------------------------- */

static PyObject *self_if(PyObject *self, bool is_done) { return is_done ? Py_NewRef(self) : NULL; }

static PyObject *cursor_execute(PyObject *self, PyObject *const *arguments, Py_ssize_t count, PyObject *keywords) {
    static const char *const names[] = {"operation", "parameters"};
    PyObject *values[] = {NULL, NULL};
    if (!arguments_read("execute", names, 1, 2, arguments, count, keywords, values)) return NULL;
    return self_if(self, cursor_run((Cursor *)self, values[0], values[1]));
}

static PyObject *cursor_executemany(PyObject *self, PyObject *const *arguments, Py_ssize_t count, PyObject *keywords) {
    static const char *const names[] = {"operation", "seq_of_parameters"};
    PyObject *values[] = {NULL, NULL};
    if (!arguments_read("executemany", names, 2, 2, arguments, count, keywords, values)) return NULL;
    return self_if(self, cursor_run_many((Cursor *)self, values[0], values[1]));
}

static PyObject *cursor_executecolumns(PyObject *self, PyObject *const *arguments, Py_ssize_t count, PyObject *keywords) {
    static const char *const names[] = {"operation", "columns"};
    PyObject *values[] = {NULL, NULL};
    if (!arguments_read("executecolumns", names, 2, 2, arguments, count, keywords, values)) return NULL;
    return self_if(self, cursor_run_columns((Cursor *)self, values[0], values[1]));
}

static PyObject *cursor_executescript(PyObject *self, PyObject *const *arguments, Py_ssize_t count, PyObject *keywords) {
    static const char *const names[] = {"script"};
    PyObject *script = NULL;
    if (!arguments_read("executescript", names, 1, 1, arguments, count, keywords, &script)) return NULL;
    return self_if(self, cursor_run_script((Cursor *)self, script));
}

/* ---- The type --------------------------------------------------------------------------------------------------------------------- */

static int cursor_traverse(PyObject *object, visitproc visit, void *arg) {
    Cursor *self = (Cursor *)object;
    Py_VISIT(Py_TYPE(object));
    Py_VISIT((PyObject *)self->connection);
    Py_VISIT(self->row_factory);
    Py_VISIT(self->one);
    return 0;
}

static int cursor_clear(PyObject *object) {
    Cursor *self = (Cursor *)object;
    self->is_closed = true;
    cursor_forget(self);
    Py_CLEAR(self->row_factory);
    PyObject *connection = (PyObject *)self->connection;
    self->connection = NULL;
    Py_XDECREF(connection);
    return 0;
}

static void cursor_dealloc(PyObject *object) {
    PyObject_GC_UnTrack(object);
    if (((Cursor *)object)->weak_references != NULL) PyObject_ClearWeakRefs(object);
    cursor_clear(object);
    free_object(object);
}

static PyObject *cursor_close(PyObject *object, PyObject *unused) {
    (void)unused;
    Cursor *self = (Cursor *)object;
    self->is_closed = true;
    cursor_forget(self);
    return Py_NewRef(Py_None);
}

static PyObject *cursor_enter(PyObject *self, PyObject *unused) {
    (void)unused;
    return self_if(self, cursor_check((Cursor *)self));
}

static PyObject *cursor_exit(PyObject *self, PyObject *arguments) { return cursor_close(self, arguments); }

/* setinputsizes and setoutputsize. */
static PyObject *cursor_set_size(PyObject *self, PyObject *arguments) {
    (void)arguments;
    return cursor_check((Cursor *)self) ? Py_NewRef(Py_None) : NULL;
}

static PyObject *cursor_iter(PyObject *self) { return Py_NewRef(self); }

static PyObject *get_description(PyObject *object, void *unused) {
    (void)unused;
    Shape *shape = shape_retain(((Cursor *)object)->shape);
    if (shape == NULL) return Py_NewRef(Py_None);
    PyObject *description = Py_XNewRef(shape_description(shape));
    shape_release(shape);
    return description;
}

static PyObject *get_connection(PyObject *object, void *unused) {
    (void)unused;
    return object_or_none((PyObject *)((Cursor *)object)->connection);
}

static PyObject *get_lastrowid(PyObject *self, void *unused) {
    (void)self;
    (void)unused;
    return Py_NewRef(Py_None);
}

static PyObject *get_rownumber(PyObject *object, void *unused) {
    (void)unused;
    Cursor *self = (Cursor *)object;
    return self->has_rows ? PyLong_FromSize_t(self->at) : Py_NewRef(Py_None);
}

static PyMethodDef cursor_methods[] = {
    {"execute", FAST_CALL(cursor_execute), METH_FASTCALL | METH_KEYWORDS,
     "execute($self, /, operation, parameters=())\n--\n\n"
     "Runs a line with a value for each ? in it, from left to right, and returns the cursor.\n\n"
     "Before an INSERT, an UPDATE, a DELETE or a SAVEPOINT it begins a transaction, unless one is open or the connection has\n"
     "autocommit. All rows of the reply are read at once, so later changes do not show in them. Raises a subclass of Error if\n"
     "the line is refused; then nothing has changed, and the rows of the line before are forgotten."},
    {"executemany", FAST_CALL(cursor_executemany), METH_FASTCALL | METH_KEYWORDS,
     "executemany($self, /, operation, seq_of_parameters)\n--\n\n"
     "Runs an INSERT, an UPDATE or a DELETE once for each row of values, and returns the cursor.\n\n"
     "Stops at the first run that is refused. The runs before it stay done, in the open transaction, and the attribute runs of\n"
     "the exception is their number. Takes up to 1,024 values from the iterable before it runs the line for them."},
    {"executecolumns", FAST_CALL(cursor_executecolumns), METH_FASTCALL | METH_KEYWORDS,
     "executecolumns($self, /, operation, columns)\n--\n\n"
     "Runs an INSERT, an UPDATE or a DELETE once for each row of columns, and returns the cursor.\n\n"
     "There is a column for each ?: a buffer of int64 with one dimension; a list of values; or a tuple of a buffer of int32\n"
     "offsets and a buffer of bytes, which are texts as fetchcolumns returns them. Fails as executemany does."},
    {"executescript", FAST_CALL(cursor_executescript), METH_FASTCALL | METH_KEYWORDS,
     "executescript($self, /, script)\n--\n\n"
     "Runs the commands of a script up to the first that is refused, and returns the cursor. Begins no transaction by itself.\n\n"
     "A line goes on with the command before it if that can be read further there, and is not complete or the line is no command\n"
     "itself. An empty line or a comment ends a command."},
    {"fetchone", cursor_fetchone, METH_NOARGS, "fetchone($self, /)\n--\n\nReturns the next row, or None if there is none."},
    {"fetchmany", FAST_CALL(cursor_fetchmany), METH_FASTCALL | METH_KEYWORDS,
     "fetchmany($self, /, size=None)\n--\n\nReturns a list of the next rows, at most size of them, or arraysize if it is not passed."},
    {"fetchall", cursor_fetchall, METH_NOARGS, "fetchall($self, /)\n--\n\nReturns a list of all rows that are left."},
    {"fetchcolumns", cursor_fetchcolumns, METH_NOARGS,
     "fetchcolumns($self, /)\n--\n\nReturns all rows that are left as Columns, which share the memory of the result."},
    {"setinputsizes", cursor_set_size, METH_VARARGS,
     "setinputsizes($self, sizes, /)\n--\n\nDoes nothing: no value needs memory in advance."},
    {"setoutputsize", cursor_set_size, METH_VARARGS,
     "setoutputsize($self, size, column=None, /)\n--\n\nDoes nothing: each value is read whole."},
    {"close", cursor_close, METH_NOARGS, "close($self, /)\n--\n\nForgets the rows and closes the cursor. A closed cursor stays closed."},
    {"__enter__", cursor_enter, METH_NOARGS, "__enter__($self, /)\n--\n\nReturns the cursor."},
    {"__exit__", cursor_exit, METH_VARARGS, "__exit__($self, /, *exception)\n--\n\nCloses the cursor."},
    {NULL, NULL, 0, NULL},
};

static PyMemberDef cursor_members[] = {
    {"row_factory", T_OBJECT, offsetof(Cursor, row_factory), 0, "Makes a row of this cursor and a tuple. None makes tuples."},
    {"arraysize", T_PYSSIZET, offsetof(Cursor, array_size), 0, "The number of rows that fetchmany returns if it is not told."},
    {"rowcount", T_PYSSIZET, offsetof(Cursor, row_count), READONLY, "The number of rows that the last line returned or changed, or -1."},
    {"__weaklistoffset__", T_PYSSIZET, offsetof(Cursor, weak_references), READONLY, NULL},
    {NULL, 0, 0, 0, NULL},
};

static PyGetSetDef cursor_attributes[] = {
    {"connection", get_connection, NULL, "The connection of the cursor.", NULL},
    {"description", get_description, NULL,
     "For each column of the rows its name, its type (int or str) and five times None. None if the last line returned no rows.", NULL},
    {"lastrowid", get_lastrowid, NULL, "None: rows have no numbers of their own.", NULL},
    {"rownumber", get_rownumber, NULL, "The number of rows that were fetched. None if the last line returned no rows.", NULL},
    {NULL, NULL, NULL, NULL, NULL},
};

static PyType_Slot cursor_slots[] = {
    {Py_tp_doc, "Cursor(connection)\n--\n\nRuns lines, and keeps the rows of the last one."},
    {Py_tp_init, cursor_init},
    {Py_tp_dealloc, cursor_dealloc},
    {Py_tp_traverse, cursor_traverse},
    {Py_tp_clear, cursor_clear},
    {Py_tp_iter, cursor_iter},
    {Py_tp_iternext, cursor_next},
    {Py_tp_methods, cursor_methods},
    {Py_tp_members, cursor_members},
    {Py_tp_getset, cursor_attributes},
    {0, NULL},
};

PyType_Spec cursor_spec = {
    .name = "mmdb.Cursor",
    .basicsize = sizeof(Cursor),
    .flags = Py_TPFLAGS_DEFAULT | Py_TPFLAGS_BASETYPE | Py_TPFLAGS_HAVE_GC,
    .slots = cursor_slots,
};
