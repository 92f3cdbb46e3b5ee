/* Connections: opening and closing, threads, transactions. */
#include "client.h"

/* ---- Which thread may use a connection, and one at a time ------------------------------------------------------------------------- */

/* The number of this thread, which no other thread of the interpreter ever gets. The system gives its identities again. */
static uint64_t number_of_thread(void) { return PyThreadState_GetID(PyThreadState_Get()); }

static bool check_phase(const Connection *self) {
    if (self->phase == OPEN) return true;
    if (self->phase == CLOSED) {
        raise_words(self->state, PROGRAMMING_ERROR, "the connection is closed");
    } else {
        State *state = state_of_type(Py_TYPE((PyObject *)self));
        if (state != NULL) raise_words(state, PROGRAMMING_ERROR, "Connection.__init__ was not called");
    }
    return false;
}

static bool check_thread(const Connection *self) {
    if (self->owner == 0 || self->owner == number_of_thread()) return true;
    raise_words(self->state, PROGRAMMING_ERROR,
                "a connection is used by the thread that made it alone, unless it was opened with check_same_thread=False");
    return false;
}

bool connection_check(Connection *self) { return check_phase(self) && check_thread(self); }

void connection_lock(Connection *self) {
    if (self->lock == NULL || PyThread_acquire_lock(self->lock, NOWAIT_LOCK)) return;
    PyThreadState *thread = PyEval_SaveThread();
    PyThread_acquire_lock(self->lock, WAIT_LOCK);
    PyEval_RestoreThread(thread);
}

bool connection_enter(Connection *self) {
    if (!connection_check(self)) return false;
    connection_lock(self);
    if (self->phase == OPEN) return true;
    /* It was closed while this thread waited. */
    connection_leave(self);
    return check_phase(self);
}

void connection_leave(Connection *self) {
    if (self->lock != NULL) PyThread_release_lock(self->lock);
}

bool connection_trace(Connection *self, PyObject *line) {
    if (self->trace_callback == NULL || self->trace_callback == Py_None) return true;
    PyObject *callback = Py_NewRef(self->trace_callback);
    PyObject *answer = PyObject_CallFunctionObjArgs(callback, line, NULL);
    Py_DECREF(callback);
    Py_XDECREF(answer);
    return answer != NULL;
}

/* ---- Opening and closing ---------------------------------------------------------------------------------------------------------- */

static uint8_t prepare_word(mmdb *db, const char *word, size_t *number) {
    return mmdb_prepare(db, (const uint8_t *)word, strlen(word), number);
}

/* Opens the database. What ends a transaction is prepared now, so that it needs no memory when it runs. */
static uint8_t open_database(Connection *self) {
    uint8_t status = mmdb_open(&self->db);
    if (status == MMDB_DONE) status = prepare_word(&self->db, "BEGIN", &self->begin);
    if (status == MMDB_DONE) status = prepare_word(&self->db, "COMMIT", &self->commit);
    if (status == MMDB_DONE) status = prepare_word(&self->db, "ROLLBACK", &self->rollback);
    if (status != MMDB_DONE) mmdb_close(&self->db);
    return status;
}

static int connection_init(PyObject *object, PyObject *arguments, PyObject *keywords) {
    static char *names[] = {"autocommit", "check_same_thread", NULL};
    Connection *self = (Connection *)object;
    int autocommit = 0, is_checked = 1;
    if (!PyArg_ParseTupleAndKeywords(arguments, keywords, "|pp:Connection", names, &autocommit, &is_checked)) return -1;
    State *state = state_of_type(Py_TYPE(object));
    if (state == NULL) return -1;
    if (self->phase != NEW) {
        raise_words(state, PROGRAMMING_ERROR, "a connection is opened once");
        return -1;
    }
    PyThread_type_lock lock = NULL;
    if (!is_checked && (lock = PyThread_allocate_lock()) == NULL) {
        PyErr_NoMemory();
        return -1;
    }
    uint8_t status = open_database(self);
    if (status != MMDB_DONE) {
        if (lock != NULL) PyThread_free_lock(lock);
        raise_status(state, status, NULL);
        return -1;
    }
    self->state = state;
    self->lock = lock;
    self->owner = is_checked ? number_of_thread() : 0;
    self->autocommit = autocommit;
    self->phase = OPEN;
    return 0;
}

/* Closes the database, which frees all that it has. Other threads run meanwhile. */
static void close_database(Connection *self) {
    self->phase = CLOSED;
    cache_clear(self);
    PyThreadState *thread = PyEval_SaveThread();
    mmdb_close(&self->db);
    PyEval_RestoreThread(thread);
}

static PyObject *connection_close(PyObject *object, PyObject *unused) {
    (void)unused;
    Connection *self = (Connection *)object;
    if (self->phase == OPEN) {
        if (!check_thread(self)) return NULL;
        connection_lock(self);
        if (self->phase == OPEN) close_database(self);
        connection_leave(self);
    }
    return Py_NewRef(Py_None);
}

static int connection_traverse(PyObject *object, visitproc visit, void *arg) {
    Connection *self = (Connection *)object;
    Py_VISIT(Py_TYPE(object));
    Py_VISIT(self->row_factory);
    Py_VISIT(self->text_factory);
    Py_VISIT(self->trace_callback);
    return 0;
}

static int connection_clear(PyObject *object) {
    Connection *self = (Connection *)object;
    Py_CLEAR(self->row_factory);
    Py_CLEAR(self->text_factory);
    Py_CLEAR(self->trace_callback);
    return 0;
}

static void connection_dealloc(PyObject *object) {
    Connection *self = (Connection *)object;
    PyObject_GC_UnTrack(object);
    if (self->weak_references != NULL) PyObject_ClearWeakRefs(object);
    connection_clear(object);
    /* Nothing refers to the connection, so no thread is in a call, and this thread may close it. */
    if (self->phase == OPEN) close_database(self);
    if (self->lock != NULL) PyThread_free_lock(self->lock);
    free_object(object);
}

/* ---- Transactions ----------------------------------------------------------------------------------------------------------------- */

/* Runs COMMIT or ROLLBACK if a transaction is open. */
static bool end_transaction(Connection *self, bool commits) {
    if (!connection_enter(self)) return false;
    uint8_t status = MMDB_DONE;
    if (mmdb_in_transaction(&self->db)) {
        PyThreadState *thread = PyEval_SaveThread();
        status = mmdb_run(&self->db, commits ? self->commit : self->rollback, NULL, 0);
        if (status == MMDB_DONE) self->savepoints.count = 0;
        PyEval_RestoreThread(thread);
    }
    connection_leave(self);
    if (status != MMDB_DONE) raise_status(self->state, status, NULL);
    return status == MMDB_DONE;
}

PyObject *connection_commit(PyObject *self, PyObject *unused) {
    (void)unused;
    return end_transaction((Connection *)self, true) ? Py_NewRef(Py_None) : NULL;
}

PyObject *connection_rollback(PyObject *self, PyObject *unused) {
    (void)unused;
    return end_transaction((Connection *)self, false) ? Py_NewRef(Py_None) : NULL;
}

static PyObject *connection_enter_with(PyObject *self, PyObject *unused) {
    (void)unused;
    return connection_check((Connection *)self) ? Py_NewRef(self) : NULL;
}

static PyObject *connection_exit_with(PyObject *self, PyObject *const *arguments, Py_ssize_t count) {
    bool commits = count == 0 || arguments[0] == Py_None;
    return end_transaction((Connection *)self, commits) ? Py_NewRef(Py_False) : NULL;
}

static PyObject *get_autocommit(PyObject *self, void *unused) {
    (void)unused;
    return PyBool_FromLong(((Connection *)self)->autocommit);
}

static int set_autocommit(PyObject *object, PyObject *value, void *unused) {
    (void)unused;
    Connection *self = (Connection *)object;
    if (value == NULL) {
        PyErr_SetString(PyExc_AttributeError, "autocommit cannot be deleted");
        return -1;
    }
    int is_wanted = PyObject_IsTrue(value);
    if (is_wanted < 0 || !connection_check(self)) return -1;
    if (is_wanted && !end_transaction(self, true)) return -1;
    self->autocommit = is_wanted;
    return 0;
}

static PyObject *get_in_transaction(PyObject *object, void *unused) {
    (void)unused;
    Connection *self = (Connection *)object;
    if (!connection_enter(self)) return NULL;
    bool is_open = mmdb_in_transaction(&self->db);
    connection_leave(self);
    return PyBool_FromLong(is_open);
}

static PyObject *get_total_changes(PyObject *object, void *unused) {
    (void)unused;
    Connection *self = (Connection *)object;
    if (!connection_enter(self)) return NULL;
    uint64_t changes = mmdb_total_changes(&self->db);
    connection_leave(self);
    return PyLong_FromUnsignedLongLong(changes);
}

/* The lines in the cache, from the least recently used on, each with the number of its statement. */
static PyObject *get_statements(PyObject *object, void *unused) {
    (void)unused;
    PyObject *lines = PyDict_New();
    Statement *statement = ((Connection *)object)->cache.oldest;
    for (; lines != NULL && statement != NULL; statement = statement->newer) {
        PyObject *number = PyLong_FromSize_t(statement->number);
        if (number == NULL || PyDict_SetItem(lines, statement->key, number) < 0) Py_CLEAR(lines);
        Py_XDECREF(number);
    }
    return lines;
}

/* ---- Lines ------------------------------------------------------------------------------------------------------------------------ */

static PyObject *connection_cursor(PyObject *object, PyObject *unused) {
    (void)unused;
    Connection *self = (Connection *)object;
    return connection_check(self) ? (PyObject *)cursor_new(self) : NULL;
}

/* Runs a call of a new cursor and returns the cursor. */
static PyObject *by_new_cursor(Connection *self, PyObject *const *values, bool (*run)(Cursor *, PyObject *, PyObject *)) {
    /* The call checks the thread. */
    if (!check_phase(self)) return NULL;
    Cursor *cursor = cursor_new(self);
    if (cursor != NULL && !run(cursor, values[0], values[1])) Py_CLEAR(cursor);
    return (PyObject *)cursor;
}

static PyObject *connection_execute(PyObject *self, PyObject *const *arguments, Py_ssize_t count, PyObject *keywords) {
    static const char *const names[] = {"operation", "parameters"};
    PyObject *values[] = {NULL, NULL};
    if (!arguments_read("execute", names, 1, 2, arguments, count, keywords, values)) return NULL;
    return by_new_cursor((Connection *)self, values, cursor_run);
}

static PyObject *connection_executemany(PyObject *self, PyObject *const *arguments, Py_ssize_t count, PyObject *keywords) {
    static const char *const names[] = {"operation", "seq_of_parameters"};
    PyObject *values[] = {NULL, NULL};
    if (!arguments_read("executemany", names, 2, 2, arguments, count, keywords, values)) return NULL;
    return by_new_cursor((Connection *)self, values, cursor_run_many);
}

static PyObject *connection_executecolumns(PyObject *self, PyObject *const *arguments, Py_ssize_t count, PyObject *keywords) {
    static const char *const names[] = {"operation", "columns"};
    PyObject *values[] = {NULL, NULL};
    if (!arguments_read("executecolumns", names, 2, 2, arguments, count, keywords, values)) return NULL;
    return by_new_cursor((Connection *)self, values, cursor_run_columns);
}

static bool run_script(Cursor *cursor, PyObject *script, PyObject *unused) {
    (void)unused;
    return cursor_run_script(cursor, script);
}

static PyObject *connection_executescript(PyObject *self, PyObject *const *arguments, Py_ssize_t count, PyObject *keywords) {
    static const char *const names[] = {"script"};
    PyObject *values[] = {NULL, NULL};
    if (!arguments_read("executescript", names, 1, 1, arguments, count, keywords, values)) return NULL;
    return by_new_cursor((Connection *)self, values, run_script);
}

/* Runs a line that a format makes of a name, and of a query if there is one, by a new cursor. */
static PyObject *run_named(Connection *self, const char *format, PyObject *name, PyObject *query) {
    if (!connection_check(self) || !name_check(self->state, name)) return NULL;
    PyObject *line = PyUnicode_FromFormat(format, name, query);
    if (line == NULL) return NULL;
    PyObject *values[] = {line, NULL};
    PyObject *cursor = by_new_cursor(self, values, cursor_run);
    Py_DECREF(line);
    return cursor;
}

static PyObject *connection_watch(PyObject *self, PyObject *const *arguments, Py_ssize_t count, PyObject *keywords) {
    static const char *const names[] = {"name", "query"};
    PyObject *values[] = {NULL, NULL};
    if (!arguments_read("watch", names, 2, 2, arguments, count, keywords, values)) return NULL;
    if (!PyUnicode_Check(values[1])) return PyErr_Format(PyExc_TypeError, "a query is a str");
    PyObject *cursor = run_named((Connection *)self, "WATCH %U %U", values[0], values[1]);
    if (cursor == NULL) return NULL;
    Py_DECREF(cursor);
    return Py_NewRef(Py_None);
}

static PyObject *connection_unwatch(PyObject *self, PyObject *name) {
    PyObject *cursor = run_named((Connection *)self, "UNWATCH %U", name, NULL);
    if (cursor == NULL) return NULL;
    Py_DECREF(cursor);
    return Py_NewRef(Py_None);
}

static PyObject *connection_show(PyObject *self, PyObject *name) { return run_named((Connection *)self, "SHOW %U", name, NULL); }

static PyObject *connection_set_trace_callback(PyObject *object, PyObject *callback) {
    Connection *self = (Connection *)object;
    if (!connection_check(self)) return NULL;
    PyObject *old = self->trace_callback;
    self->trace_callback = Py_NewRef(callback);
    Py_XDECREF(old);
    return Py_NewRef(Py_None);
}

/* Returns an iterator over the lines of a dump, by the module mmdb._dump. */
static PyObject *connection_iterdump(PyObject *self, PyObject *unused) {
    (void)unused;
    if (!connection_check((Connection *)self)) return NULL;
    PyObject *module = PyImport_ImportModule("mmdb._dump");
    PyObject *lines = module == NULL ? NULL : PyObject_CallMethod(module, "iterdump", "O", self);
    Py_XDECREF(module);
    return lines;
}

/* The kind that a word names; a table if there is no word. Returns false with an exception. */
static bool kind_of_definition(const State *state, PyObject *word, uint8_t *kind) {
    static const struct { const char *word; uint8_t kind; } kinds[] = {{"table", MMDB_KIND_TABLE}, {"index", MMDB_KIND_INDEX}, {"watch", MMDB_KIND_WATCH}};
    if (word != NULL && !PyUnicode_Check(word)) {
        PyErr_SetString(PyExc_TypeError, "a kind is a str");
        return false;
    }
    for (size_t i = 0; i < sizeof kinds / sizeof *kinds; i++) {
        *kind = kinds[i].kind;
        if (word == NULL || PyUnicode_CompareWithASCIIString(word, kinds[i].word) == 0) return true;
    }
    raise_words(state, PROGRAMMING_ERROR, "the kind is 'table', 'index' or 'watch', and not %R", word);
    return false;
}

/* Returns the line that defines what has a name, or NULL with an exception. */
static PyObject *definition_of(Connection *self, uint8_t kind, const Text *name) {
    char line[LONGEST_LINE];
    size_t needed = 0;
    if (!connection_enter(self)) return NULL;
    uint8_t status = mmdb_definition(&self->db, kind, (const uint8_t *)name->bytes, name->length, (uint8_t *)line, sizeof line, &needed);
    connection_leave(self);
    if (status == MMDB_DONE) return PyUnicode_DecodeUTF8(line, (Py_ssize_t)(needed < sizeof line ? needed : sizeof line), "surrogateescape");
    raise_status(self->state, status, status == MMDB_MEMORY ? NULL : name->bytes);
    return NULL;
}

static PyObject *connection_definition(PyObject *object, PyObject *const *arguments, Py_ssize_t count, PyObject *keywords) {
    static const char *const names[] = {"name", "kind"};
    PyObject *values[] = {NULL, NULL};
    Connection *self = (Connection *)object;
    uint8_t kind;
    Text name;
    if (!arguments_read("definition", names, 1, 2, arguments, count, keywords, values) || !connection_check(self)) return NULL;
    if (!PyUnicode_Check(values[0])) return PyErr_Format(PyExc_TypeError, "a name is a str");
    if (!kind_of_definition(self->state, values[1], &kind) || !text_open(values[0], &name)) return NULL;
    PyObject *line = definition_of(self, kind, &name);
    text_close(&name);
    return line;
}

/* ---- The type --------------------------------------------------------------------------------------------------------------------- */

static PyMethodDef connection_methods[] = {
    {"cursor", connection_cursor, METH_NOARGS, "cursor($self, /)\n--\n\nReturns a new cursor."},
    {"execute", FAST_CALL(connection_execute), METH_FASTCALL | METH_KEYWORDS,
     "execute($self, /, operation, parameters=())\n--\n\nRuns a line by a new cursor, as Cursor.execute does, and returns the cursor."},
    {"executemany", FAST_CALL(connection_executemany), METH_FASTCALL | METH_KEYWORDS,
     "executemany($self, /, operation, seq_of_parameters)\n--\n\n"
     "Runs a change for many rows by a new cursor, as Cursor.executemany does, and returns the cursor."},
    {"executecolumns", FAST_CALL(connection_executecolumns), METH_FASTCALL | METH_KEYWORDS,
     "executecolumns($self, /, operation, columns)\n--\n\n"
     "Runs a change for each row of columns by a new cursor, as Cursor.executecolumns does, and returns the cursor."},
    {"executescript", FAST_CALL(connection_executescript), METH_FASTCALL | METH_KEYWORDS,
     "executescript($self, /, script)\n--\n\n"
     "Runs the commands of a script by a new cursor, as Cursor.executescript does, and returns the cursor."},
    {"commit", connection_commit, METH_NOARGS, "commit($self, /)\n--\n\nCommits the open transaction. Does nothing if there is none."},
    {"rollback", connection_rollback, METH_NOARGS,
     "rollback($self, /)\n--\n\nRolls back the open transaction. Does nothing if there is none."},
    {"close", connection_close, METH_NOARGS,
     "close($self, /)\n--\n\nCloses the connection and frees its database. A closed connection stays closed."},
    {"savepoint", connection_savepoint, METH_O,
     "savepoint($self, name, /)\n--\n\n"
     "Returns a savepoint for a with statement.\n\n"
     "The statement sets the savepoint, and begins a transaction before it if none is open. If the block ends by an exception,\n"
     "the rows are as they were at the savepoint again. Either way the savepoint is released, so that any number of them can be\n"
     "set in a row, and blocks with the same name can be nested. With autocommit, a transaction that the statement began ends\n"
     "with it: it is committed, or rolled back after an exception."},
    {"watch", FAST_CALL(connection_watch), METH_FASTCALL | METH_KEYWORDS,
     "watch($self, /, name, query)\n--\n\nKeeps a SELECT as a standing query. Raises ProgrammingError (52) in a transaction."},
    {"show", connection_show, METH_O, "show($self, name, /)\n--\n\nReturns a cursor with the rows of a standing query as they are now."},
    {"unwatch", connection_unwatch, METH_O,
     "unwatch($self, name, /)\n--\n\nDrops a standing query. Raises ProgrammingError (52) in a transaction."},
    {"set_trace_callback", connection_set_trace_callback, METH_O,
     "set_trace_callback($self, callback, /)\n--\n\n"
     "Calls a function with each line before it runs: those of execute and of executescript, and once those of executemany and\n"
     "executecolumns, the script of load, and INSERT with the table of append. If the function raises an exception, the line does not\n"
     "run. None removes the function."},
    {"iterdump", connection_iterdump, METH_NOARGS,
     "iterdump($self, /)\n--\n\n"
     "Returns an iterator over the lines of a script that rebuilds the database: tables, rows, indexes and standing queries.\n\n"
     "If a command may have changed the database meanwhile, the iterator raises ProgrammingError (100)."},
    {"load", connection_load, METH_O,
     "load($self, script, /)\n--\n\n"
     "Executes the lines of a script in one call of the library. Each line is a command of its own, as in\n"
     "the script that the lines of iterdump are.\n\n"
     "Stops at the first line that is refused: the attribute line of the exception is its number, and the lines before it stay done."},
    {"append", FAST_CALL(connection_append), METH_FASTCALL | METH_KEYWORDS,
     "append($self, /, table, columns)\n--\n\n"
     "Inserts rows into a table, all of them or none, and returns their number. There is a column for each column of the table,\n"
     "from left to right, as executecolumns takes them. All values of a list have one type. The columns are copied first."},
    {"definition", FAST_CALL(connection_definition), METH_FASTCALL | METH_KEYWORDS,
     "definition($self, /, name, kind='table')\n--\n\n"
     "Returns the line that defines a table, an index or a standing query, as the lines of iterdump have it. The kind is 'table',\n"
     "'index' or 'watch', since a table, an index and a standing query may have the same name."},
    {"__enter__", connection_enter_with, METH_NOARGS, "__enter__($self, /)\n--\n\nReturns the connection."},
    {"__exit__", FAST_CALL(connection_exit_with), METH_FASTCALL,
     "__exit__($self, /, *exception)\n--\n\nCommits, or rolls back after an exception. The connection stays open."},
    {"_execute_line", connection_execute_line, METH_O, "Executes a line of bytes and returns the status of its reply."},
    {"_reply_count", connection_reply_count, METH_NOARGS, "Returns the number of rows of the reply, or of the rows that it changed."},
    {"_reply_text", connection_reply_text, METH_NOARGS, "Returns the text of the reply as bytes."},
    {"_dump_piece", connection_dump_piece, METH_VARARGS,
     "Returns a status, the next piece of the dump as bytes, and the place behind it."},
    {"_reply_rows", connection_reply_rows, METH_O, "Returns the rows of the reply to a line of bytes."},
    {"_columns_of", connection_columns_of, METH_O, "Returns a status, and the names and types of the columns of a line of bytes."},
    {"_place_of", connection_place_of, METH_VARARGS, "Returns the byte of a line to show for a status."},
    {NULL, NULL, 0, NULL},
};

static PyMemberDef connection_members[] = {
    {"row_factory", T_OBJECT, offsetof(Connection, row_factory), 0,
     "Makes a row of a cursor and a tuple. None makes tuples. A cursor takes it over when it is made."},
    {"text_factory", T_OBJECT, offsetof(Connection, text_factory), 0,
     "Makes the object of a text: str, bytes, or a function of bytes. None is str."},
    {"__weaklistoffset__", T_PYSSIZET, offsetof(Connection, weak_references), READONLY, NULL},
    {NULL, 0, 0, 0, NULL},
};

static PyGetSetDef connection_attributes[] = {
    {"autocommit", get_autocommit, set_autocommit,
     "Whether each change is committed at once, unless the program begins a transaction. Setting it to True commits.", NULL},
    {"in_transaction", get_in_transaction, NULL, "Whether a transaction is open.", NULL},
    {"total_changes", get_total_changes, NULL, "The number of rows inserted, updated or deleted since the connection was opened.", NULL},
    {"_statements", get_statements, NULL, "The cached lines, from the least recently used on, with the numbers of their statements.", NULL},
    {NULL, NULL, NULL, NULL, NULL},
};

static PyType_Slot connection_slots[] = {
    {Py_tp_doc, "Connection(autocommit=False, check_same_thread=True)\n--\n\n"
                "A database of its own, in this process. It ends when the connection is closed or nothing refers to it any more.\n\n"
                "Only the thread that made the connection may use it. With check_same_thread=False all threads may, one call at a time."},
    {Py_tp_init, connection_init},
    {Py_tp_dealloc, connection_dealloc},
    {Py_tp_traverse, connection_traverse},
    {Py_tp_clear, connection_clear},
    {Py_tp_methods, connection_methods},
    {Py_tp_members, connection_members},
    {Py_tp_getset, connection_attributes},
    {0, NULL},
};

PyType_Spec connection_spec = {
    .name = "mmdb.Connection",
    .basicsize = sizeof(Connection),
    .flags = Py_TPFLAGS_DEFAULT | Py_TPFLAGS_BASETYPE | Py_TPFLAGS_HAVE_GC,
    .slots = connection_slots,
};
