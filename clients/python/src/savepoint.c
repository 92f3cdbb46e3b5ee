/* Savepoints for with statements. */
#include "client.h"

typedef struct Savepoint {
    PyObject_HEAD
    Connection *connection;
    PyObject *name;
    /* The lines SAVEPOINT name and ROLLBACK TO name in one allocation, of which the name is the end. */
    char *set, *go_back;
    size_t set_length, go_back_length, name_length;
    uint64_t number;        /* in the list of savepoints that are set */
    bool is_set;
    bool began;             /* whether it began the transaction, and the connection has autocommit */
} Savepoint;

static const char SET[] = "SAVEPOINT ", GO_BACK[] = "ROLLBACK TO ";

bool name_check(const State *state, PyObject *name) {
    if (!PyUnicode_Check(name)) {
        PyErr_SetString(PyExc_TypeError, "a name is a str");
        return false;
    }
    Text text;
    bool is_word = text_open(name, &text) && text.length > 0;
    if (PyErr_Occurred() != NULL && !PyErr_ExceptionMatches(PyExc_UnicodeEncodeError)) return false;
    PyErr_Clear();
    for (size_t i = 0; is_word && i < text.length; i++) is_word = (unsigned char)text.bytes[i] > ' ';
    text_close(&text);
    if (!is_word) raise_words(state, PROGRAMMING_ERROR, "%R is no name", name);
    return is_word;
}

/* Writes the lines with which a savepoint is set and gone back to. Returns false with an exception. */
static bool make_lines(Savepoint *self, PyObject *name) {
    Text text;
    if (!text_open(name, &text)) return false;
    self->name_length = text.length;
    self->set_length = sizeof SET - 1 + text.length;
    self->go_back_length = sizeof GO_BACK - 1 + text.length;
    self->set = malloc(self->set_length + self->go_back_length);
    if (self->set != NULL) {
        self->go_back = self->set + self->set_length;
        memcpy(self->set, SET, sizeof SET - 1);
        memcpy(self->set + sizeof SET - 1, text.bytes, text.length);
        memcpy(self->go_back, GO_BACK, sizeof GO_BACK - 1);
        memcpy(self->go_back + sizeof GO_BACK - 1, text.bytes, text.length);
    } else {
        PyErr_NoMemory();
    }
    text_close(&text);
    return self->set != NULL;
}

PyObject *connection_savepoint(PyObject *object, PyObject *name) {
    Connection *connection = (Connection *)object;
    if (!connection_check(connection) || !name_check(connection->state, name)) return NULL;
    Savepoint *self = (Savepoint *)PyType_GenericAlloc(connection->state->savepoint_type, 0);
    if (self == NULL) return NULL;
    self->connection = (Connection *)Py_NewRef(object);
    self->name = Py_NewRef(name);
    if (!make_lines(self, name)) Py_CLEAR(self);
    return (PyObject *)self;
}

static uint8_t execute(Connection *connection, const char *line, size_t length) {
    uint8_t status = mmdb_execute(&connection->db, (const uint8_t *)line, length);
    if (status == MMDB_DONE) savepoints_follow(&connection->savepoints, line, length);
    return status;
}

static void raise_line(const Savepoint *self, uint8_t status, const char *line, size_t length) {
    size_t place = status == MMDB_SYNTAX ? length - self->name_length : 0;
    Refusal refusal = {.status = status, .line = line, .length = length, .place = place};
    raise_refusal(self->connection->state, &refusal);
}

/* Sets the savepoint, and begins a transaction before it if none is open. */
static uint8_t set(Savepoint *self) {
    Connection *connection = self->connection;
    bool begins = !mmdb_in_transaction(&connection->db);
    uint8_t status = begins ? mmdb_run(&connection->db, connection->begin, NULL, 0) : MMDB_DONE;
    if (status != MMDB_DONE) return status;
    status = execute(connection, self->set, self->set_length);
    if (status == MMDB_DONE) {
        self->is_set = true;
        self->number = connection->savepoints.newest;
        self->began = begins && connection->autocommit;
    } else if (begins) {
        mmdb_run(&connection->db, connection->rollback, NULL, 0);
    }
    return status;
}

static PyObject *savepoint_enter(PyObject *object, PyObject *unused) {
    (void)unused;
    Savepoint *self = (Savepoint *)object;
    if (!connection_enter(self->connection)) return NULL;
    bool was_set = self->is_set;
    uint8_t status = was_set ? MMDB_DONE : set(self);
    connection_leave(self->connection);
    if (was_set) {
        raise_words(self->connection->state, PROGRAMMING_ERROR, "the savepoint is set already");
    } else if (status == MMDB_DONE) {
        return Py_NewRef(object);
    } else {
        raise_line(self, status, self->set, self->set_length);
    }
    return NULL;
}

/* Releases the latest savepoint with the name. */
static uint8_t release(Savepoint *self) {
    SavepointList *list = &self->connection->savepoints;
    const char *name = self->set + self->set_length - self->name_length;
    uint8_t status = mmdb_release(&self->connection->db, (const uint8_t *)name, self->name_length);
    if (status == MMDB_DONE) list->count = savepoints_count_to(list, name, self->name_length) - 1;
    return status;
}

/* Returns whether a later savepoint has the name. */
static bool is_hidden(const Savepoint *self) {
    const SavepointList *list = &self->connection->savepoints;
    return list->all[savepoints_count_to(list, self->set + self->set_length - self->name_length, self->name_length) - 1].number !=
           self->number;
}

/* Ends the block. If the savepoint is gone, since its transaction has ended or went back before it, there is nothing to do. */
static uint8_t leave(Savepoint *self, bool goes_back) {
    Connection *connection = self->connection;
    uint8_t status = MMDB_DONE;
    self->is_set = false;
    if (!savepoints_have(&connection->savepoints, self->number)) return MMDB_DONE;
    while (status == MMDB_DONE && is_hidden(self)) status = release(self);
    if (status == MMDB_DONE && goes_back) status = execute(connection, self->go_back, self->go_back_length);
    if (status == MMDB_DONE) status = release(self);
    if (status != MMDB_DONE || !self->began) return status;
    connection->savepoints.count = 0;
    return mmdb_run(&connection->db, goes_back ? connection->rollback : connection->commit, NULL, 0);
}

static PyObject *savepoint_exit(PyObject *object, PyObject *const *arguments, Py_ssize_t count) {
    Savepoint *self = (Savepoint *)object;
    bool goes_back = count > 0 && arguments[0] != Py_None;
    if (!connection_enter(self->connection)) return NULL;
    PyThreadState *thread = PyEval_SaveThread();
    uint8_t status = self->is_set ? leave(self, goes_back) : MMDB_DONE;
    PyEval_RestoreThread(thread);
    connection_leave(self->connection);
    if (status == MMDB_DONE) return Py_NewRef(Py_False);
    raise_status(self->connection->state, status, NULL);
    return NULL;
}

/* Goes back to the latest savepoint with the name, unless this one is gone: then the name may mean one that was there before. */
static uint8_t go_back(Savepoint *self) {
    Connection *connection = self->connection;
    bool is_gone = self->is_set && !savepoints_have(&connection->savepoints, self->number);
    if (is_gone && mmdb_in_transaction(&connection->db)) return MMDB_NO_SUCH_SAVEPOINT;
    return execute(connection, self->go_back, self->go_back_length);
}

static PyObject *savepoint_rollback(PyObject *object, PyObject *unused) {
    (void)unused;
    Savepoint *self = (Savepoint *)object;
    if (!connection_enter(self->connection)) return NULL;
    PyThreadState *thread = PyEval_SaveThread();
    uint8_t status = go_back(self);
    PyEval_RestoreThread(thread);
    connection_leave(self->connection);
    if (status == MMDB_DONE) return Py_NewRef(Py_None);
    raise_line(self, status, self->go_back, self->go_back_length);
    return NULL;
}

/* ---- The type --------------------------------------------------------------------------------------------------------------------- */

static int savepoint_traverse(PyObject *object, visitproc visit, void *arg) {
    Savepoint *self = (Savepoint *)object;
    Py_VISIT(Py_TYPE(object));
    Py_VISIT((PyObject *)self->connection);
    Py_VISIT(self->name);
    return 0;
}

/* The connection has no reference to a savepoint, so the collector need not clear one: its methods always find a connection. */
static void savepoint_dealloc(PyObject *object) {
    Savepoint *self = (Savepoint *)object;
    PyObject_GC_UnTrack(object);
    free(self->set);
    Py_XDECREF(self->name);
    Py_XDECREF((PyObject *)self->connection);
    free_object(object);
}

static PyMethodDef savepoint_methods[] = {
    {"rollback", savepoint_rollback, METH_NOARGS,
     "rollback($self, /)\n--\n\n"
     "Rolls back to the last savepoint with this name. The transaction stays open, and so does the savepoint.\n\n"
     "So inside an inner block with the same name, it goes back to the savepoint of that block. If its own savepoint is gone, it raises\n"
     "ProgrammingError."},
    {"__enter__", savepoint_enter, METH_NOARGS, "__enter__($self, /)\n--\n\nSets the savepoint and returns it."},
    {"__exit__", FAST_CALL(savepoint_exit), METH_FASTCALL,
     "__exit__($self, /, *exception)\n--\n\nReleases the savepoint, and rolls back to it first after an exception."},
    {NULL, NULL, 0, NULL},
};

static PyMemberDef savepoint_members[] = {
    {"name", T_OBJECT, offsetof(Savepoint, name), READONLY, "The name of the savepoint."},
    {NULL, 0, 0, 0, NULL},
};

static PyType_Slot savepoint_slots[] = {
    {Py_tp_doc, "A savepoint for a with statement, as Connection.savepoint makes it."},
    {Py_tp_dealloc, savepoint_dealloc},
    {Py_tp_traverse, savepoint_traverse},
    {Py_tp_methods, savepoint_methods},
    {Py_tp_members, savepoint_members},
    {0, NULL},
};

PyType_Spec savepoint_spec = {
    .name = "mmdb.Savepoint",
    .basicsize = sizeof(Savepoint),
    .flags = Py_TPFLAGS_DEFAULT | Py_TPFLAGS_HAVE_GC | Py_TPFLAGS_DISALLOW_INSTANTIATION,
    .slots = savepoint_slots,
};
