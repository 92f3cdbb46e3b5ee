/* Running lines: the four parts of a call, as client.h has them. */
#include "client.h"

void reply_clear(Reply *reply) { memset(reply, 0, offsetof(Reply, cells)); }

/* ---- Part 3: the library alone ---------------------------------------------------------------------------------------------------- */

/* Returns whether a change or a savepoint has to begin a transaction. */
static bool wants_transaction(Connection *connection, const Statement *statement) {
    if (connection->autocommit || !(is_change(statement) || statement->kind == MMDB_KIND_SAVEPOINT)) return false;
    return !mmdb_in_transaction(&connection->db);
}

void note_done(Connection *connection, const Statement *statement) {
    if (is_definition(statement)) connection->catalog_age++;
    else savepoints_follow(&connection->savepoints, statement->line, statement->length);
}

/* Completes the reply of a run that was refused. If the run began a transaction, that is taken back. */
static void refuse(Connection *connection, const Statement *statement, bool takes_back, Reply *reply) {
    reply->place = mmdb_place(&connection->db, (const uint8_t *)statement->line, statement->length, reply->status);
    if (takes_back) mmdb_run(&connection->db, connection->rollback, NULL, 0);
}

/* Returns whether the plan is one look-up by key, as in "a tree #key =\nsteps 1\n". It replaces the reply of the connection. */
static bool is_look_up(Connection *connection, const Statement *statement, const mmdb_cell *values, bool *is_known) {
    static const char plan[] = " tree #key =\nsteps 1\n";
    char text[MMDB_NAME_BYTES + sizeof plan];
    size_t length = 0;
    *is_known = mmdb_explain(&connection->db, statement->number, values, statement->parameters) == MMDB_TEXT &&
                mmdb_text(&connection->db, (uint8_t *)text, sizeof text, &length) == MMDB_DONE;
    if (!*is_known || length > sizeof text) return false;
    const char *rest = memchr(text, ' ', length);
    return rest != NULL && (size_t)(text + length - rest) == sizeof plan - 1 && memcmp(rest, plan, sizeof plan - 1) == 0;
}

/* Asks for the columns and the plan of a question, as the catalog is now. Returns false if the reply is complete. */
static bool follow_catalog(Connection *connection, Statement *statement, const mmdb_cell *values, Reply *reply) {
    if (statement->knows_catalog && statement->catalog_age == connection->catalog_age) return true;
    mmdb_column columns[MOST_COLUMNS];
    size_t width = 0;
    reply->status = mmdb_statement_columns(&connection->db, statement->number, columns, MOST_COLUMNS, &width);
    if (reply->status != MMDB_DONE) return false;
    Shape *shape = shape_new(columns, width < MOST_COLUMNS ? width : MOST_COLUMNS);
    reply->has_no_memory = shape == NULL;
    if (shape == NULL) return false;
    shape_release(statement->shape);
    statement->shape = shape;
    statement->catalog_age = connection->catalog_age;
    statement->knows_catalog = true;
    statement->is_look_up = false;
    if (statement->kind == MMDB_KIND_SELECT) {
        statement->is_look_up = is_look_up(connection, statement, values, &statement->knows_catalog);
    }
    return true;
}

/* Runs a question and reads all rows of its reply. A single row stays in the cells if it may. */
static void ask(Connection *connection, Statement *statement, const mmdb_cell *values, bool keeps_cells, Reply *reply) {
    mmdb *db = &connection->db;
    reply->status = mmdb_query(db, statement->number, values, statement->parameters, reply->cells, FEW_CELLS, &reply->found);
    if (reply->status == MMDB_ROWS) {
        /* If there was room for one more row, all rows were read. */
        bool is_whole = (reply->found + 1) * reply->shape->width <= FEW_CELLS;
        reply->count = is_whole ? reply->found : mmdb_count(db);
        if (reply->count > 1 || (reply->count == 1 && !keeps_cells)) {
            reply->result = result_read(db, reply->shape, reply->count, reply->cells, reply->found);
            reply->has_no_memory = reply->result == NULL;
        }
    } else if (reply->status == MMDB_TEXT) {
        reply->result = result_read_lines(db);
        reply->has_no_memory = reply->result == NULL;
        reply->count = reply->result == NULL ? 0 : reply->result->rows;
    } else if (reply->status >= LEAST_REFUSAL) {
        refuse(connection, statement, false, reply);
    }
}

/* Runs any other statement, and begins a transaction before it if it has to. */
static void command(Connection *connection, Statement *statement, const mmdb_cell *values, bool begins, Reply *reply) {
    mmdb *db = &connection->db;
    if (begins) {
        reply->status = mmdb_run(db, connection->begin, NULL, 0);
        if (reply->status != MMDB_DONE) return;
    }
    reply->status = mmdb_run(db, statement->number, values, statement->parameters);
    if (reply->status >= LEAST_REFUSAL) {
        refuse(connection, statement, begins, reply);
    } else if (reply->status == MMDB_COUNT) {
        reply->count = mmdb_count(db);
    } else if (reply->status == MMDB_DONE) {
        note_done(connection, statement);
    }
}

/* Runs a statement without parameters for a number of rows. */
static uint8_t run_without_values(Connection *connection, const Statement *statement, size_t rows, size_t *runs) {
    for (*runs = 0; *runs < rows; ++*runs) {
        uint8_t status = mmdb_run(&connection->db, statement->number, NULL, 0);
        if (status >= LEAST_REFUSAL) return status;
    }
    return MMDB_DONE;
}

static void perform_many(Connection *connection, Statement *statement, const mmdb_cell *cells, size_t rows, Reply *reply) {
    mmdb *db = &connection->db;
    size_t width = statement->parameters;
    reply->runs = 0;
    reply->status = MMDB_DONE;
    if (rows == 0) return;
    bool begins = wants_transaction(connection, statement);
    PyThreadState *thread = PyEval_SaveThread();
    if (begins) reply->status = mmdb_run(db, connection->begin, NULL, 0);
    if (reply->status == MMDB_DONE) {
        uint64_t before = mmdb_total_changes(db);
        reply->status = width > 0 ? mmdb_run_many(db, statement->number, cells, rows * width, width, &reply->runs)
                                  : run_without_values(connection, statement, rows, &reply->runs);
        reply->count += (size_t)(mmdb_total_changes(db) - before);
        if (reply->status >= LEAST_REFUSAL) refuse(connection, statement, begins && reply->runs == 0, reply);
    }
    PyEval_RestoreThread(thread);
}

/* Runs a prepared statement with as many values as it has parameters. */
static void perform(Connection *connection, Statement *statement, const mmdb_cell *values, Reply *reply) {
    if (is_question(statement)) {
        if (!follow_catalog(connection, statement, values, reply)) return;
        reply->shape = shape_retain(statement->shape);
    }
    /* Other threads may set these attributes while this one runs without the lock of the interpreter. */
    bool keeps_cells = !has_own_texts(connection->text_factory), begins = wants_transaction(connection, statement);
    /* A look-up by key is over before another thread could begin to run. */
    PyThreadState *thread = statement->is_look_up ? NULL : PyEval_SaveThread();
    if (is_question(statement)) {
        ask(connection, statement, values, keeps_cells, reply);
    } else {
        command(connection, statement, values, begins, reply);
    }
    if (thread != NULL) PyEval_RestoreThread(thread);
}

/* ---- Part 4: objects and exceptions ----------------------------------------------------------------------------------------------- */

/* Returns whether one of the values has a line feed, which makes it no value. */
static bool has_line_feed(const mmdb_cell *cells, size_t count) {
    for (size_t i = 0; i < count; i++) {
        if (cells[i].kind == MMDB_STRING && memchr(cells[i].text, '\n', cells[i].len) != NULL) return true;
    }
    return false;
}

void raise_reply(const State *state, const Statement *statement, const Reply *reply, const mmdb_cell *cells) {
    if (reply->has_no_memory) {
        PyErr_NoMemory();
    } else if (reply->status == MMDB_MISUSE && has_line_feed(cells, statement->parameters)) {
        raise_words(state, DATA_ERROR, "a text has a line feed, which no text may have");
    } else {
        Refusal refusal = {.status = reply->status, .place = reply->place, .line = statement->line, .length = statement->length};
        raise_refusal(state, &refusal);
    }
}

/* Gives the rows of a reply to a cursor. The objects are made first, since that may run code that uses the cursor. */
static bool cursor_take(Cursor *self, Connection *connection, Reply *reply) {
    bool is_text = reply->status == MMDB_TEXT, has_rows = reply->status == MMDB_ROWS || is_text;
    PyObject *one = NULL;
    if (has_rows && reply->count == 1 && reply->result == NULL) {
        PyObject *factory = Py_XNewRef(connection->text_factory);
        one = row_from_cells(factory, reply->cells, reply->shape->width);
        Py_XDECREF(factory);
        if (one == NULL) return false;
    }
    cursor_forget(self);
    if (reply->status == MMDB_COUNT) self->row_count = (Py_ssize_t)reply->count;
    if (!has_rows) return true;
    self->has_rows = true;
    self->rows = reply->count;
    self->row_count = (Py_ssize_t)reply->count;
    self->one = one;
    self->result = result_retain(reply->result);
    self->shape = shape_retain(is_text ? connection->state->line_shape : reply->shape);
    return true;
}

/* ---- One line --------------------------------------------------------------------------------------------------------------------- */

/* Prepares a statement. If it is refused, completes the reply and returns false. */
static bool prepare(Connection *connection, Statement *statement, Reply *reply) {
    reply->status = statement_prepare(connection, statement);
    if (reply->status == MMDB_DONE) return true;
    refuse(connection, statement, false, reply);
    return false;
}

/* Parts 2 to 4 of a line with its values. */
static bool run_statement(Cursor *self, Connection *connection, Statement *statement, const Values *values) {
    State *state = connection->state;
    Reply reply;
    reply_clear(&reply);
    if (!connection_enter(connection)) return false;
    bool is_prepared = prepare(connection, statement, &reply);
    bool fits = is_prepared && statement->parameters == values->count;
    if (fits) perform(connection, statement, values->cells, &reply);
    connection_leave(connection);

    bool is_done = false;
    if (is_prepared && !fits) {
        raise_wrong_number(state, statement->parameters, values->count);
    } else if (reply.has_no_memory || reply.status >= LEAST_REFUSAL) {
        raise_reply(state, statement, &reply, values->cells);
    } else {
        is_done = cursor_take(self, connection, &reply);
    }
    result_release(reply.result);
    shape_release(reply.shape);
    return is_done;
}

/* Returns whether an object can be a line. */
static bool check_line(PyObject *line) {
    if (PyUnicode_Check(line)) return true;
    PyErr_SetString(PyExc_TypeError, "a line is a str");
    return false;
}

bool cursor_run(Cursor *self, PyObject *line, PyObject *parameters) {
    if (!check_line(line) || !cursor_check(self)) return false;
    cursor_forget(self);
    Connection *connection = (Connection *)Py_NewRef((PyObject *)self->connection);
    State *state = connection->state;
    Values values;
    bool is_done = false;
    if (values_take(state, parameters != NULL ? parameters : state->no_values, &values)) {
        Statement *statement = connection_trace(connection, line) ? statement_of(connection, line) : NULL;
        if (statement != NULL) {
            /* The code that ran meanwhile may have closed this cursor. */
            is_done = cursor_check_open(self) && run_statement(self, connection, statement, &values);
            statement_release(connection, statement);
        }
        values_free(&values);
    }
    /* That code may also have run a line by this cursor. */
    if (!is_done) cursor_forget(self);
    Py_DECREF((PyObject *)connection);
    return is_done;
}

/* ---- Many rows -------------------------------------------------------------------------------------------------------------------- */

/* Rows of values that are taken from an iterable, for one statement. */
typedef struct Batch {
    PyObject *rows;         /* the iterator */
    mmdb_cell *cells;
    size_t width, room, filled;
    bool is_last;
    Conversion conversion;  /* of the row after the filled ones; if it is not CONVERTED, an exception is set */
} Batch;

/* Part 1 of a batch: takes rows until there is no room, no row, or a row that is none. Runs Python code. */
static void batch_fill(const State *state, Batch *batch) {
    batch->filled = 0;
    batch->conversion = CONVERTED;
    while (batch->filled < batch->room) {
        PyObject *row = PyIter_Next(batch->rows);
        if (row == NULL) {
            batch->is_last = true;
            if (PyErr_Occurred()) batch->conversion = RAISED;
            return;
        }
        batch->conversion = cells_from_row(state, row, batch->cells + batch->filled * batch->width, batch->width);
        Py_DECREF(row);
        if (batch->conversion != CONVERTED) return;
        batch->filled++;
    }
}

bool run_cells(Cursor *cursor, Statement *statement, const mmdb_cell *cells, size_t rows, Reply *reply, size_t *runs) {
    /* The code that made the values may have closed the cursor. */
    if (!cursor_check_open(cursor)) return false;
    Connection *connection = cursor->connection;
    if (!connection_enter(connection)) return false;
    perform_many(connection, statement, cells, rows, reply);
    connection_leave(connection);
    *runs += reply->runs;
    if (reply->status < LEAST_REFUSAL) return true;
    raise_reply(connection->state, statement, reply, cells + reply->runs * statement->parameters);
    add_runs(*runs);
    return false;
}

void run_cells_before_refused(Cursor *cursor, Statement *statement, const mmdb_cell *cells, size_t rows, Reply *reply,
                              size_t *runs) {
    PyObject *class, *error, *trace;
    PyErr_Fetch(&class, &error, &trace);
    if (run_cells(cursor, statement, cells, rows, reply, runs)) {
        PyErr_Restore(class, error, trace);
        add_runs(*runs);
        return;
    }
    Py_XDECREF(class);
    Py_XDECREF(error);
    Py_XDECREF(trace);
}

static bool run_batches(Cursor *cursor, Statement *statement, Batch *batch, Reply *reply) {
    const State *state = cursor->connection->state;
    size_t runs = 0;
    do {
        if (PyErr_CheckSignals() < 0) return false;
        batch_fill(state, batch);
        if (batch->conversion == REFUSED) {
            run_cells_before_refused(cursor, statement, batch->cells, batch->filled, reply, &runs);
        }
        /* If the iterable raised an exception, the rows that wait are not run. */
        if (batch->conversion != CONVERTED) return false;
        if (!run_cells(cursor, statement, batch->cells, batch->filled, reply, &runs)) return false;
    } while (!batch->is_last);
    return true;
}

/* Prepares the statement of a call for many rows. Raises an exception if it is no change. */
static bool prepare_change(Connection *connection, Statement *statement) {
    Reply reply;
    reply_clear(&reply);
    if (!connection_enter(connection)) return false;
    bool is_prepared = prepare(connection, statement, &reply);
    connection_leave(connection);
    if (!is_prepared) {
        raise_reply(connection->state, statement, &reply, NULL);
    } else if (!is_change(statement)) {
        raise_words(connection->state, PROGRAMMING_ERROR, "only INSERT, UPDATE and DELETE run for many rows");
    }
    return is_prepared && is_change(statement);
}

/* Runs a prepared change for the rows of an iterable. */
static bool run_rows(Cursor *cursor, Statement *statement, PyObject *rows, Reply *reply) {
    Batch batch = {.width = statement->parameters};
    batch.room = batch.width == 0 || batch.width > MANY_CELLS ? 1 : MANY_CELLS / batch.width;
    if ((batch.rows = PyObject_GetIter(rows)) == NULL) return false;
    batch.cells = malloc((batch.room * batch.width + 1) * sizeof(mmdb_cell));
    bool is_done = batch.cells != NULL && run_batches(cursor, statement, &batch, reply);
    if (batch.cells == NULL) PyErr_NoMemory();
    free(batch.cells);
    Py_DECREF(batch.rows);
    return is_done;
}

bool cursor_run_rows(Cursor *self, PyObject *line, PyObject *rows, RowRunner run) {
    if (!check_line(line) || !cursor_check(self)) return false;
    cursor_forget(self);
    Connection *connection = (Connection *)Py_NewRef((PyObject *)self->connection);
    Statement *statement = connection_trace(connection, line) ? statement_of(connection, line) : NULL;
    Reply reply;
    reply_clear(&reply);
    bool is_done = false;
    if (statement != NULL) {
        is_done = prepare_change(connection, statement) && run(self, statement, rows, &reply);
        statement_release(connection, statement);
    }
    /* The code that ran meanwhile may have used this cursor. */
    cursor_forget(self);
    if (is_done) self->row_count = (Py_ssize_t)reply.count;
    Py_DECREF((PyObject *)connection);
    return is_done;
}

bool cursor_run_many(Cursor *self, PyObject *line, PyObject *rows) { return cursor_run_rows(self, line, rows, run_rows); }
