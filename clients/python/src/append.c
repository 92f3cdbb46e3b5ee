/* Appending rows to a table: the columns are copied into arrays, and the library inserts all rows in one call. */
#include "client.h"

/* The columns of a call as arrays. Their memory belongs to the call, so that no other thread changes it while the library reads it. */
typedef struct Arrays {
    size_t count;
    mmdb_array arrays[];
} Arrays;

static void arrays_free(Arrays *arrays) {
    if (arrays == NULL) return;
    for (size_t i = 0; i < arrays->count; i++) {
        free((void *)arrays->arrays[i].numbers);
        free((void *)arrays->arrays[i].offsets);
        free((void *)arrays->arrays[i].bytes);
    }
    free(arrays);
}

/* Allocates memory for a number of items, of at least one byte. Returns NULL with an exception. */
static void *items_new(size_t count, size_t size) {
    void *items = malloc(count * size + 1);
    return items != NULL ? items : PyErr_NoMemory();
}

/* ---- Buffers ---------------------------------------------------------------------------------------------------------------------- */

/* Copies a buffer of numbers, which may have gaps between them. */
static bool array_from_numbers(const Source *source, mmdb_array *array) {
    int64_t *numbers = items_new(source->rows, sizeof *numbers);
    if (numbers == NULL) return false;
    const char *from = source->numbers.buf;
    Py_ssize_t stride = source->rows == 0 ? 0 : source->numbers.strides[0];
    for (size_t i = 0; i < source->rows; i++) memcpy(&numbers[i], from + (Py_ssize_t)i * stride, sizeof *numbers);
    array->numbers = numbers;
    array->number_count = source->rows;
    return true;
}

/* Copies the offsets and bytes of texts. The program may write into its buffers at any time, so the copies are checked. */
static bool array_from_texts(const Source *source, mmdb_array *array) {
    uint32_t *offsets = items_new(source->rows + 1, sizeof *offsets);
    if (offsets == NULL) return false;
    int64_t first = 0, last = 0;
    array->offsets = offsets;
    array->offset_count = source->rows + 1;
    for (size_t i = 0; i <= source->rows; i++) {
        int64_t next = source_offset(source, i);
        if (i == 0) first = next;
        if (next < last || next > source->bytes.len) {
            PyErr_SetString(PyExc_ValueError, "the offsets of a column have changed");
            return false;
        }
        offsets[i] = (uint32_t)(next - first);
        last = next;
    }
    uint8_t *bytes = items_new((size_t)(last - first), 1);
    if (bytes == NULL) return false;
    memcpy(bytes, (const char *)source->bytes.buf + first, (size_t)(last - first));
    array->bytes = bytes;
    array->byte_count = (size_t)(last - first);
    return true;
}

/* ---- Lists ------------------------------------------------------------------------------------------------------------------------ */

/* The values of a list as they are copied: numbers, or texts and the room for their bytes. */
typedef struct ListCopy {
    int64_t *numbers;
    uint32_t *offsets;
    uint8_t *bytes;
    size_t room;
} ListCopy;

/* Returns whether there is room for a text behind the bytes. If not, raises MemoryError. */
static bool room_for_text(ListCopy *copy, size_t used) {
    if (copy->room - used >= MMDB_TEXT_BYTES) return true;
    size_t room = 2 * copy->room + 16 * MMDB_TEXT_BYTES;
    uint8_t *bytes = room <= UINT32_MAX ? realloc(copy->bytes, room) : NULL;
    if (bytes == NULL) {
        PyErr_NoMemory();
        return false;
    }
    copy->bytes = bytes;
    copy->room = room;
    return true;
}

/* Copies the value of a cell as the one at a place. The first value decides whether all are numbers or texts. */
static bool copy_cell(const State *state, const mmdb_cell *cell, size_t at, size_t rows, ListCopy *copy) {
    bool is_text = cell->kind == MMDB_STRING;
    if (at == 0) {
        if (is_text) copy->offsets = items_new(rows + 1, sizeof *copy->offsets);
        else copy->numbers = items_new(rows, sizeof *copy->numbers);
        if (copy->offsets == NULL && copy->numbers == NULL) return false;
        if (is_text) copy->offsets[0] = 0;
    }
    if (is_text != (copy->offsets != NULL)) {
        raise_status(state, MMDB_TYPE_MISMATCH, "the values of a column have one type");
        return false;
    }
    if (!is_text) {
        copy->numbers[at] = cell->number;
        return true;
    }
    size_t used = copy->offsets[at];
    if (!room_for_text(copy, used)) return false;
    memcpy(copy->bytes + used, cell->text, cell->len);
    copy->offsets[at + 1] = (uint32_t)(used + cell->len);
    return true;
}

/* Copies the values of a list. Runs Python code. */
static bool copy_list(const State *state, const Source *source, ListCopy *copy) {
    for (size_t i = 0; i < source->rows; i++) {
        /* The code that ran for a value before may have changed the list. */
        PyObject *value = PyList_GetItem(source->list, (Py_ssize_t)i);
        if (value == NULL) return false;
        mmdb_cell cell;
        Py_INCREF(value);
        bool is_copied = cell_from_value(state, value, &cell) == CONVERTED && copy_cell(state, &cell, i, source->rows, copy);
        Py_DECREF(value);
        if (!is_copied) return false;
    }
    return true;
}

static bool array_from_list(const State *state, const Source *source, mmdb_array *array) {
    ListCopy copy = {.room = 0};
    bool is_copied = copy_list(state, source, &copy);
    array->numbers = copy.numbers;
    array->offsets = copy.offsets;
    array->bytes = copy.bytes;
    array->number_count = copy.numbers != NULL ? source->rows : 0;
    array->offset_count = copy.offsets != NULL ? source->rows + 1 : 0;
    if (is_copied && copy.offsets != NULL) array->byte_count = copy.offsets[source->rows];
    return is_copied;
}

/* ---- The call --------------------------------------------------------------------------------------------------------------------- */

static bool array_from_source(const State *state, const Source *source, mmdb_array *array) {
    switch (source->kind) {
    case NUMBERS: return array_from_numbers(source, array);
    case TEXTS: return array_from_texts(source, array);
    default: return array_from_list(state, source, array);
    }
}

/* Part 1: copies all columns. Returns NULL with an exception. Runs Python code if a column is a list. */
static Arrays *arrays_from_sources(const State *state, const Sources *sources) {
    Arrays *arrays = calloc(1, sizeof *arrays + sources->count * sizeof *arrays->arrays);
    if (arrays == NULL) return (Arrays *)PyErr_NoMemory();
    for (size_t i = 0; i < sources->count; i++) {
        arrays->count++;
        if (array_from_source(state, &sources->sources[i], &arrays->arrays[i])) continue;
        arrays_free(arrays);
        return NULL;
    }
    return arrays;
}

static Arrays *arrays_new(const State *state, PyObject *columns) {
    PyObject *tuple = PySequence_Tuple(columns);
    Sources *sources = tuple == NULL ? NULL : sources_open(tuple);
    Arrays *arrays = sources == NULL ? NULL : arrays_from_sources(state, sources);
    sources_close(sources);
    Py_XDECREF(tuple);
    return arrays;
}

/* Part 3: the library alone. Begins a transaction if an INSERT would. Returns the status, and writes the number of rows. */
static uint8_t append(Connection *connection, bool begins, const Text *table, const Arrays *arrays, size_t *rows) {
    mmdb *db = &connection->db;
    uint8_t status = begins ? mmdb_run(db, connection->begin, NULL, 0) : MMDB_DONE;
    if (status != MMDB_DONE) return status;
    status = mmdb_append(db, (const uint8_t *)table->bytes, table->length, arrays->arrays, arrays->count);
    if (status == MMDB_COUNT) *rows = mmdb_count(db);
    else if (begins) mmdb_run(db, connection->rollback, NULL, 0);
    return status;
}

static bool have_line_feed(const Arrays *arrays) {
    for (size_t i = 0; i < arrays->count; i++) {
        const mmdb_array *array = &arrays->arrays[i];
        if (array->byte_count > 0 && memchr(array->bytes, '\n', array->byte_count) != NULL) return true;
    }
    return false;
}

static void raise_append(const State *state, uint8_t status, const Text *table, const Arrays *arrays) {
    if (status == MMDB_SYNTAX && have_line_feed(arrays)) {
        raise_words(state, DATA_ERROR, "a text has a line feed, which no text may have");
    } else {
        raise_status(state, status, status == MMDB_SYNTAX || status == MMDB_NO_SUCH_TABLE ? table->bytes : NULL);
    }
}

/* Parts 2 to 4. */
static PyObject *append_arrays(Connection *self, const Text *table, const Arrays *arrays) {
    size_t rows = 0;
    if (!connection_enter(self)) return NULL;
    bool begins = !self->autocommit && !mmdb_in_transaction(&self->db);
    PyThreadState *thread = PyEval_SaveThread();
    uint8_t status = append(self, begins, table, arrays, &rows);
    PyEval_RestoreThread(thread);
    connection_leave(self);
    if (status == MMDB_COUNT) return PyLong_FromSize_t(rows);
    raise_append(self->state, status, table, arrays);
    return NULL;
}

/* Calls the trace callback with "INSERT table". Returns false with an exception. */
static bool trace_append(Connection *self, PyObject *table) {
    PyObject *line = PyUnicode_FromFormat("INSERT %U", table);
    bool is_traced = line != NULL && connection_trace(self, line);
    Py_XDECREF(line);
    return is_traced;
}

/* Opens the name of a table. Returns false with an exception. */
static bool open_table(const State *state, PyObject *name, Text *table) {
    if (!PyUnicode_Check(name)) {
        PyErr_SetString(PyExc_TypeError, "a table is a str");
        return false;
    }
    if (text_open(name, table)) return true;
    if (PyErr_ExceptionMatches(PyExc_UnicodeEncodeError)) {
        PyErr_Clear();
        raise_status(state, MMDB_SYNTAX, NULL);
    }
    return false;
}

PyObject *connection_append(PyObject *object, PyObject *const *arguments, Py_ssize_t count, PyObject *keywords) {
    static const char *const names[] = {"table", "columns"};
    PyObject *values[] = {NULL, NULL};
    Connection *self = (Connection *)object;
    Text table;
    if (!arguments_read("append", names, 2, 2, arguments, count, keywords, values) || !connection_check(self)) return NULL;
    if (!open_table(self->state, values[0], &table)) return NULL;
    Arrays *arrays = arrays_new(self->state, values[1]);
    PyObject *rows = arrays != NULL && trace_append(self, values[0]) ? append_arrays(self, &table, arrays) : NULL;
    arrays_free(arrays);
    text_close(&table);
    return rows;
}
