/* Columns as the values of a change that runs once for each of their rows. */
#include "client.h"

static void source_close(Source *source) {
    if (source->numbers.obj != NULL) PyBuffer_Release(&source->numbers);
    if (source->bytes.obj != NULL) PyBuffer_Release(&source->bytes);
    Py_XDECREF(source->list);
}

/* Opens a buffer of one dimension, whose items have a size and one of some formats. Raises TypeError if it is another one. */
static bool buffer_open(PyObject *object, Py_buffer *view, Py_ssize_t item_size, const char *formats, int flags) {
    if (PyObject_GetBuffer(object, view, PyBUF_FORMAT | flags) < 0) return false;
    const char *format = view->format != NULL ? view->format : "B";
    if (format[0] == '<' || format[0] == '=' || format[0] == '@') format++;
    bool has_format = format[0] != '\0' && format[1] == '\0' && strchr(formats, format[0]) != NULL;
    if (view->ndim == 1 && view->itemsize == item_size && has_format) return true;
    PyErr_SetString(PyExc_TypeError, "a column is a buffer of int64, a list of values, or a tuple of buffers: int32 offsets and bytes");
    return false;
}

int64_t source_offset(const Source *source, size_t place) {
    int32_t offset;
    memcpy(&offset, (const char *)source->numbers.buf + place * sizeof offset, sizeof offset);
    return offset;
}

/* Returns whether each text is inside the bytes. If not, raises ValueError. */
static bool check_offsets(const Source *source) {
    bool is_ordered = source_offset(source, 0) >= 0 && source_offset(source, source->rows) <= source->bytes.len;
    for (size_t i = 0; is_ordered && i < source->rows; i++) is_ordered = source_offset(source, i) <= source_offset(source, i + 1);
    if (!is_ordered) PyErr_SetString(PyExc_ValueError, "the offsets of a column are not those of texts in its bytes");
    return is_ordered;
}

static bool open_texts(Source *source, PyObject *pair) {
    source->kind = TEXTS;
    if (PyTuple_Size(pair) != 2) {
        PyErr_SetString(PyExc_TypeError, "a column of texts is a tuple of two buffers");
        return false;
    }
    if (!buffer_open(PyTuple_GetItem(pair, 0), &source->numbers, 4, "il", PyBUF_ND)) return false;
    if (!buffer_open(PyTuple_GetItem(pair, 1), &source->bytes, 1, "Bbc", PyBUF_ND)) return false;
    if (source->numbers.shape[0] < 1) {
        PyErr_SetString(PyExc_ValueError, "a column of texts has an offset more than texts");
        return false;
    }
    source->rows = (size_t)source->numbers.shape[0] - 1;
    return check_offsets(source);
}

/* Opens a column. What is open is closed by source_close, whether this succeeds or not. */
static bool source_open(Source *source, PyObject *column) {
    if (PyTuple_Check(column)) return open_texts(source, column);
    if (PyList_Check(column)) {
        source->kind = VALUES;
        source->list = Py_NewRef(column);
        source->rows = (size_t)PyList_Size(column);
        return true;
    }
    source->kind = NUMBERS;
    if (!buffer_open(column, &source->numbers, 8, "ql", PyBUF_STRIDES)) return false;
    source->rows = (size_t)source->numbers.shape[0];
    return true;
}

void sources_close(Sources *sources) {
    if (sources == NULL) return;
    for (size_t i = 0; i < sources->count; i++) source_close(&sources->sources[i]);
    free(sources);
}

Sources *sources_open(PyObject *columns) {
    size_t width = (size_t)PyTuple_Size(columns);
    Sources *sources = calloc(1, sizeof *sources + width * sizeof *sources->sources);
    if (sources == NULL) return (Sources *)PyErr_NoMemory();
    for (size_t i = 0; i < width; i++) {
        Source *source = &sources->sources[sources->count++];
        bool is_open = source_open(source, PyTuple_GetItem(columns, (Py_ssize_t)i));
        sources->rows = sources->sources[0].rows;
        if (is_open && source->rows == sources->rows) continue;
        if (is_open) PyErr_SetString(PyExc_ValueError, "the columns have different numbers of values");
        sources_close(sources);
        return NULL;
    }
    return sources;
}

/* Writes a text into a cell. The program may write into its buffers at any time, so the offsets are checked where they are used. */
static Conversion cell_from_text(const State *state, const Source *source, size_t row, mmdb_cell *cell) {
    int64_t begin = source_offset(source, row), end = source_offset(source, row + 1);
    if (begin < 0 || begin > end || end > source->bytes.len) {
        PyErr_SetString(PyExc_ValueError, "the offsets of a column have changed");
        return RAISED;
    }
    return cell_from_bytes(state, (const char *)source->bytes.buf + begin, (size_t)(end - begin), cell);
}

/* Writes the value of a row of a column into a cell. Runs Python code if the column is a list. */
static Conversion cell_from_source(const State *state, const Source *source, size_t row, mmdb_cell *cell) {
    if (source->kind == NUMBERS) {
        cell->kind = MMDB_NUMBER;
        const char *number = (const char *)source->numbers.buf + (Py_ssize_t)row * source->numbers.strides[0];
        memcpy(&cell->number, number, sizeof cell->number);
        return CONVERTED;
    }
    if (source->kind == TEXTS) return cell_from_text(state, source, row, cell);
    /* The code that ran for a value before may have changed the list. */
    PyObject *value = PyList_GetItem(source->list, (Py_ssize_t)row);
    if (value == NULL) return RAISED;
    Py_INCREF(value);
    Conversion conversion = cell_from_value(state, value, cell);
    Py_DECREF(value);
    return conversion;
}

/* Part 1 for some rows. *rows becomes the number of the rows before one with a value that is none. */
static Conversion copy_rows(const State *state, const Sources *sources, size_t first, size_t *rows, mmdb_cell *cells) {
    for (size_t row = 0; row < *rows; row++) {
        for (size_t i = 0; i < sources->count; i++) {
            Conversion conversion = cell_from_source(state, &sources->sources[i], first + row, cells++);
            if (conversion == CONVERTED) continue;
            *rows = row;
            return conversion;
        }
    }
    return CONVERTED;
}

static bool run_sources(Cursor *cursor, Statement *statement, const Sources *sources, mmdb_cell *cells, Reply *reply) {
    const State *state = cursor->connection->state;
    size_t all = sources->rows, runs = 0;
    for (size_t first = 0, rows; first < all; first += rows) {
        if (PyErr_CheckSignals() < 0) return false;
        rows = MANY_CELLS / sources->count;
        if (rows > all - first) rows = all - first;
        Conversion conversion = copy_rows(state, sources, first, &rows, cells);
        if (conversion == REFUSED) run_cells_before_refused(cursor, statement, cells, rows, reply, &runs);
        if (conversion != CONVERTED) return false;
        if (!run_cells(cursor, statement, cells, rows, reply, &runs)) return false;
    }
    return true;
}

/* Runs a prepared change for the rows of columns. */
static bool run_columns(Cursor *cursor, Statement *statement, PyObject *columns, Reply *reply) {
    size_t width = statement->parameters;
    if (width > MANY_CELLS) {
        PyErr_SetString(PyExc_ValueError, "the line has too many holes for columns");
        return false;
    }
    PyObject *tuple = PySequence_Tuple(columns);
    if (tuple == NULL) return false;
    size_t given = (size_t)PyTuple_Size(tuple);
    bool fits = given == width && width > 0;
    if (!fits) raise_wrong_number(cursor->connection->state, width, given);
    Sources *sources = fits ? sources_open(tuple) : NULL;
    mmdb_cell *cells = sources == NULL ? NULL : malloc(MANY_CELLS * sizeof *cells);
    bool is_done = cells != NULL && run_sources(cursor, statement, sources, cells, reply);
    if (sources != NULL && cells == NULL) PyErr_NoMemory();
    free(cells);
    sources_close(sources);
    Py_DECREF(tuple);
    return is_done;
}

bool cursor_run_columns(Cursor *self, PyObject *line, PyObject *columns) { return cursor_run_rows(self, line, columns, run_columns); }
