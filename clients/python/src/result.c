/* The rows of a result in C memory, by columns. No Python code runs here but in row_from_result. */
#include "client.h"

/* The bytes that are reserved for a text at first. */
enum { USUAL_TEXT_BYTES = 16 };

Result *result_retain(Result *result) {
    if (result != NULL) atomic_fetch_add_explicit(&result->references, 1, memory_order_relaxed);
    return result;
}

void result_release(Result *result) {
    if (result == NULL || atomic_fetch_sub_explicit(&result->references, 1, memory_order_acq_rel) > 1) return;
    for (size_t i = 0; i < result->width; i++) {
        free(result->columns[i].numbers);
        free(result->columns[i].offsets);
        free(result->columns[i].bytes);
    }
    free(result);
}

/* Reserves the memory of a column. Returns false if an allocation fails. */
static bool column_open(Column *column, uint8_t kind, size_t rows) {
    column->kind = kind;
    if (kind == MMDB_NUMBER) return (column->numbers = malloc((rows + 1) * sizeof *column->numbers)) != NULL;
    column->room = rows * USUAL_TEXT_BYTES + MMDB_TEXT_BYTES;
    column->offsets = malloc((rows + 1) * sizeof *column->offsets);
    column->bytes = malloc(column->room);
    if (column->offsets == NULL || column->bytes == NULL) return false;
    column->offsets[0] = 0;
    return true;
}

Result *result_new(const mmdb_column *columns, size_t width, size_t rows) {
    Result *result = calloc(1, sizeof *result + width * sizeof *result->columns);
    if (result == NULL) return NULL;
    atomic_init(&result->references, 1);
    result->width = width;
    for (size_t i = 0; i < width; i++) {
        if (!column_open(&result->columns[i], columns[i].type, rows)) {
            result_release(result);
            return NULL;
        }
    }
    return result;
}

/* Makes room for more bytes of texts. Returns false if an allocation fails. */
static bool column_reserve(Column *column, size_t used, size_t more) {
    if (column->room >= used + more) return true;
    size_t room = column->room * 2 + more;
    char *bytes = realloc(column->bytes, room);
    if (bytes == NULL) return false;
    column->bytes = bytes;
    column->room = room;
    return true;
}

static void append_numbers(Column *column, size_t at, const mmdb_cell *cell, size_t rows, size_t width) {
    for (size_t row = 0; row < rows; row++, cell += width) column->numbers[at + row] = cell->number;
}

static bool append_texts(Column *column, size_t at, const mmdb_cell *cell, size_t rows, size_t width) {
    int32_t end = column->offsets[at];
    if (!column_reserve(column, (size_t)end, rows * MMDB_TEXT_BYTES)) return false;
    for (size_t row = 0; row < rows; row++, cell += width) {
        /* There is room for all bytes of a cell, and a copy of constant size is faster. The next text overwrites the rest. */
        memcpy(column->bytes + end, cell->text, MMDB_TEXT_BYTES);
        end += cell->len;
        column->offsets[at + row + 1] = end;
    }
    return true;
}

bool result_append(Result *result, const mmdb_cell *cells, size_t rows) {
    if (rows == 0) return true;
    for (size_t i = 0; i < result->width; i++) {
        Column *column = &result->columns[i];
        if (column->kind == MMDB_NUMBER) {
            append_numbers(column, result->rows, cells + i, rows, result->width);
        } else if (!append_texts(column, result->rows, cells + i, rows, result->width)) {
            return false;
        }
    }
    result->rows += rows;
    return true;
}

/* Reads the rows of the reply that are not there yet. */
static bool result_read_rest(Result *result, mmdb *db, size_t rows) {
    if (result->rows == rows) return true;
    mmdb_cell *cells = malloc(MANY_CELLS * sizeof *cells);
    bool is_read = cells != NULL;
    while (is_read && result->rows < rows) {
        size_t found = mmdb_read(db, result->rows, cells, MANY_CELLS);
        is_read = found > 0 && result_append(result, cells, found);
    }
    free(cells);
    return is_read;
}

Result *result_read(mmdb *db, const Shape *shape, size_t rows, const mmdb_cell *cells, size_t found) {
    Result *result = result_new(shape->columns, shape->width, rows);
    if (result != NULL && result_append(result, cells, found) && result_read_rest(result, db, rows)) return result;
    result_release(result);
    return NULL;
}

/* Writes where each line ends, and moves the lines together. Returns their number. */
static size_t split_lines(Column *column, size_t length, size_t most) {
    size_t rows = 0, used = 0;
    const char *at = column->bytes, *end = at + length;
    while (rows < most) {
        const char *feed = memchr(at, '\n', (size_t)(end - at));
        size_t size = (size_t)(feed - at);
        memmove(column->bytes + used, at, size);
        used += size;
        column->offsets[++rows] = (int32_t)used;
        at = feed + 1;
    }
    return rows;
}

static size_t count_lines(const char *text, size_t length) {
    size_t lines = 0;
    for (size_t i = 0; i < length; i++) lines += text[i] == '\n';
    return lines;
}

/* Moves the text of the reply into a column of lines. Returns false if an allocation fails. */
static bool column_read_lines(mmdb *db, Column *column, size_t *rows) {
    size_t length = 0;
    if (mmdb_text(db, NULL, 0, &length) != MMDB_DONE) return false;
    column->kind = MMDB_STRING;
    column->room = length + 1;
    column->bytes = malloc(column->room);
    if (column->bytes == NULL || mmdb_text(db, (uint8_t *)column->bytes, length, &length) != MMDB_DONE) return false;
    size_t lines = count_lines(column->bytes, length);
    column->offsets = malloc((lines + 1) * sizeof *column->offsets);
    if (column->offsets == NULL) return false;
    column->offsets[0] = 0;
    *rows = split_lines(column, length, lines > 0 ? lines - 1 : 0);
    return true;
}

Result *result_read_lines(mmdb *db) {
    Result *result = calloc(1, sizeof *result + sizeof *result->columns);
    if (result == NULL) return NULL;
    atomic_init(&result->references, 1);
    result->width = 1;
    if (column_read_lines(db, &result->columns[0], &result->rows)) return result;
    result_release(result);
    return NULL;
}

static PyObject *object_from_column(PyObject *factory, const Column *column, size_t row) {
    if (column->kind == MMDB_NUMBER) return PyLong_FromLongLong(column->numbers[row]);
    int32_t begin = column->offsets[row];
    return object_from_text(factory, column->bytes + begin, (size_t)(column->offsets[row + 1] - begin));
}

PyObject *row_from_result(PyObject *factory, const Result *result, size_t at) {
    PyObject *row = PyTuple_New((Py_ssize_t)result->width);
    for (size_t i = 0; row != NULL && i < result->width; i++) {
        PyObject *value = object_from_column(factory, &result->columns[i], at);
        if (value == NULL) {
            Py_CLEAR(row);
        } else {
            PyTuple_SetItem(row, (Py_ssize_t)i, value);
        }
    }
    /* Numbers and texts refer to nothing, so the collector need not look at the row. */
    if (row != NULL && !has_own_texts(factory)) PyObject_GC_UnTrack(row);
    return row;
}
