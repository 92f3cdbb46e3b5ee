/* The calls of a connection for the shell: lines as bytes, statuses, and the reply that the library keeps. */
#include "client.h"

/* A line of bytes. Returns false with an exception if the object is none. */
static bool line_bytes(PyObject *object, const uint8_t **line, size_t *length) {
    char *bytes;
    Py_ssize_t size;
    if (PyBytes_AsStringAndSize(object, &bytes, &size) < 0) return false;
    *line = (const uint8_t *)bytes;
    *length = (size_t)size;
    return true;
}

PyObject *connection_execute_line(PyObject *object, PyObject *line_object) {
    Connection *self = (Connection *)object;
    const uint8_t *line;
    size_t length;
    if (!line_bytes(line_object, &line, &length) || !connection_enter(self)) return NULL;
    PyThreadState *thread = PyEval_SaveThread();
    uint8_t status = mmdb_execute(&self->db, line, length);
    PyEval_RestoreThread(thread);
    /* It may have been a definition. */
    if (status == MMDB_DONE) self->catalog_age++;
    if (status == MMDB_DONE) savepoints_follow(&self->savepoints, (const char *)line, length);
    connection_leave(self);
    return PyLong_FromLong(status);
}

PyObject *connection_reply_count(PyObject *object, PyObject *unused) {
    (void)unused;
    Connection *self = (Connection *)object;
    if (!connection_enter(self)) return NULL;
    size_t count = mmdb_count(&self->db);
    connection_leave(self);
    return PyLong_FromSize_t(count);
}

/* Copies the text of the reply. Returns NULL if there is no memory for it. */
static char *reply_text(mmdb *db, size_t *length) {
    *length = 0;
    if (mmdb_text(db, NULL, 0, length) != MMDB_DONE) return NULL;
    char *text = malloc(*length + 1);
    if (text != NULL && mmdb_text(db, (uint8_t *)text, *length, length) == MMDB_DONE) return text;
    free(text);
    return NULL;
}

PyObject *connection_reply_text(PyObject *object, PyObject *unused) {
    (void)unused;
    Connection *self = (Connection *)object;
    size_t length;
    if (!connection_enter(self)) return NULL;
    PyThreadState *thread = PyEval_SaveThread();
    char *text = reply_text(&self->db, &length);
    PyEval_RestoreThread(thread);
    connection_leave(self);
    if (text == NULL) return PyErr_NoMemory();
    PyObject *bytes = PyBytes_FromStringAndSize(text, (Py_ssize_t)length);
    free(text);
    return bytes;
}

/* The length of the buffer for a piece of a dump. */
enum { DUMP_BYTES = 1 << 20 };

/* Returns a status, the next piece of the dump, and the place behind it: three numbers, which are 0 at the start. */
PyObject *connection_dump_piece(PyObject *object, PyObject *arguments) {
    Connection *self = (Connection *)object;
    unsigned long long part, row, version;
    size_t length = 0;
    if (!PyArg_ParseTuple(arguments, "KKK", &part, &row, &version) || !connection_check(self)) return NULL;
    char *piece = malloc(DUMP_BYTES);
    if (piece == NULL) return PyErr_NoMemory();
    if (!connection_enter(self)) {
        free(piece);
        return NULL;
    }
    mmdb_dump_place place = {(size_t)part, (size_t)row, version};
    PyThreadState *thread = PyEval_SaveThread();
    uint8_t status = mmdb_dump(&self->db, &place, (uint8_t *)piece, DUMP_BYTES, &length);
    PyEval_RestoreThread(thread);
    connection_leave(self);
    part = place.part, row = place.row, version = place.version;
    PyObject *answer = Py_BuildValue("(iy#(KKK))", (int)status, piece, (Py_ssize_t)length, part, row, version);
    free(piece);
    return answer;
}

/* What mmdb_columns says of a line. */
typedef struct LineColumns {
    uint8_t status;
    size_t width;
    mmdb_column columns[MOST_COLUMNS];
} LineColumns;

static void columns_of_line(mmdb *db, const uint8_t *line, size_t length, LineColumns *found) {
    found->width = 0;
    found->status = mmdb_columns(db, line, length, found->columns, MOST_COLUMNS, &found->width);
    if (found->width > MOST_COLUMNS) found->width = MOST_COLUMNS;
}

PyObject *connection_columns_of(PyObject *object, PyObject *line_object) {
    Connection *self = (Connection *)object;
    const uint8_t *line;
    size_t length;
    LineColumns found;
    if (!line_bytes(line_object, &line, &length) || !connection_enter(self)) return NULL;
    columns_of_line(&self->db, line, length, &found);
    connection_leave(self);
    Shape *shape = shape_new(found.columns, found.width);
    if (shape == NULL) return PyErr_NoMemory();
    PyObject *description = shape_description(shape);
    PyObject *answer = description == NULL ? NULL : Py_BuildValue("(iO)", (int)found.status, description);
    shape_release(shape);
    return answer;
}

/* Reads the rows of the reply, whose columns are those of a line. Returns NULL if there is no memory for them. */
static Result *read_rows(mmdb *db, const LineColumns *found) {
    Shape *shape = shape_new(found->columns, found->width);
    Result *result = shape == NULL ? NULL : result_read(db, shape, mmdb_count(db), NULL, 0);
    shape_release(shape);
    return result;
}

/* Returns all rows of a result as a list of tuples. */
static PyObject *list_of_rows(const Result *result) {
    PyObject *list = PyList_New((Py_ssize_t)result->rows);
    for (size_t i = 0; list != NULL && i < result->rows; i++) {
        PyObject *row = row_from_result(NULL, result, i);
        if (row == NULL) {
            Py_CLEAR(list);
        } else {
            PyList_SetItem(list, (Py_ssize_t)i, row);
        }
    }
    return list;
}

PyObject *connection_reply_rows(PyObject *object, PyObject *line_object) {
    Connection *self = (Connection *)object;
    const uint8_t *line;
    size_t length;
    LineColumns found;
    if (!line_bytes(line_object, &line, &length) || !connection_enter(self)) return NULL;
    columns_of_line(&self->db, line, length, &found);
    Result *result = found.width == 0 ? result_new(NULL, 0, 0) : read_rows(&self->db, &found);
    connection_leave(self);
    if (result == NULL) return PyErr_NoMemory();
    PyObject *rows = list_of_rows(result);
    result_release(result);
    return rows;
}

PyObject *connection_place_of(PyObject *object, PyObject *arguments) {
    Connection *self = (Connection *)object;
    PyObject *line_object;
    unsigned char status;
    const uint8_t *line;
    size_t length;
    if (!PyArg_ParseTuple(arguments, "Ob", &line_object, &status) || !line_bytes(line_object, &line, &length)) return NULL;
    if (!connection_enter(self)) return NULL;
    size_t place = mmdb_place(&self->db, line, length, status);
    connection_leave(self);
    return PyLong_FromSize_t(place);
}
