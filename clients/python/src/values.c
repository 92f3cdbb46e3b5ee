/* Values from Python into cells, and from cells into Python. */
#include "client.h"

bool text_open(PyObject *string, Text *text) {
    Py_ssize_t length;
    text->owner = NULL;
    text->bytes = PyUnicode_AsUTF8AndSize(string, &length);
    if (text->bytes == NULL) {
        /* A lone surrogate stands for a byte that is not UTF-8. */
        if (!PyErr_ExceptionMatches(PyExc_UnicodeEncodeError)) return false;
        PyErr_Clear();
        text->owner = PyUnicode_AsEncodedString(string, "utf-8", "surrogateescape");
        if (text->owner == NULL) return false;
        text->bytes = PyBytes_AsString(text->owner);
        length = PyBytes_Size(text->owner);
    }
    text->length = (size_t)length;
    return true;
}

void text_close(Text *text) { Py_CLEAR(text->owner); }

Conversion cell_from_bytes(const State *state, const char *bytes, size_t length, mmdb_cell *cell) {
    if (length > MMDB_TEXT_BYTES) {
        char detail[96];
        PyOS_snprintf(detail, sizeof detail, "a text has at most %d bytes in UTF-8, and this one has %zu", MMDB_TEXT_BYTES, length);
        raise_status(state, MMDB_TEXT_TOO_LONG, detail);
        return REFUSED;
    }
    cell->kind = MMDB_STRING;
    cell->len = (uint8_t)length;
    memcpy(cell->text, bytes, length);
    return CONVERTED;
}

static Conversion cell_from_string(const State *state, PyObject *string, mmdb_cell *cell) {
    Text text;
    if (!text_open(string, &text)) {
        if (!PyErr_ExceptionMatches(PyExc_UnicodeEncodeError)) return RAISED;
        PyErr_Clear();
        raise_words(state, DATA_ERROR, "a text has a lone surrogate, which stands for no byte of UTF-8");
        return REFUSED;
    }
    Conversion conversion = cell_from_bytes(state, text.bytes, text.length, cell);
    text_close(&text);
    return conversion;
}

static Conversion cell_from_number(const State *state, PyObject *number, mmdb_cell *cell) {
    int overflow;
    cell->kind = MMDB_NUMBER;
    cell->number = PyLong_AsLongLongAndOverflow(number, &overflow);
    if (overflow == 0) return CONVERTED;
    raise_status(state, MMDB_NUMBER_OUT_OF_RANGE, "a number has 64 bits with its sign");
    return REFUSED;
}

/* Makes a number of an object that is no int. Runs Python code. */
static Conversion cell_from_index(const State *state, PyObject *value, mmdb_cell *cell) {
    PyObject *number = PyNumber_Index(value);
    if (number == NULL) return RAISED;
    Conversion conversion = cell_from_number(state, number, cell);
    Py_DECREF(number);
    return conversion;
}

static void raise_no_value(const State *state, PyObject *value) {
    PyObject *name = PyType_GetName(Py_TYPE(value));
    if (name == NULL) return;
    raise_words(state, NOT_SUPPORTED_ERROR, "a value is an int, a str or bytes, not %S", name);
    Py_DECREF(name);
}

Conversion cell_from_value(const State *state, PyObject *value, mmdb_cell *cell) {
    if (PyLong_Check(value)) return cell_from_number(state, value, cell);
    if (PyUnicode_Check(value)) return cell_from_string(state, value, cell);
    if (PyBytes_Check(value)) return cell_from_bytes(state, PyBytes_AsString(value), (size_t)PyBytes_Size(value), cell);
    if (PyIndex_Check(value)) return cell_from_index(state, value, cell);
    raise_no_value(state, value);
    return REFUSED;
}

void raise_wrong_number(const State *state, size_t holes, size_t given) {
    char detail[96];
    PyOS_snprintf(detail, sizeof detail, "the line has %zu holes, and %zu values were given", holes, given);
    raise_status(state, MMDB_WRONG_NUMBER_OF_VALUES, detail);
}

static Conversion cells_from_tuple(const State *state, PyObject *tuple, mmdb_cell *cells, size_t width) {
    for (size_t i = 0; i < width; i++) {
        Conversion conversion = cell_from_value(state, PyTuple_GetItem(tuple, (Py_ssize_t)i), &cells[i]);
        if (conversion != CONVERTED) return conversion;
    }
    return CONVERTED;
}

static Conversion cells_from_list(const State *state, PyObject *list, mmdb_cell *cells, size_t width) {
    for (size_t i = 0; i < width; i++) {
        /* The code that ran for the value before may have changed the list. */
        PyObject *value = PyList_GetItem(list, (Py_ssize_t)i);
        if (value == NULL) return RAISED;
        Py_INCREF(value);
        Conversion conversion = cell_from_value(state, value, &cells[i]);
        Py_DECREF(value);
        if (conversion != CONVERTED) return conversion;
    }
    return CONVERTED;
}

/* Returns whether an object may hold the values of a line: it has an order, and is no text. */
static bool is_row(const State *state, PyObject *object) {
    if (PyTuple_Check(object) || PyList_Check(object)) return true;
    if (PyUnicode_Check(object) || PyBytes_Check(object) || PyByteArray_Check(object)) return false;
    if (PyAnySet_Check(object) || PyObject_HasAttr(object, state->keys)) return false;
    return PySequence_Check(object) || PyIter_Check(object) || PyObject_HasAttr(object, state->iter);
}

/* Opens a tuple or a list with the values of a line. Runs Python code if the object is of another type. */
static Conversion row_open(const State *state, PyObject *object, PyObject **row) {
    if (PyTuple_CheckExact(object) || PyList_CheckExact(object)) {
        *row = Py_NewRef(object);
        return CONVERTED;
    }
    if (is_row(state, object)) {
        *row = PySequence_Tuple(object);
        return *row != NULL ? CONVERTED : RAISED;
    }
    PyObject *name = PyType_GetName(Py_TYPE(object));
    if (name == NULL) return RAISED;
    raise_words(state, PROGRAMMING_ERROR, "the values of a line come in a tuple or a list, not in a %S", name);
    Py_DECREF(name);
    return REFUSED;
}

static size_t row_size(PyObject *row) { return (size_t)(PyTuple_Check(row) ? PyTuple_Size(row) : PyList_Size(row)); }

static Conversion cells_from_open_row(const State *state, PyObject *row, mmdb_cell *cells, size_t width) {
    return PyTuple_Check(row) ? cells_from_tuple(state, row, cells, width) : cells_from_list(state, row, cells, width);
}

Conversion cells_from_row(const State *state, PyObject *object, mmdb_cell *cells, size_t width) {
    PyObject *row;
    Conversion conversion = row_open(state, object, &row);
    if (conversion != CONVERTED) return conversion;
    conversion = REFUSED;
    if (row_size(row) == width) {
        conversion = cells_from_open_row(state, row, cells, width);
    } else {
        raise_wrong_number(state, width, row_size(row));
    }
    Py_DECREF(row);
    return conversion;
}

bool values_take(const State *state, PyObject *parameters, Values *values) {
    PyObject *row;
    values->cells = values->few;
    if (row_open(state, parameters, &row) != CONVERTED) return false;
    values->count = row_size(row);
    bool is_taken = false;
    if (values->count > FEW_VALUES && (values->cells = malloc(values->count * sizeof(mmdb_cell))) == NULL) {
        PyErr_NoMemory();
    } else {
        is_taken = cells_from_open_row(state, row, values->cells, values->count) == CONVERTED;
    }
    Py_DECREF(row);
    if (!is_taken) values_free(values);
    return is_taken;
}

void values_free(Values *values) {
    if (values->cells != values->few) free(values->cells);
}

bool has_own_texts(PyObject *factory) {
    return factory != NULL && factory != Py_None && factory != (PyObject *)&PyUnicode_Type && factory != (PyObject *)&PyBytes_Type;
}

PyObject *object_from_text(PyObject *factory, const char *bytes, size_t length) {
    if (factory == NULL || factory == Py_None || factory == (PyObject *)&PyUnicode_Type) {
        return PyUnicode_DecodeUTF8(bytes, (Py_ssize_t)length, "surrogateescape");
    }
    PyObject *text = PyBytes_FromStringAndSize(bytes, (Py_ssize_t)length);
    if (text == NULL || factory == (PyObject *)&PyBytes_Type) return text;
    PyObject *made = PyObject_CallFunctionObjArgs(factory, text, NULL);
    Py_DECREF(text);
    return made;
}

static PyObject *object_from_cell(PyObject *factory, const mmdb_cell *cell) {
    if (cell->kind == MMDB_NUMBER) return PyLong_FromLongLong(cell->number);
    return object_from_text(factory, (const char *)cell->text, cell->len);
}

PyObject *row_from_cells(PyObject *factory, const mmdb_cell *cells, size_t width) {
    PyObject *row = PyTuple_New((Py_ssize_t)width);
    for (size_t i = 0; row != NULL && i < width; i++) {
        PyObject *value = object_from_cell(factory, &cells[i]);
        if (value == NULL) {
            Py_CLEAR(row);
        } else {
            PyTuple_SetItem(row, (Py_ssize_t)i, value);
        }
    }
    /* Numbers and texts refer to nothing, so the collector need not look at the row. */
    if (row != NULL && !has_own_texts(factory)) PyObject_GC_UnTrack(row);
    return row;
}
