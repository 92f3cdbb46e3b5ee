/* The exceptions of PEP 249, and which status of the library is which. */
#include "client.h"

#include <stdarg.h>

/* The bytes of a refused line that a message shows. */
enum { SHOWN_BYTES = 24 };

typedef struct ErrorSpec {
    const char *name;       /* with the module */
    int base;               /* an ErrorClass, or -1 for Exception */
    const char *doc;
} ErrorSpec;

static const ErrorSpec error_specs[ERROR_CLASSES] = {
    [WARNING] = {"mmdb.Warning", -1, "An important warning. No call raises it."},
    [ERROR] = {"mmdb.Error", -1,
               "An error of this module.\n\n"
               "number is the number of the refusal in docs/LANGUAGE.md, 100 for misuse of the library, or None if the module\n"
               "itself refused. place is the byte of the line to look at, or None. runs is the number of runs of executemany or\n"
               "executecolumns that were done before the refused one, or None. line is the number of the refused line of a script,\n"
               "counted from 1, or None."},
    [INTERFACE_ERROR] = {"mmdb.InterfaceError", ERROR, "The library was misused."},
    [DATABASE_ERROR] = {"mmdb.DatabaseError", ERROR, "An error of the database."},
    [DATA_ERROR] = {"mmdb.DataError", DATABASE_ERROR, "A value has the wrong type, is out of range or is too long."},
    [OPERATIONAL_ERROR] = {"mmdb.OperationalError", DATABASE_ERROR, "A limit of the database was reached, or an allocation failed."},
    [INTEGRITY_ERROR] = {"mmdb.IntegrityError", DATABASE_ERROR, "A duplicate key, or a reference that would have no target."},
    [INTERNAL_ERROR] = {"mmdb.InternalError", DATABASE_ERROR, "An error inside the database. No call raises it."},
    [PROGRAMMING_ERROR] = {"mmdb.ProgrammingError", DATABASE_ERROR,
                           "A wrong line or a wrong call: its syntax, its names, its number of values, its time."},
    [NOT_SUPPORTED_ERROR] = {"mmdb.NotSupportedError", DATABASE_ERROR, "A value of a type that the database does not have."},
};

static ErrorClass class_of_status(uint8_t status) {
    switch (status) {
    case MMDB_LINE_TOO_LONG:
    case MMDB_NUMBER_OUT_OF_RANGE:
    case MMDB_TEXT_TOO_LONG:
    case MMDB_TYPE_MISMATCH:
    case MMDB_ARITHMETIC_OUT_OF_RANGE:
        return DATA_ERROR;
    case MMDB_SYNTAX:
    case MMDB_NO_SUCH_TABLE:
    case MMDB_NO_SUCH_COLUMN:
    case MMDB_NO_SUCH_INDEX:
    case MMDB_NO_SUCH_STANDING_QUERY:
    case MMDB_NAME_TAKEN:
    case MMDB_ALIAS_TAKEN:
    case MMDB_NO_SUCH_ALIAS:
    case MMDB_WRONG_NUMBER_OF_VALUES:
    case MMDB_TRANSACTION_OPEN:
    case MMDB_NO_TRANSACTION:
    case MMDB_NOT_IN_TRANSACTION:
    case MMDB_NO_SUCH_SAVEPOINT:
        return PROGRAMMING_ERROR;
    case MMDB_DUPLICATE_KEY:
    case MMDB_NO_TARGET_ROW:
    case MMDB_ROW_IS_REFERENCED:
    case MMDB_IN_USE:
        return INTEGRITY_ERROR;
    case MMDB_TABLE_FULL:
    case MMDB_RESULT_TOO_LARGE:
    case MMDB_STANDING_LIST_TOO_LARGE:
    case MMDB_TOO_MANY:
    case MMDB_MEMORY:
        return OPERATIONAL_ERROR;
    case MMDB_MISUSE:
        return INTERFACE_ERROR;
    default:
        return DATABASE_ERROR;
    }
}

/* The attributes of Error that its instances have unless they say more. */
static PyObject *error_attributes(void) {
    return Py_BuildValue("{sOsOsOsO}", "number", Py_None, "place", Py_None, "runs", Py_None, "line", Py_None);
}

bool errors_create(PyObject *module, State *state) {
    for (int i = 0; i < ERROR_CLASSES; i++) {
        const ErrorSpec *spec = &error_specs[i];
        PyObject *attributes = NULL;
        if (i == ERROR && (attributes = error_attributes()) == NULL) return false;
        PyObject *base = spec->base < 0 ? NULL : state->errors[spec->base];
        state->errors[i] = PyErr_NewExceptionWithDoc(spec->name, spec->doc, base, attributes);
        Py_XDECREF(attributes);
        if (state->errors[i] == NULL) return false;
        if (PyModule_AddObjectRef(module, strchr(spec->name, '.') + 1, state->errors[i]) < 0) return false;
    }
    return true;
}

bool errors_add_to_type(const State *state, PyTypeObject *type) {
    for (int i = 0; i < ERROR_CLASSES; i++) {
        const char *name = strchr(error_specs[i].name, '.') + 1;
        if (PyObject_SetAttrString((PyObject *)type, name, state->errors[i]) < 0) return false;
    }
    return true;
}

void raise_words(const State *state, ErrorClass error, const char *format, ...) {
    va_list arguments;
    va_start(arguments, format);
    PyErr_FormatV(state->errors[error], format, arguments);
    va_end(arguments);
}

/* Sets an attribute of an exception to a number. Returns whether that succeeded. */
static bool set_number(PyObject *error, const char *name, size_t number) {
    PyObject *value = PyLong_FromSize_t(number);
    bool is_set = value != NULL && PyObject_SetAttrString(error, name, value) == 0;
    Py_XDECREF(value);
    return is_set;
}

/* Raises the exception of a status with a message, of which it takes the reference. place and line are not set if they are NULL. */
static void raise_message(const State *state, uint8_t status, PyObject *message, const size_t *place, const size_t *line) {
    if (message == NULL) return;
    PyObject *class = state->errors[class_of_status(status)];
    PyObject *error = PyObject_CallFunctionObjArgs(class, message, NULL);
    Py_DECREF(message);
    if (error == NULL) return;
    bool is_set = set_number(error, "number", status) && (place == NULL || set_number(error, "place", *place));
    if (is_set && (line == NULL || set_number(error, "line", *line))) PyErr_SetObject(class, error);
    Py_DECREF(error);
}

/* The words of a status, as the library has them. */
static PyObject *words_of_status(uint8_t status) {
    uint8_t words[64];
    size_t length = mmdb_words(status, words, sizeof words);
    if (length == 0) return PyUnicode_FromFormat("status %d", (int)status);
    return PyUnicode_DecodeUTF8((const char *)words, (Py_ssize_t)(length < sizeof words ? length : sizeof words), "replace");
}

/* What else there is to say about a status, or NULL. */
static const char *hint_of_status(uint8_t status) {
    if (status != MMDB_NOT_IN_TRANSACTION) return NULL;
    return "tables and standing queries are created and dropped outside a transaction: commit or roll back first";
}

void raise_status(const State *state, uint8_t status, const char *detail) {
    PyObject *words = words_of_status(status);
    if (words == NULL) return;
    if (detail == NULL) detail = hint_of_status(status);
    PyObject *message = detail == NULL ? Py_NewRef(words) : PyUnicode_FromFormat("%U: %s", words, detail);
    Py_DECREF(words);
    raise_message(state, status, message, NULL, NULL);
}

/* Says where in a line to look: ": at 'rest of the line'". */
static PyObject *words_of_place(const Refusal *refusal) {
    size_t left = refusal->length - refusal->place;
    if (left == 0) return PyUnicode_FromString(": at the end of the line");
    if (left > SHOWN_BYTES) left = SHOWN_BYTES;
    PyObject *rest = PyUnicode_DecodeUTF8(refusal->line + refusal->place, (Py_ssize_t)left, "replace");
    PyObject *words = rest == NULL ? NULL : PyUnicode_FromFormat(": at %R", rest);
    Py_XDECREF(rest);
    return words;
}

static PyObject *words_of_hint(uint8_t status) {
    const char *hint = hint_of_status(status);
    return hint == NULL ? PyUnicode_FromString("") : PyUnicode_FromFormat(": %s", hint);
}

/* Returns the message of a refusal: "line 4: no such table: at 'nothing'". */
static PyObject *message_of_refusal(const Refusal *refusal, bool has_place) {
    PyObject *words = words_of_status(refusal->status);
    if (words == NULL) return NULL;
    PyObject *rest = has_place ? words_of_place(refusal) : words_of_hint(refusal->status);
    PyObject *message = NULL;
    if (rest != NULL && refusal->script_line > 0) {
        message = PyUnicode_FromFormat("line %zu: %U%U", refusal->script_line, words, rest);
    } else if (rest != NULL) {
        message = PyUnicode_FromFormat("%U%U", words, rest);
    }
    Py_DECREF(words);
    Py_XDECREF(rest);
    return message;
}

void raise_refusal(const State *state, const Refusal *refusal) {
    bool has_place = refusal->place <= refusal->length && (refusal->place > 0 || refusal->status == MMDB_SYNTAX);
    const size_t *place = has_place ? &refusal->place : NULL, *line = refusal->script_line > 0 ? &refusal->script_line : NULL;
    raise_message(state, refusal->status, message_of_refusal(refusal, has_place), place, line);
}

void add_runs(size_t runs) {
    PyObject *class, *error, *trace;
    PyErr_Fetch(&class, &error, &trace);
    PyErr_NormalizeException(&class, &error, &trace);
    if (!set_number(error, "runs", runs)) PyErr_Clear();
    PyErr_Restore(class, error, trace);
}
