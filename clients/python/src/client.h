/*
 * The module mmdb._mmdb: a client of the library mmdb (include/mmdb.h) for CPython, by its stable interface of version 3.11.
 *
 * Each call that runs a line has four parts:
 *
 *   1. The line and the values are copied into C memory. This part may run Python code (an __index__, a generator, a trace function).
 *   2. connection_enter checks that the connection is open and that this thread may use it, and takes the connection's lock.
 *   3. The library is called, without any Python code in between, and what it replies is copied into memory that only this call has.
 *   4. After connection_leave, Python objects are made of that memory. This part may run Python code again (a finalizer, a factory).
 *
 * So Python code that runs inside a call finds the connection between two calls of the library, as every line of a program does.
 */
#ifndef MMDB_CLIENT_H
#define MMDB_CLIENT_H

#ifndef Py_LIMITED_API
#error "The module is built for the stable interface: define Py_LIMITED_API."
#endif
#define PY_SSIZE_T_CLEAN
#include <Python.h>
#include <pythread.h>
#include <structmember.h>

#include <mmdb.h>
#include <stdatomic.h>
#include <stdbool.h>
#include <stddef.h>
#include <stdint.h>
#include <stdlib.h>
#include <string.h>

_Static_assert(sizeof(mmdb_cell) == 80 && offsetof(mmdb_cell, number) == 8 && offsetof(mmdb_cell, text) == 16,
               "mmdb_cell has another layout");
_Static_assert(sizeof(mmdb_column) == 34 && offsetof(mmdb_column, name) == 2, "mmdb_column has another layout");
_Static_assert(sizeof(mmdb) == 2 * sizeof(void *), "mmdb has another layout");

enum {
    LEAST_REFUSAL = 10,     /* the first status that is a refusal */
    MOST_COLUMNS = 16,      /* of a row: a limit of the language */
    LONGEST_LINE = 4096,    /* in bytes: a limit of the language */
    MOST_SAVEPOINTS = 64,   /* of a transaction at a time: a limit of the language */
    KEPT_STATEMENTS = 128,  /* in the cache of a connection */
    CACHE_BUCKETS = 256,    /* a power of two */
    FEW_VALUES = 16,        /* the values of a line that need no allocation */
    FEW_CELLS = 64,         /* the cells of a result that are read with the run itself */
    MANY_CELLS = 1024       /* the cells that are read or written at a time */
};

/* ---- The state of the module ------------------------------------------------------------------------------------------------------ */

typedef enum ErrorClass {
    WARNING,
    ERROR,
    INTERFACE_ERROR,
    DATABASE_ERROR,
    DATA_ERROR,
    OPERATIONAL_ERROR,
    INTEGRITY_ERROR,
    INTERNAL_ERROR,
    PROGRAMMING_ERROR,
    NOT_SUPPORTED_ERROR,
    ERROR_CLASSES
} ErrorClass;

typedef struct Shape Shape;

typedef struct State {
    PyTypeObject *connection_type, *cursor_type, *savepoint_type, *row_type, *columns_type, *buffer_type;
    PyObject *errors[ERROR_CLASSES];
    PyObject *no_values;        /* an empty tuple */
    PyObject *keys, *iter;      /* the names keys and __iter__, interned */
    PyObject *make_row;         /* the function that unpickles a Row */
    Shape *line_shape;          /* the columns of the replies to EXPLAIN and TABLES: one text, line */
} State;

/* Returns the state of the module that made a type or one of its bases, or NULL with an exception. */
State *state_of_type(PyTypeObject *type);

/* ---- Errors ----------------------------------------------------------------------------------------------------------------------- */

/* Makes the exceptions and adds them to the module. Returns whether that succeeded. */
bool errors_create(PyObject *module, State *state);

/* Adds the exceptions to a type as its attributes. Returns whether that succeeded. */
bool errors_add_to_type(const State *state, PyTypeObject *type);

/* Raises an exception of a class, without a number. format is that of PyErr_Format. */
void raise_words(const State *state, ErrorClass error, const char *format, ...);

/* Raises the exception of a status of the library with the library's words, followed by a detail if it is not NULL. */
void raise_status(const State *state, uint8_t status, const char *detail);

/* A refused line: the status, and the byte of the line to show. script_line is the number of the line in a script, from 1, or 0. */
typedef struct Refusal {
    uint8_t status;
    size_t place;
    const char *line;
    size_t length;
    size_t script_line;
} Refusal;

void raise_refusal(const State *state, const Refusal *refusal);

/* Sets the attribute runs of the exception that is raised. */
void add_runs(size_t runs);

/* ---- Texts and values ------------------------------------------------------------------------------------------------------------- */

/* The bytes of a str in UTF-8, where lone surrogates stand for bytes that are not UTF-8. They belong to owner. */
typedef struct Text {
    PyObject *owner;
    const char *bytes;
    size_t length;
} Text;

/* Returns whether a str has bytes. If not, raises UnicodeEncodeError or MemoryError. */
bool text_open(PyObject *string, Text *text);
void text_close(Text *text);

typedef enum Conversion {
    CONVERTED,
    REFUSED,    /* an exception of the module says that this is no value */
    RAISED      /* an exception of another origin, as of an __index__ */
} Conversion;

/* Writes a text into a cell. */
Conversion cell_from_bytes(const State *state, const char *bytes, size_t length, mmdb_cell *cell);

/* Writes a value into a cell. May run Python code. */
Conversion cell_from_value(const State *state, PyObject *value, mmdb_cell *cell);

/* Writes the values of a line into cells, exactly width of them. May run Python code. */
Conversion cells_from_row(const State *state, PyObject *row, mmdb_cell *cells, size_t width);

/* The values of a line, as many as were passed. */
typedef struct Values {
    size_t count;
    mmdb_cell *cells;
    mmdb_cell few[FEW_VALUES];
} Values;

/* Copies the values of a line. Returns false with an exception. May run Python code. */
bool values_take(const State *state, PyObject *parameters, Values *values);
void values_free(Values *values);

/* Raises that a line has another number of holes. */
void raise_wrong_number(const State *state, size_t holes, size_t given);

/* Returns the object that a text becomes. factory is the text_factory of a connection. May run Python code if has_own_texts. */
PyObject *object_from_text(PyObject *factory, const char *bytes, size_t length);

/* Returns whether a text_factory is a function of the program. */
bool has_own_texts(PyObject *factory);

/* Returns a row as a tuple. */
PyObject *row_from_cells(PyObject *factory, const mmdb_cell *cells, size_t width);

/* ---- Results ---------------------------------------------------------------------------------------------------------------------- */

/*
 * A column of a result, in the layout of Apache Arrow: numbers; or the bytes of all texts in a row, and the offsets at which each text
 * begins and the last one ends.
 */
typedef struct Column {
    uint8_t kind;
    int64_t *numbers;
    int32_t *offsets;
    char *bytes;
    size_t room;
} Column;

/* The rows of a result. Consumers of Arrow may release it without the lock of the interpreter, so the references are atomic. */
typedef struct Result {
    atomic_size_t references;
    size_t rows, width;
    Column columns[];
} Result;

/* These functions call no Python code. Those that return a result return NULL if an allocation fails. */
Result *result_retain(Result *result);
void result_release(Result *result);

/* Returns a result for that many rows, with none in it yet. */
Result *result_new(const mmdb_column *columns, size_t width, size_t rows);

/* Appends rows. Returns false if an allocation fails. */
bool result_append(Result *result, const mmdb_cell *cells, size_t rows);

/* Returns all rows of the reply, of which the first are in cells. */
Result *result_read(mmdb *db, const Shape *shape, size_t rows, const mmdb_cell *cells, size_t found);

/* Returns the lines of the reply's text as rows of one text, without the last line, which is a count. */
Result *result_read_lines(mmdb *db);

/* Returns a row as a tuple. */
PyObject *row_from_result(PyObject *factory, const Result *result, size_t row);

/* ---- Statements ------------------------------------------------------------------------------------------------------------------- */

/* The columns of the rows that a statement returns, as the catalog was when they were asked for. The objects are made when needed. */
struct Shape {
    size_t references;
    PyObject *description, *names;
    size_t width;
    mmdb_column columns[];
};

Shape *shape_new(const mmdb_column *columns, size_t width);
Shape *shape_retain(Shape *shape);
void shape_release(Shape *shape);

/* Returns the description of PEP 249, and the names as a tuple. The references are borrowed from the shape. */
PyObject *shape_description(Shape *shape);
PyObject *shape_names(Shape *shape);

typedef struct Connection Connection;

/* A line, and once it is prepared its statement. The cache and each call that uses it have a reference. */
typedef struct Statement {
    size_t references;
    /* What the cache keeps: the line as an exact str, or NULL if it is not cached. */
    PyObject *key;
    Py_hash_t hash;
    struct Statement *next_in_bucket, *newer, *older;
    /* What the library said. */
    bool is_prepared;
    size_t number, parameters;
    uint8_t kind;
    /* What the library said for the catalog of an age. */
    bool knows_catalog, is_look_up;
    uint64_t catalog_age;
    Shape *shape;
    size_t length;
    char line[];
} Statement;

/* Returns a statement that is not prepared yet, or NULL with an exception. A line feed outside a text becomes a blank. */
Statement *statement_new(const State *state, const char *line, size_t length);

/* Gives a reference back. May wait for the connection's lock. */
void statement_release(Connection *connection, Statement *statement);

/* The same, inside connection_enter and connection_leave. */
void statement_release_inside(Connection *connection, Statement *statement);

/* Returns a new reference to the statement of a line, from the cache or new; or NULL with an exception. */
Statement *statement_of(Connection *connection, PyObject *line);

/* Prepares a statement, unless it is prepared. Returns MMDB_DONE or a refusal. Inside connection_enter and connection_leave. */
uint8_t statement_prepare(Connection *connection, Statement *statement);

/* The statements that were used last. All have a key. */
typedef struct Cache {
    Statement *buckets[CACHE_BUCKETS];
    Statement *newest, *oldest;
    size_t count;
} Cache;

/* Keeps a statement that has a key, and drops the one that was used least recently if there are too many. */
void cache_add(Connection *connection, Statement *statement);
void cache_clear(Connection *connection);

static inline bool is_definition(const Statement *statement) { return statement->kind >= 10 && statement->kind < 20; }
static inline bool is_change(const Statement *statement) { return statement->kind >= 20 && statement->kind < 30; }
static inline bool is_question(const Statement *statement) { return statement->kind >= 30 && statement->kind < 50; }

/* ---- The list of savepoints ------------------------------------------------------------------------------------------------------- */

/* A savepoint that is set. No other one has its number. */
typedef struct SetSavepoint {
    uint64_t number;
    size_t length;
    char name[MMDB_NAME_BYTES];
} SetSavepoint;

/*
 * The savepoints that are set, the oldest first. The library knows savepoints by their names, of which several may be equal. A with
 * statement has to know whether its own one is still set, and whether a later one hides it.
 */
typedef struct SavepointList {
    uint64_t newest;            /* the number that was given last */
    size_t count;
    SetSavepoint all[MOST_SAVEPOINTS];
} SavepointList;

/* Follows a line that succeeded with MMDB_DONE. */
void savepoints_follow(SavepointList *list, const char *line, size_t length);

/* Returns the number of savepoints up to the latest one with a name: 0 if there is none. */
size_t savepoints_count_to(const SavepointList *list, const char *name, size_t length);

/* Returns whether the savepoint with a number is still set. */
bool savepoints_have(const SavepointList *list, uint64_t number);

/* ---- Connections ------------------------------------------------------------------------------------------------------------------ */

typedef enum Phase { NEW, OPEN, CLOSED } Phase;

struct Connection {
    PyObject_HEAD
    State *state;
    Phase phase;
    mmdb db;
    bool autocommit;
    uint64_t owner;             /* the number of the thread that may use the connection; 0 if all may */
    PyThread_type_lock lock;    /* NULL if one thread alone may use the connection */
    size_t begin, commit, rollback;     /* the numbers of the statements BEGIN, COMMIT and ROLLBACK */
    uint64_t catalog_age;       /* it changes with each definition that succeeds */
    SavepointList savepoints;
    Cache cache;
    PyObject *row_factory, *text_factory, *trace_callback, *weak_references;
};

/* Returns whether this thread may use the connection now. If not, raises ProgrammingError. */
bool connection_check(Connection *self);

/* Does the same, and takes the lock. Until connection_leave no Python code may run on this thread. */
bool connection_enter(Connection *self);
void connection_leave(Connection *self);

/* Takes the lock whatever the phase is. */
void connection_lock(Connection *self);

/* Calls the trace callback, if there is one. Returns false with an exception. Runs Python code. */
bool connection_trace(Connection *self, PyObject *line);

/* Runs COMMIT or ROLLBACK if a transaction is open. Returns None, or NULL with an exception. */
PyObject *connection_commit(PyObject *self, PyObject *unused);
PyObject *connection_rollback(PyObject *self, PyObject *unused);

/* Executes the lines of a script in one call of the library. Returns None, or NULL with an exception. */
PyObject *connection_load(PyObject *self, PyObject *script);

/* Inserts the rows of columns in one call of the library. Returns the number of rows, or NULL with an exception. */
PyObject *connection_append(PyObject *self, PyObject *const *arguments, Py_ssize_t count, PyObject *keywords);

extern PyType_Spec connection_spec;

/* The calls for the shell: lines as bytes, statuses, and replies as text. */
PyObject *connection_execute_line(PyObject *self, PyObject *line);
PyObject *connection_reply_count(PyObject *self, PyObject *unused);
PyObject *connection_reply_text(PyObject *self, PyObject *unused);
PyObject *connection_dump_piece(PyObject *self, PyObject *arguments);
PyObject *connection_reply_rows(PyObject *self, PyObject *line);
PyObject *connection_columns_of(PyObject *self, PyObject *line);
PyObject *connection_place_of(PyObject *self, PyObject *arguments);

/* A savepoint for a with statement. */
PyObject *connection_savepoint(PyObject *self, PyObject *name);
extern PyType_Spec savepoint_spec;

/* Returns whether a name is one word, so that a line made of it has no other parts. If not, raises ProgrammingError. */
bool name_check(const State *state, PyObject *name);

/* ---- Cursors ---------------------------------------------------------------------------------------------------------------------- */

typedef struct Cursor {
    PyObject_HEAD
    Connection *connection;     /* NULL before __init__ */
    bool is_closed, has_rows;
    Py_ssize_t array_size, row_count;
    PyObject *row_factory, *weak_references;
    /* The rows of the last line: one as a tuple, or all in C memory. at counts the rows that were fetched. */
    size_t at, rows;
    PyObject *one;
    Result *result;
    Shape *shape;
} Cursor;

extern PyType_Spec cursor_spec;

/* Returns a new cursor, or NULL with an exception. */
Cursor *cursor_new(Connection *connection);

/* Returns whether the cursor was made and is open. If not, raises ProgrammingError. */
bool cursor_check_open(Cursor *self);

/* Returns whether the cursor is open and this thread may use its connection. If not, raises ProgrammingError. */
bool cursor_check(Cursor *self);

/* Returns whether there are rows to fetch. If not, raises ProgrammingError. */
bool cursor_check_rows(Cursor *self);

/* Forgets the rows of the last line. */
void cursor_forget(Cursor *self);

/* The calls that run lines. They return whether they succeeded, and raise an exception if not. */
bool cursor_run(Cursor *self, PyObject *line, PyObject *parameters);
bool cursor_run_many(Cursor *self, PyObject *line, PyObject *rows);
bool cursor_run_columns(Cursor *self, PyObject *line, PyObject *columns);
bool cursor_run_script(Cursor *self, PyObject *script);

/* What part 3 leaves to part 4. */
typedef struct Reply {
    uint8_t status;
    bool has_no_memory;         /* an allocation of the client failed */
    size_t place;               /* of a refused line */
    size_t count;               /* rows of the reply, or rows changed */
    size_t runs;                /* of a statement for many rows */
    size_t found;               /* rows in cells */
    Result *result;
    Shape *shape;
    mmdb_cell cells[FEW_CELLS];
} Reply;

/* Prepares what is before the cells. */
void reply_clear(Reply *reply);

/*
 * Parts 2 to 4 of a prepared change for rows of cells. Adds to the count of the reply the rows that changed, and to runs the runs that
 * were done. Returns false with an exception, which says the number of runs, if one is refused.
 */
bool run_cells(Cursor *cursor, Statement *statement, const mmdb_cell *cells, size_t rows, Reply *reply, size_t *runs);

/* Runs the rows before one that is no row of values, whose exception is set. If they all succeed, it stays set, with the number of runs. */
void run_cells_before_refused(Cursor *cursor, Statement *statement, const mmdb_cell *cells, size_t rows, Reply *reply,
                              size_t *runs);

/* Runs a prepared change for the rows of an object. Returns false with an exception. */
typedef bool (*RowRunner)(Cursor *cursor, Statement *statement, PyObject *rows, Reply *reply);

/* Runs a line, which must be a change, for the rows of an object. */
bool cursor_run_rows(Cursor *self, PyObject *line, PyObject *rows, RowRunner run);

typedef enum SourceKind { NUMBERS, VALUES, TEXTS } SourceKind;

/* Where the values of one column come from. */
typedef struct Source {
    SourceKind kind;
    PyObject *list;             /* VALUES */
    Py_buffer numbers;          /* NUMBERS, or the offsets of TEXTS */
    Py_buffer bytes;            /* TEXTS */
    size_t rows;
} Source;

typedef struct Sources {
    size_t count;               /* of the sources that were opened */
    size_t rows;                /* of each source; 0 if there is none */
    Source sources[];
} Sources;

/* Opens the columns of a tuple, each with as many values. Returns NULL with an exception. */
Sources *sources_open(PyObject *columns);

/* Closes sources, unless they are NULL. */
void sources_close(Sources *sources);

/* Returns an offset of a column of texts. A buffer may begin at any byte. */
int64_t source_offset(const Source *source, size_t place);

/* Takes note of a statement that succeeded with MMDB_DONE: what it defined, or what it did to the savepoints. */
void note_done(Connection *connection, const Statement *statement);

/* Raises the exception of a reply whose status is a refusal, or for which there was no memory. cells are the values of the run. */
void raise_reply(const State *state, const Statement *statement, const Reply *reply, const mmdb_cell *cells);

/* ---- Rows and columns ------------------------------------------------------------------------------------------------------------- */

extern PyType_Spec row_spec, columns_spec, buffer_spec;

PyObject *row_unpickle(PyObject *module, PyObject *arguments);

/* All rows that are left of a cursor, as columns. */
PyObject *columns_from_cursor(Cursor *cursor);

typedef struct Columns {
    PyObject_HEAD
    Result *result;
    Shape *shape;
    size_t first, rows;
} Columns;

/* The capsules of Arrow's C data interface. */
PyObject *columns_arrow_schema(PyObject *self, PyObject *unused);
PyObject *columns_arrow_array(PyObject *self, PyObject *const *arguments, Py_ssize_t count, PyObject *keywords);

/* ---- Arguments and types ---------------------------------------------------------------------------------------------------------- */

/*
 * Reads the arguments of a call by position and by name into values. Those that were not passed stay as they are. The first required ones
 * must be passed. Returns false with a TypeError.
 */
bool arguments_read(const char *function, const char *const *names, Py_ssize_t required, Py_ssize_t all, PyObject *const *arguments,
                    Py_ssize_t count, PyObject *keywords, PyObject **values);

/* Frees an object of a heap type whose contents are freed. */
static inline void free_object(PyObject *self) {
    PyTypeObject *type = Py_TYPE(self);
    freefunc release = (freefunc)PyType_GetSlot(type, Py_tp_free);
    release(self);
    Py_DECREF(type);
}

/* Returns a new reference to an object, or to None if it is NULL. */
static inline PyObject *object_or_none(PyObject *object) { return Py_NewRef(object != NULL ? object : Py_None); }

#define FAST_CALL(function) ((PyCFunction)(void (*)(void))(function))

#endif
