/* Prepared statements, the columns of their rows, and the cache of a connection. */
#include "client.h"

/* ---- Shapes ----------------------------------------------------------------------------------------------------------------------- */

Shape *shape_new(const mmdb_column *columns, size_t width) {
    Shape *shape = calloc(1, sizeof *shape + width * sizeof *columns);
    if (shape == NULL) return NULL;
    shape->references = 1;
    shape->width = width;
    if (width > 0) memcpy(shape->columns, columns, width * sizeof *columns);
    return shape;
}

Shape *shape_retain(Shape *shape) {
    if (shape != NULL) shape->references++;
    return shape;
}

void shape_release(Shape *shape) {
    if (shape == NULL || --shape->references > 0) return;
    Py_XDECREF(shape->description);
    Py_XDECREF(shape->names);
    free(shape);
}

static PyObject *name_of_column(const mmdb_column *column) {
    return PyUnicode_DecodeUTF8((const char *)column->name, column->len, "replace");
}

static PyObject *description_of_column(const mmdb_column *column) {
    PyObject *name = name_of_column(column);
    PyTypeObject *type = column->type == MMDB_NUMBER ? &PyLong_Type : &PyUnicode_Type;
    return name == NULL ? NULL : Py_BuildValue("(NOOOOOO)", name, type, Py_None, Py_None, Py_None, Py_None, Py_None);
}

/* Returns a tuple with an object for each column. */
static PyObject *tuple_of_columns(const Shape *shape, PyObject *(*object_of)(const mmdb_column *)) {
    PyObject *tuple = PyTuple_New((Py_ssize_t)shape->width);
    for (size_t i = 0; tuple != NULL && i < shape->width; i++) {
        PyObject *object = object_of(&shape->columns[i]);
        if (object == NULL) {
            Py_CLEAR(tuple);
        } else {
            PyTuple_SetItem(tuple, (Py_ssize_t)i, object);
        }
    }
    return tuple;
}

/* Fills a field of a shape, unless code that ran meanwhile has filled it. */
static PyObject *shape_object(Shape *shape, PyObject **field, PyObject *(*object_of)(const mmdb_column *)) {
    if (*field != NULL) return *field;
    PyObject *tuple = tuple_of_columns(shape, object_of);
    if (*field == NULL) {
        *field = tuple;
    } else {
        Py_XDECREF(tuple);
    }
    return *field;
}

PyObject *shape_description(Shape *shape) { return shape_object(shape, &shape->description, description_of_column); }

PyObject *shape_names(Shape *shape) { return shape_object(shape, &shape->names, name_of_column); }

/* ---- Statements ------------------------------------------------------------------------------------------------------------------- */

/* Copies a line. A line feed outside a text, with the carriage return before it, becomes a blank. Returns the length of the copy. */
static size_t copy_line(char *to, const char *line, size_t length) {
    bool is_in_text = false;
    size_t used = 0;
    for (size_t i = 0; i < length; i++) {
        if (line[i] == '\'') is_in_text = !is_in_text;
        if (line[i] != '\n' || is_in_text) {
            to[used++] = line[i];
        } else if (used > 0 && to[used - 1] == '\r') {
            to[used - 1] = ' ';
        } else {
            to[used++] = ' ';
        }
    }
    return used;
}

Statement *statement_new(const State *state, const char *line, size_t length) {
    bool has_feed = memchr(line, '\n', length) != NULL;
    if (has_feed && length >= 2 && memcmp(line, "--", 2) == 0) {
        raise_words(state, PROGRAMMING_ERROR, "a comment has one line, and this one has more");
        return NULL;
    }
    Statement *statement = calloc(1, sizeof *statement + length);
    if (statement == NULL) {
        PyErr_NoMemory();
        return NULL;
    }
    statement->references = 1;
    statement->length = length;
    if (has_feed) {
        statement->length = copy_line(statement->line, line, length);
    } else {
        memcpy(statement->line, line, length);
    }
    return statement;
}

static void statement_free(Statement *statement) {
    shape_release(statement->shape);
    Py_XDECREF(statement->key);
    free(statement);
}

void statement_release_inside(Connection *connection, Statement *statement) {
    if (--statement->references > 0) return;
    if (statement->is_prepared) mmdb_finalize(&connection->db, statement->number);
    statement_free(statement);
}

void statement_release(Connection *connection, Statement *statement) {
    if (--statement->references > 0) return;
    if (statement->is_prepared) {
        /* On a closed connection this does nothing: close finalized all statements. */
        connection_lock(connection);
        mmdb_finalize(&connection->db, statement->number);
        connection_leave(connection);
    }
    statement_free(statement);
}

uint8_t statement_prepare(Connection *connection, Statement *statement) {
    if (statement->is_prepared) return MMDB_DONE;
    mmdb *db = &connection->db;
    uint8_t status = mmdb_prepare(db, (const uint8_t *)statement->line, statement->length, &statement->number);
    if (status != MMDB_DONE) return status;
    statement->is_prepared = true;
    mmdb_parameters(db, statement->number, &statement->parameters);
    mmdb_statement_kind(db, statement->number, &statement->kind);
    if (statement->key != NULL) cache_add(connection, statement);
    return MMDB_DONE;
}

/* ---- The cache -------------------------------------------------------------------------------------------------------------------- */

static Statement **bucket_of(Cache *cache, Py_hash_t hash) { return &cache->buckets[(size_t)hash & (CACHE_BUCKETS - 1)]; }

static void unlink_from_order(Cache *cache, Statement *statement) {
    *(statement->older != NULL ? &statement->older->newer : &cache->oldest) = statement->newer;
    *(statement->newer != NULL ? &statement->newer->older : &cache->newest) = statement->older;
}

static void link_as_newest(Cache *cache, Statement *statement) {
    statement->newer = NULL;
    statement->older = cache->newest;
    *(cache->newest != NULL ? &cache->newest->newer : &cache->oldest) = statement;
    cache->newest = statement;
}

/* Finds the statement of a line, which is an exact str, so that no Python code runs. */
static Statement *cache_find(Cache *cache, PyObject *line, Py_hash_t hash) {
    Statement *statement = *bucket_of(cache, hash);
    while (statement != NULL) {
        if (statement->key == line || (statement->hash == hash && PyUnicode_Compare(statement->key, line) == 0)) break;
        statement = statement->next_in_bucket;
    }
    return statement;
}

static void cache_remove(Cache *cache, Statement *statement) {
    Statement **link = bucket_of(cache, statement->hash);
    while (*link != statement) link = &(*link)->next_in_bucket;
    *link = statement->next_in_bucket;
    unlink_from_order(cache, statement);
    cache->count--;
}

void cache_add(Connection *connection, Statement *statement) {
    Cache *cache = &connection->cache;
    /* Another thread may have prepared the same line meanwhile. */
    if (cache_find(cache, statement->key, statement->hash) != NULL) return;
    if (cache->count == KEPT_STATEMENTS) {
        Statement *oldest = cache->oldest;
        cache_remove(cache, oldest);
        statement_release_inside(connection, oldest);
    }
    Statement **bucket = bucket_of(cache, statement->hash);
    statement->next_in_bucket = *bucket;
    *bucket = statement;
    link_as_newest(cache, statement);
    cache->count++;
    statement->references++;
}

void cache_clear(Connection *connection) {
    Cache *cache = &connection->cache;
    while (cache->oldest != NULL) {
        Statement *oldest = cache->oldest;
        cache_remove(cache, oldest);
        if (--oldest->references == 0) statement_free(oldest);
    }
}

static Statement *cache_use(Cache *cache, Statement *statement) {
    if (statement != cache->newest) {
        unlink_from_order(cache, statement);
        link_as_newest(cache, statement);
    }
    statement->references++;
    return statement;
}

/* Returns a statement of a str, or NULL with an exception. */
static Statement *statement_of_string(const State *state, PyObject *line) {
    Text text;
    if (!text_open(line, &text)) {
        if (!PyErr_ExceptionMatches(PyExc_UnicodeEncodeError)) return NULL;
        PyErr_Clear();
        raise_words(state, PROGRAMMING_ERROR, "the line has a lone surrogate, which stands for no byte of UTF-8");
        return NULL;
    }
    Statement *statement = statement_new(state, text.bytes, text.length);
    text_close(&text);
    return statement;
}

Statement *statement_of(Connection *connection, PyObject *line) {
    Cache *cache = &connection->cache;
    /* The hash of a subclass of str may be anything, so such a line is not cached. */
    if (!PyUnicode_CheckExact(line)) return statement_of_string(connection->state, line);
    if (cache->newest != NULL && cache->newest->key == line) return cache_use(cache, cache->newest);
    Py_hash_t hash = PyObject_Hash(line);
    Statement *found = cache_find(cache, line, hash);
    if (found != NULL) return cache_use(cache, found);
    Statement *statement = statement_of_string(connection->state, line);
    if (statement != NULL) {
        statement->key = Py_NewRef(line);
        statement->hash = hash;
    }
    return statement;
}
