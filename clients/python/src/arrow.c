/* Columns by Arrow's C data interface: a struct array whose children are the columns. The rows are not copied. */
#include "client.h"

/* These two are as https://arrow.apache.org/docs/format/CDataInterface.html declares them. */

struct ArrowSchema {
    const char *format, *name, *metadata;
    int64_t flags, n_children;
    struct ArrowSchema **children, *dictionary;
    void (*release)(struct ArrowSchema *);
    void *private_data;
};

struct ArrowArray {
    int64_t length, null_count, offset, n_buffers, n_children;
    const void **buffers;
    struct ArrowArray **children, *dictionary;
    void (*release)(struct ArrowArray *);
    void *private_data;
};

static const char SCHEMA_NAME[] = "arrow_schema", ARRAY_NAME[] = "arrow_array";

/* ---- Schemas ---------------------------------------------------------------------------------------------------------------------- */

/* All that a schema refers to, in one allocation. Consumers may move the children out of it, so the last release frees it. */
typedef struct SchemaMemory {
    atomic_size_t references;
    struct ArrowSchema *pointers[MOST_COLUMNS];
    struct ArrowSchema children[MOST_COLUMNS];
    char names[MOST_COLUMNS][MMDB_NAME_BYTES + 1];
} SchemaMemory;

static void schema_memory_release(SchemaMemory *memory) {
    if (atomic_fetch_sub_explicit(&memory->references, 1, memory_order_acq_rel) == 1) free(memory);
}

static void release_schema(struct ArrowSchema *schema) {
    for (int64_t i = 0; i < schema->n_children; i++) {
        struct ArrowSchema *child = schema->children[i];
        if (child->release != NULL) child->release(child);
    }
    schema->release = NULL;
    schema_memory_release(schema->private_data);
}

/*
 * Returns the length of the character of UTF-8 at the front of some bytes, or 0 if there is none. Overlong forms, surrogates and characters
 * after U+10FFFF are none.
 */
static size_t character_length(const uint8_t *at, size_t left) {
    if (at[0] < 0x80) return 1;
    if (at[0] < 0xc2 || at[0] > 0xf4) return 0;
    size_t length = at[0] < 0xe0 ? 2 : at[0] < 0xf0 ? 3 : 4;
    if (left < length) return 0;
    uint8_t least = at[0] == 0xe0 ? 0xa0 : at[0] == 0xf0 ? 0x90 : 0x80;
    uint8_t most = at[0] == 0xed ? 0x9f : at[0] == 0xf4 ? 0x8f : 0xbf;
    if (at[1] < least || at[1] > most) return 0;
    for (size_t i = 2; i < length; i++) {
        if ((at[i] & 0xc0) != 0x80) return 0;
    }
    return length;
}

static bool is_utf8(const uint8_t *at, size_t left) {
    while (left > 0) {
        size_t length = character_length(at, left);
        if (length == 0) return false;
        at += length;
        left -= length;
    }
    return true;
}

/* Returns the format of a column: int64, texts in UTF-8, or bytes if one of its texts is not UTF-8. */
static const char *format_of_column(const Columns *columns, const Column *column) {
    if (column->kind == MMDB_NUMBER) return "l";
    const int32_t *offsets = column->offsets + columns->first;
    for (size_t row = 0; row < columns->rows; row++) {
        if (!is_utf8((const uint8_t *)column->bytes + offsets[row], (size_t)(offsets[row + 1] - offsets[row]))) return "z";
    }
    return "u";
}

static void fill_schema(struct ArrowSchema *schema, SchemaMemory *memory, const char *format, const char *name) {
    memset(schema, 0, sizeof *schema);
    schema->format = format;
    schema->name = name;
    schema->release = release_schema;
    schema->private_data = memory;
    atomic_fetch_add_explicit(&memory->references, 1, memory_order_relaxed);
}

/* Writes the schema of columns. Returns false if an allocation fails. */
static bool make_schema(const Columns *columns, struct ArrowSchema *schema) {
    SchemaMemory *memory = calloc(1, sizeof *memory);
    if (memory == NULL) return false;
    atomic_init(&memory->references, 0);
    size_t width = columns->shape->width;
    for (size_t i = 0; i < width; i++) {
        const mmdb_column *column = &columns->shape->columns[i];
        memcpy(memory->names[i], column->name, column->len);
        fill_schema(&memory->children[i], memory, format_of_column(columns, &columns->result->columns[i]), memory->names[i]);
        memory->pointers[i] = &memory->children[i];
    }
    fill_schema(schema, memory, "+s", "");
    schema->n_children = (int64_t)width;
    schema->children = memory->pointers;
    return true;
}

/* ---- Arrays ----------------------------------------------------------------------------------------------------------------------- */

/* All that an array refers to besides the result, which it holds. */
typedef struct ArrayMemory {
    atomic_size_t references;
    Result *result;
    const void *no_buffer;
    struct ArrowArray *pointers[MOST_COLUMNS];
    struct ArrowArray children[MOST_COLUMNS];
    const void *buffers[MOST_COLUMNS][3];
} ArrayMemory;

static void release_array(struct ArrowArray *array) {
    ArrayMemory *memory = array->private_data;
    for (int64_t i = 0; i < array->n_children; i++) {
        struct ArrowArray *child = array->children[i];
        if (child->release != NULL) child->release(child);
    }
    array->release = NULL;
    if (atomic_fetch_sub_explicit(&memory->references, 1, memory_order_acq_rel) > 1) return;
    result_release(memory->result);
    free(memory);
}

static void fill_array(struct ArrowArray *array, ArrayMemory *memory, size_t rows, const void **buffers, int64_t count) {
    memset(array, 0, sizeof *array);
    array->length = (int64_t)rows;
    array->buffers = buffers;
    array->n_buffers = count;
    array->release = release_array;
    array->private_data = memory;
    atomic_fetch_add_explicit(&memory->references, 1, memory_order_relaxed);
}

/* Writes the array of columns. Returns false if an allocation fails. */
static bool make_array(const Columns *columns, struct ArrowArray *array) {
    ArrayMemory *memory = calloc(1, sizeof *memory);
    if (memory == NULL) return false;
    atomic_init(&memory->references, 0);
    memory->result = result_retain(columns->result);
    for (size_t i = 0; i < columns->shape->width; i++) {
        const Column *column = &columns->result->columns[i];
        bool is_number = column->kind == MMDB_NUMBER;
        /* The first buffer says which values are missing: none. */
        memory->buffers[i][1] = is_number ? (const void *)column->numbers : (const void *)column->offsets;
        memory->buffers[i][2] = column->bytes;
        fill_array(&memory->children[i], memory, columns->rows, memory->buffers[i], is_number ? 2 : 3);
        memory->children[i].offset = (int64_t)columns->first;
        memory->pointers[i] = &memory->children[i];
    }
    fill_array(array, memory, columns->rows, &memory->no_buffer, 1);
    array->n_children = (int64_t)columns->shape->width;
    array->children = memory->pointers;
    return true;
}

/* ---- Capsules --------------------------------------------------------------------------------------------------------------------- */

static void free_schema_capsule(PyObject *capsule) {
    struct ArrowSchema *schema = PyCapsule_GetPointer(capsule, SCHEMA_NAME);
    if (schema->release != NULL) schema->release(schema);
    free(schema);
}

static void free_array_capsule(PyObject *capsule) {
    struct ArrowArray *array = PyCapsule_GetPointer(capsule, ARRAY_NAME);
    if (array->release != NULL) array->release(array);
    free(array);
}

PyObject *columns_arrow_schema(PyObject *self, PyObject *unused) {
    (void)unused;
    struct ArrowSchema *schema = malloc(sizeof *schema);
    if (schema == NULL || !make_schema((Columns *)self, schema)) {
        free(schema);
        return PyErr_NoMemory();
    }
    PyObject *capsule = PyCapsule_New(schema, SCHEMA_NAME, free_schema_capsule);
    if (capsule == NULL) {
        schema->release(schema);
        free(schema);
    }
    return capsule;
}

static PyObject *array_capsule(const Columns *columns) {
    struct ArrowArray *array = malloc(sizeof *array);
    if (array == NULL || !make_array(columns, array)) {
        free(array);
        return PyErr_NoMemory();
    }
    PyObject *capsule = PyCapsule_New(array, ARRAY_NAME, free_array_capsule);
    if (capsule == NULL) {
        array->release(array);
        free(array);
    }
    return capsule;
}

PyObject *columns_arrow_array(PyObject *self, PyObject *const *arguments, Py_ssize_t count, PyObject *keywords) {
    static const char *const names[] = {"requested_schema"};
    /* A producer may return its own types whatever is requested. */
    PyObject *requested = NULL;
    if (!arguments_read("__arrow_c_array__", names, 0, 1, arguments, count, keywords, &requested)) return NULL;
    PyObject *schema = columns_arrow_schema(self, NULL);
    PyObject *array = schema == NULL ? NULL : array_capsule((Columns *)self);
    PyObject *both = array == NULL ? NULL : PyTuple_Pack(2, schema, array);
    Py_XDECREF(schema);
    Py_XDECREF(array);
    return both;
}
