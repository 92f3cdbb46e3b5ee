/*
 * mmdb in a program's own process.
 *
 * A program opens a database through a handle, a struct mmdb. It drives the database with lines of the language (docs/LANGUAGE.md) and
 * with prepared statements, which are lines with holes. docs/MODEL.md describes the machine whose replies each call returns. A call
 * that fails changes nothing.
 *
 *     mmdb db = MMDB_CLOSED;
 *     if (mmdb_open(&db) == MMDB_DONE) {
 *         mmdb_execute(&db, line, length);
 *         mmdb_close(&db);
 *     }
 *
 * Ownership. The program owns the handle and all memory that it passes. A call reads and writes that memory while it runs, and keeps no
 * pointer to it. The database behind a handle belongs to mmdb, and mmdb_close frees it.
 *
 * Pointers. A pointer to an array may be NULL if the length is 0. All other pointers must not be NULL. What a call writes must not
 * overlap anything else that is passed to it. A length is a number of elements.
 *
 * Threads. Handles share nothing, so each thread may use its own. A handle may move from one thread to another: open it here, use it
 * there and close it elsewhere, with one call at a time. The library has no thread-local state and no locks, and no call blocks.
 *
 * Undefined behaviour: a handle that was not initialized with MMDB_CLOSED; a copy of an open handle that is used after the other one was
 * used, closed or opened; a field of a handle that the program wrote; two calls with one handle at the same time; and a call from a
 * signal handler, or from the child of a fork of a process with threads.
 *
 * Memory. mmdb allocates with malloc and realloc and frees with free. If an allocation fails, the call returns MMDB_MEMORY and changes
 * nothing. No call ends the process.
 */
#ifndef MMDB_H
#define MMDB_H

#include <stdbool.h>
#include <stddef.h>
#include <stdint.h>

#ifdef __cplusplus
extern "C" {
#endif

/* The version of this header: major * 1000000 + minor * 1000 + patch. */
#define MMDB_VERSION 1001000

/*
 * Returns the version of the library, in the form of MMDB_VERSION. A program works with each library of the same major version whose
 * version is at least that of the header it was compiled with.
 */
uint32_t mmdb_version(void);

/* A handle. Its fields belong to mmdb. A program may move a handle in memory between calls, but must not copy an open one. */
typedef struct mmdb {
    void *block;
    bool is_open;
} mmdb;

/* A handle before it is opened and after it is closed. */
#ifdef __cplusplus
#define MMDB_CLOSED mmdb()
#else
#define MMDB_CLOSED {NULL, false}
#endif

/* The kinds of a cell. */
enum {
    MMDB_NUMBER = 0,
    MMDB_STRING = 1
};

/* The maximum length of a text, in bytes. */
enum { MMDB_TEXT_BYTES = 64 };

/*
 * A value, in 80 bytes. If kind is MMDB_NUMBER, the value is number, and len and text are ignored. If kind is MMDB_STRING, the value is
 * the first len bytes of text: 0 to 64 bytes without a line feed; number and the other bytes are ignored. Passing any other cell is
 * misuse. No call writes one.
 */
typedef struct mmdb_cell {
    uint8_t kind;
    uint8_t len;
    int64_t number;
    uint8_t text[MMDB_TEXT_BYTES];
} mmdb_cell;

/* The maximum length of a name, in bytes. */
enum { MMDB_NAME_BYTES = 32 };

/*
 * A column of a result. type is the kind of its cells: MMDB_NUMBER for INT, MMDB_STRING for TEXT. The name is the first len bytes of
 * name, 1 to 32 of them, and the other bytes are 0.
 */
typedef struct mmdb_column {
    uint8_t type;
    uint8_t len;
    uint8_t name[MMDB_NAME_BYTES];
} mmdb_column;

/*
 * The status that a call returns. The numbers from 10 to 90 are the refusals of the language, "error 40 duplicate key" and so on. After
 * such a status nothing has changed, except that mmdb_execute, mmdb_load, mmdb_append, mmdb_run, mmdb_query, mmdb_run_many and
 * mmdb_explain keep the refusal as the reply. All other calls leave the reply unchanged, whether they fail or not. mmdb_load and
 * mmdb_run_many say what stays done.
 */
enum {
    MMDB_NOTHING = 0,                   /* the line was empty or a comment: there is no reply */
    MMDB_DONE = 1,                      /* "ok" */
    MMDB_COUNT = 2,                     /* "ok N": mmdb_count returns N, the number of rows inserted, updated or deleted */
    MMDB_ROWS = 3,                      /* the reply has rows: mmdb_count, mmdb_read, mmdb_text */
    MMDB_TEXT = 4,                      /* the reply to EXPLAIN or TABLES: mmdb_text */
    MMDB_LINE_TOO_LONG = 10,
    MMDB_SYNTAX = 11,
    MMDB_NUMBER_OUT_OF_RANGE = 12,
    MMDB_TEXT_TOO_LONG = 13,
    MMDB_NO_SUCH_TABLE = 20,
    MMDB_NO_SUCH_COLUMN = 21,
    MMDB_NO_SUCH_INDEX = 22,
    MMDB_NO_SUCH_STANDING_QUERY = 23,
    MMDB_NAME_TAKEN = 24,
    MMDB_ALIAS_TAKEN = 25,
    MMDB_NO_SUCH_ALIAS = 26,
    MMDB_TYPE_MISMATCH = 30,
    MMDB_WRONG_NUMBER_OF_VALUES = 31,
    MMDB_ARITHMETIC_OUT_OF_RANGE = 32,
    MMDB_DUPLICATE_KEY = 40,
    MMDB_NO_TARGET_ROW = 41,
    MMDB_ROW_IS_REFERENCED = 42,
    MMDB_IN_USE = 43,
    MMDB_TABLE_FULL = 45,
    MMDB_RESULT_TOO_LARGE = 46,
    MMDB_STANDING_LIST_TOO_LARGE = 47,
    MMDB_TOO_MANY = 48,
    MMDB_TRANSACTION_OPEN = 50,
    MMDB_NO_TRANSACTION = 51,
    MMDB_NOT_IN_TRANSACTION = 52,
    MMDB_NO_SUCH_SAVEPOINT = 53,
    MMDB_MEMORY = 90,
    MMDB_MISUSE = 100                   /* the call was not made, and nothing changed, not even the reply */
};

/*
 * Copies the words of a status into bytes: "duplicate key" for MMDB_DUPLICATE_KEY, "misuse" for MMDB_MISUSE. Copies at most room bytes
 * and no terminating 0. Returns the full length, or 0 if the number is no status from 10 on.
 */
size_t mmdb_words(uint8_t status, uint8_t *bytes, size_t room);

/*
 * Opens a closed handle: it now leads to an empty database without statements and without a reply.
 * Returns MMDB_DONE; MMDB_MEMORY, and the handle stays closed; or MMDB_MISUSE if the handle is open, and it stays as it is.
 */
uint8_t mmdb_open(mmdb *db);

/* Closes a handle and frees its tables, statements and reply. A closed handle stays closed. */
void mmdb_close(mmdb *db);

/*
 * Executes a line of the language, without its line feed and carriage return, and keeps the reply. Returns the status of the reply, or
 * MMDB_MISUSE if the handle is closed.
 */
uint8_t mmdb_execute(mmdb *db, const uint8_t *line, size_t length);

/*
 * Executes the lines of a script one after another, each as mmdb_execute does. A line ends with a line feed, which the last line may lack,
 * and a carriage return before it is not part of the line. Stops at the first line that is refused. Writes the number of lines that were
 * executed before it to *lines, empty lines and comments included, so the refused line has the number *lines + 1. Returns MMDB_DONE if no
 * line was refused, and otherwise the status of the refused line, which changed nothing. The lines before it stay done, so a program that
 * wants all or none begins a transaction first. The reply is that of the last line that was executed; without a line it is unchanged. The
 * difference of mmdb_total_changes before and after is the number of rows that all lines changed. Returns MMDB_MISUSE, and writes 0 to
 * *lines, if the handle is closed.
 */
uint8_t mmdb_load(mmdb *db, const uint8_t *script, size_t length, size_t *lines);

/*
 * The values of a column: numbers, or texts. A column of numbers has no offsets, and a column of texts has no numbers. A column of texts
 * has one offset more than texts: the text at i is the part of bytes from offsets[i] up to offsets[i + 1]. The first offset may be greater
 * than 0. No offset is less than the one before it, or greater than byte_count. Each count is a number of elements. A pointer may be NULL
 * if its count is 0.
 */
typedef struct mmdb_array {
    const int64_t *numbers;
    size_t number_count;
    const uint32_t *offsets;
    size_t offset_count;
    const uint8_t *bytes;
    size_t byte_count;
} mmdb_array;

/*
 * Inserts rows into the table with a name, all of them or none, in one command. columns has an array for each column of the table, count
 * arrays in all, and row i has the values at i. The reply is that of the INSERT of these rows, for which the limit of the length of a line
 * does not hold. Allocates memory for a copy of the rows while it runs.
 * Returns the status of the reply: MMDB_COUNT, or a refusal as that INSERT has it. The reply is MMDB_SYNTAX if the bytes of name are not a
 * name. A text of more than 64 bytes is refused with MMDB_TEXT_TOO_LONG, and one with a line feed with MMDB_SYNTAX, before the table is
 * looked up. Without a row, the status is MMDB_COUNT or MMDB_NO_SUCH_TABLE. Returns MMDB_MISUSE, and leaves the reply unchanged, if the
 * arrays have different numbers of values, one of them is not as described above, or the handle is closed.
 */
uint8_t mmdb_append(mmdb *db, const uint8_t *name, size_t length, const mmdb_array *columns, size_t count);

/*
 * Prepares a statement: a line in which a ? may replace a literal. Each run passes a value for each ?, from left to right. A line without
 * holes may be prepared too. Writes the number of the statement, the smallest one that is free.
 * Names are looked up when the statement runs, so a statement can be prepared before its tables exist.
 * Returns MMDB_DONE; MMDB_LINE_TOO_LONG, MMDB_SYNTAX, MMDB_NUMBER_OUT_OF_RANGE or MMDB_TEXT_TOO_LONG if the line cannot be read;
 * MMDB_MEMORY; or MMDB_MISUSE if the handle is closed. If it fails, *statement is unchanged.
 */
uint8_t mmdb_prepare(mmdb *db, const uint8_t *line, size_t length, size_t *statement);

/*
 * Writes the number of parameters of a statement. Returns MMDB_DONE; or MMDB_MISUSE if no statement has this number or the handle is
 * closed, and *count is unchanged.
 */
uint8_t mmdb_parameters(mmdb *db, size_t statement, size_t *count);

/* The kinds of statements: one for each command, in groups of ten. */
enum {
    MMDB_KIND_NOTHING = 0,              /* an empty line or a comment */
    MMDB_KIND_TABLE = 10,               /* 10 to 19: definitions, which change the catalog */
    MMDB_KIND_DROP_TABLE = 11,
    MMDB_KIND_INDEX = 12,
    MMDB_KIND_DROP_INDEX = 13,
    MMDB_KIND_WATCH = 14,
    MMDB_KIND_UNWATCH = 15,
    MMDB_KIND_INSERT = 20,              /* 20 to 29: changes of rows, with the status MMDB_COUNT */
    MMDB_KIND_UPDATE = 21,
    MMDB_KIND_DELETE = 22,
    MMDB_KIND_SCAN = 30,                /* 30 to 39: questions with the status MMDB_ROWS */
    MMDB_KIND_SCAN_INDEX = 31,
    MMDB_KIND_SELECT = 32,
    MMDB_KIND_SHOW = 33,
    MMDB_KIND_EXPLAIN = 40,             /* 40 to 49: questions with the status MMDB_TEXT */
    MMDB_KIND_TABLES = 41,
    MMDB_KIND_BEGIN = 50,               /* 50 to 59: transactions and savepoints */
    MMDB_KIND_COMMIT = 51,
    MMDB_KIND_ROLLBACK = 52,
    MMDB_KIND_SAVEPOINT = 53,
    MMDB_KIND_ROLLBACK_TO = 54
};

/*
 * Writes the kind of a statement. Returns MMDB_DONE; or MMDB_MISUSE if no statement has this number or the handle is closed, and *kind is
 * unchanged.
 */
uint8_t mmdb_statement_kind(mmdb *db, size_t statement, uint8_t *kind);

/*
 * Writes the columns of the rows that a statement returns, as mmdb_columns does for its line. Returns MMDB_DONE; MMDB_MEMORY; or
 * MMDB_MISUSE if no statement has this number or the handle is closed. If it fails, columns and *count are unchanged.
 */
uint8_t mmdb_statement_columns(mmdb *db, size_t statement, mmdb_column *columns, size_t room, size_t *count);

/*
 * Runs a statement with a value for each hole, from left to right, and keeps the reply, which is that of the line with the values in its
 * holes. Here such a line may be longer than 4,096 bytes and have a negative number after the sign of a shift. Returns the status of the
 * reply. Returns MMDB_MISUSE if no statement has this number, count is not its number of parameters, a cell is not a value, or the handle
 * is closed. Returns MMDB_MEMORY if the values cannot be copied, which requires at least one value. In both cases the reply is unchanged.
 * So a prepared ROLLBACK in a transaction always succeeds.
 */
uint8_t mmdb_run(mmdb *db, size_t statement, const mmdb_cell *values, size_t count);

/*
 * Calls mmdb_run, and then mmdb_read from the first row on. Writes the number of rows read to *rows: 0 if the status is not MMDB_ROWS, and
 * then no cell is written.
 */
uint8_t mmdb_query(mmdb *db, size_t statement, const mmdb_cell *values, size_t count, mmdb_cell *cells, size_t room, size_t *rows);

/*
 * Runs a statement once for each row of values: the first width cells, the next width cells, and so on, count cells in all. The last row
 * has the cells that are left. Stops at the first run that fails. Writes the number of runs that succeeded to *runs. Returns MMDB_DONE if
 * all runs succeeded, and otherwise the status of the run that failed, which changed nothing. The runs before it stay done, so a program
 * that wants all or none begins a transaction first. The reply is that of the last run. The difference of mmdb_total_changes before and
 * after is the number of rows that all runs changed. Returns MMDB_MISUSE, without a run, if width is 0 or the handle is closed.
 */
uint8_t mmdb_run_many(mmdb *db, size_t statement, const mmdb_cell *values, size_t count, size_t width, size_t *runs);

/*
 * Runs EXPLAIN with the query of a statement and a value for each hole, and keeps the reply, which is the plan. The statement is a SELECT
 * or an EXPLAIN. Returns MMDB_TEXT, or the refusal of the EXPLAIN. Returns MMDB_MISUSE, and leaves the reply unchanged, if the statement
 * is of another kind, and where mmdb_run does; and MMDB_MEMORY, as mmdb_run does, if the values cannot be copied.
 */
uint8_t mmdb_explain(mmdb *db, size_t statement, const mmdb_cell *values, size_t count);

/*
 * Deletes a statement. A later statement may get its number. Returns MMDB_DONE, or MMDB_MISUSE if no statement has this number or the
 * handle is closed.
 */
uint8_t mmdb_finalize(mmdb *db, size_t statement);

/*
 * Returns the number of rows of the reply (MMDB_ROWS), or the number of rows that the command changed (MMDB_COUNT). Returns 0 for any
 * other reply, and if the handle is closed.
 */
size_t mmdb_count(mmdb *db);

/*
 * Returns the number of rows that all calls since mmdb_open inserted, updated or deleted: the sum of the counts of their replies, modulo
 * 2 to the power of 64. Changes that a rollback took back stay counted. Returns 0 if the handle is closed.
 */
uint64_t mmdb_total_changes(mmdb *db);

/*
 * Copies rows of the reply into cells, starting at first_row, counted from 0: the values of one row from left to right, then those of the
 * next. Copies as many whole rows as there are and as fit. Returns the number of rows copied. The other cells are unchanged. A cell gets
 * the fields that its value needs; the rest of it may be unchanged. Returns 0 if the handle is closed.
 */
size_t mmdb_read(mmdb *db, size_t first_row, mmdb_cell *cells, size_t room);

/*
 * Copies the text of the reply, as the program mmdb writes it, into bytes: at most room bytes and no terminating 0. Writes the full length
 * to *length, so a call with room 0 returns the room that a second call needs. The length is 0 if there is no reply.
 * Returns MMDB_DONE; or MMDB_MEMORY or MMDB_MISUSE (the handle is closed), and bytes and *length are unchanged.
 */
uint8_t mmdb_text(mmdb *db, uint8_t *bytes, size_t room, size_t *length);

/*
 * Writes the columns of the rows that a line returns, from left to right, for the tables as they are now. SELECT, SCAN, SCAN INDEX and
 * SHOW have columns. All other lines have none, and a name that does not exist has none. The line may have holes, and is not executed.
 * Writes at most room columns, and the number of all columns to *count, so a call with room 0 returns the room that a second call needs.
 * Returns MMDB_DONE; a refusal as mmdb_prepare does; or MMDB_MISUSE if the handle is closed. If it fails, columns and *count are unchanged.
 */
uint8_t mmdb_columns(mmdb *db, const uint8_t *line, size_t length, mmdb_column *columns, size_t room, size_t *count);

/*
 * Returns the byte offset in a line to show in an error message: where reading stopped, a literal past its limit, or a name that does not
 * exist. status is what mmdb_execute, mmdb_prepare or mmdb_columns returned for this line. The offset is a hint, and at most length.
 * Returns 0 if there is no such place, the status is no refusal, or the handle is closed.
 */
size_t mmdb_place(mmdb *db, const uint8_t *line, size_t length, uint8_t status);

/* Returns whether a transaction is open. Returns false if the handle is closed. */
bool mmdb_in_transaction(mmdb *db);

/*
 * Releases the latest savepoint with this name, and all savepoints set after it. All rows stay as they are, and ROLLBACK TO an earlier
 * savepoint still restores the rows of that savepoint. Allocates nothing. Returns MMDB_DONE, or the refusal of ROLLBACK TO with this name:
 * MMDB_SYNTAX if the bytes are not a name, MMDB_NO_TRANSACTION, or MMDB_NO_SUCH_SAVEPOINT. Returns MMDB_MISUSE if the handle is closed.
 */
uint8_t mmdb_release(mmdb *db, const uint8_t *name, size_t length);

/* The least room for a piece of a dump, in bytes: a line of 4,096 bytes and its line feed. */
enum { MMDB_DUMP_ROOM = 4097 };

/* A place in a dump. Its fields belong to mmdb. */
typedef struct mmdb_dump_place {
    size_t part;
    size_t row;
    uint64_t version;
} mmdb_dump_place;

/* The place where a dump starts. */
#ifdef __cplusplus
#define MMDB_DUMP_START mmdb_dump_place()
#else
#define MMDB_DUMP_START {0, 0, 0}
#endif

/*
 * Copies the next piece of the dump into bytes, writes its length to *length, and advances *place past it. The dump is a script that
 * rebuilds the database: its tables, rows, indexes and standing queries. A program initializes *place with MMDB_DUMP_START and calls
 * mmdb_dump until the length is 0. The pieces, one after another, are the script. A piece is at least one whole line, with its line feed,
 * and as many as fit into room bytes. The reply stays as it is. If a transaction is open, its changes are in the dump. Questions may be
 * asked between two calls. Any other command that succeeds ends the dump, and so does mmdb_load if it executes a line. A place is valid
 * for its own handle until that is closed; any other use is not detected, and the pieces are then no script.
 * Returns MMDB_DONE; MMDB_MEMORY; or MMDB_MISUSE if room is less than MMDB_DUMP_ROOM, a command may have changed the database since the
 * dump started, or the handle is closed. If it fails, bytes, *place and *length are unchanged. So after MMDB_MEMORY the dump can go on.
 */
uint8_t mmdb_dump(mmdb *db, mmdb_dump_place *place, uint8_t *bytes, size_t room, size_t *length);

/*
 * Copies the line that defines a table, an index or a standing query into bytes: the TABLE, INDEX or WATCH that a dump has for it, without
 * a line feed, as mmdb_execute takes it. A table and an index may have the same name, and a standing query too, so kind says which one is
 * meant: MMDB_KIND_TABLE, MMDB_KIND_INDEX or MMDB_KIND_WATCH. Copies at most room bytes and no terminating 0. Writes the full length to
 * *needed, so a call with room 0 returns the room that a second call needs. No such line is longer than 4,096 bytes.
 * Returns MMDB_DONE; MMDB_SYNTAX if the bytes of name are not a name; MMDB_NO_SUCH_TABLE, MMDB_NO_SUCH_INDEX or
 * MMDB_NO_SUCH_STANDING_QUERY if nothing of this kind has the name; MMDB_MEMORY; or MMDB_MISUSE if kind is another number or the handle is
 * closed. If it fails, bytes and *needed are unchanged.
 */
uint8_t mmdb_definition(mmdb *db, uint8_t kind, const uint8_t *name, size_t length, uint8_t *bytes, size_t room, size_t *needed);

#ifdef __cplusplus
}
#endif

#endif
