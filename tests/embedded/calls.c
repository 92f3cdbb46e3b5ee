/* Tests every call of the library: correct calls, misuses, and what each must leave unchanged.

     calls [CALLS]

   Each test is a function that prints one line. A failed check prints its source line and condition first. The test many_calls makes
   CALLS calls, one million by default. The exit status is 0 if all tests pass. Failing allocations are tested by
   tests/refused_growths.py, with the driver script.c. */
#include <mmdb.h>
#include <pthread.h>
#include <stdio.h>
#include <stdlib.h>
#include <string.h>

enum { LONGEST_LINE = 4096, MOST_ROWS = 1 << 20, ROOM = 8192 };

static bool has_failed;
static long calls = 1000000;

static void check(bool holds, const char *what, int number) {
  if (holds) return;
  has_failed = true;
  printf("line %d: %s\n", number, what);
}

#define MUST(holds) check(holds, #holds, __LINE__)

/* Values. */

static mmdb_cell number(int64_t number) { return (mmdb_cell){.kind = MMDB_NUMBER, .number = number}; }

static mmdb_cell bytes(const void *from, size_t length) {
  mmdb_cell value = {.kind = MMDB_STRING, .len = (uint8_t)length};
  memcpy(value.text, from, length);
  return value;
}

static mmdb_cell words(const char *text) { return bytes(text, strlen(text)); }

static bool is_number(const mmdb_cell *value, int64_t number) { return value->kind == MMDB_NUMBER && value->number == number; }

static bool is_words(const mmdb_cell *value, const void *text, size_t length) {
  return value->kind == MMDB_STRING && value->len == length && !memcmp(value->text, text, length);
}

/* Calls with null-terminated strings. */

static uint8_t execute(mmdb *db, const char *line) { return mmdb_execute(db, (const uint8_t *)line, strlen(line)); }

static uint8_t prepare(mmdb *db, const char *line, size_t *statement) { return mmdb_prepare(db, (const uint8_t *)line, strlen(line), statement); }

static uint8_t columns_of(mmdb *db, const char *line, mmdb_column *columns, size_t room, size_t *count) {
  return mmdb_columns(db, (const uint8_t *)line, strlen(line), columns, room, count);
}

static uint8_t release(mmdb *db, const char *name) { return mmdb_release(db, (const uint8_t *)name, strlen(name)); }

static uint8_t load(mmdb *db, const char *script, size_t *lines) { return mmdb_load(db, (const uint8_t *)script, strlen(script), lines); }

static uint8_t append(mmdb *db, const char *name, const mmdb_array *columns, size_t count) {
  return mmdb_append(db, (const uint8_t *)name, strlen(name), columns, count);
}

static uint8_t definition(mmdb *db, uint8_t kind, const char *name, uint8_t *line, size_t room, size_t *needed) {
  return mmdb_definition(db, kind, (const uint8_t *)name, strlen(name), line, room, needed);
}

static size_t place_in(mmdb *db, const char *line, uint8_t status) { return mmdb_place(db, (const uint8_t *)line, strlen(line), status); }

/* Prepares a line, which must succeed, and returns the statement's number. */
static size_t prepared(mmdb *db, const char *line) {
  size_t statement = SIZE_MAX;
  check(prepare(db, line, &statement) == MMDB_DONE, line, __LINE__);
  return statement;
}

/* Copies as many bytes of the last reply's text as fit, and returns its full length. */
static size_t text_of_reply(mmdb *db, uint8_t *text, size_t room) {
  size_t length = SIZE_MAX;
  MUST(mmdb_text(db, text, room, &length) == MMDB_DONE);
  return length;
}

static bool last_reply_is(mmdb *db, const char *text) {
  static uint8_t got[ROOM];
  size_t length = text_of_reply(db, got, sizeof got);
  bool holds = length == strlen(text) && !memcmp(got, text, length);
  if (!holds) printf("wanted %s", text), printf("got %.*s", (int)(length < ROOM ? length : ROOM), (const char *)got);
  return holds;
}

/* Executes a line, and returns whether it has this status and this reply. */
static bool answers(mmdb *db, const char *line, uint8_t status, const char *text) { return execute(db, line) == status && last_reply_is(db, text); }

static bool is_done(mmdb *db, const char *line) { return answers(db, line, MMDB_DONE, "ok\n"); }

/* Runs a statement, and returns whether it has this status and this reply. */
static bool runs(mmdb *db, size_t statement, const mmdb_cell *values, size_t count, uint8_t status, const char *text) {
  return mmdb_run(db, statement, values, count) == status && last_reply_is(db, text);
}

static const mmdb_cell no_values[1];

static mmdb opened(void) {
  mmdb db = MMDB_CLOSED;
  MUST(mmdb_open(&db) == MMDB_DONE && db.is_open);
  return db;
}

/* A database with a table t of two rows, one of which contains a text with a quote. */
static mmdb opened_with_rows(void) {
  mmdb db = opened();
  MUST(is_done(&db, "TABLE t (id INT KEY, k INT, s TEXT)"));
  MUST(answers(&db, "INSERT t (1, 5, 'a'), (2, -7, 'it''s')", MMDB_COUNT, "ok 2\n"));
  return db;
}

/* The observable state of a database with a table t. Taking it makes the reply to SCAN t the last reply. */
struct picture {
  uint8_t catalog[ROOM], rows[ROOM];
  size_t catalog_length, rows_length, count;
  bool in_transaction;
};

static struct picture picture_of(mmdb *db) {
  struct picture seen;
  memset(&seen, 0, sizeof seen);
  seen.in_transaction = mmdb_in_transaction(db);
  execute(db, "TABLES");
  seen.catalog_length = text_of_reply(db, seen.catalog, ROOM);
  execute(db, "SCAN t");
  seen.rows_length = text_of_reply(db, seen.rows, ROOM);
  seen.count = mmdb_count(db);
  return seen;
}

static bool last_reply_is_scan(mmdb *db, const struct picture *before) {
  static uint8_t text[ROOM];
  memset(text, 0, ROOM);
  return text_of_reply(db, text, ROOM) == before->rows_length && !memcmp(text, before->rows, ROOM) && mmdb_count(db) == before->count;
}

static bool is_as_before(mmdb *db, const struct picture *before) {
  struct picture after = picture_of(db);
  return !memcmp(after.catalog, before->catalog, ROOM) && !memcmp(after.rows, before->rows, ROOM) && after.in_transaction == before->in_transaction;
}

/* Whether the last reply and the observable state are unchanged. */
static bool stays(mmdb *db, const struct picture *before) { return last_reply_is_scan(db, before) && is_as_before(db, before); }

/* The handle. */

static void a_closed_handle(void) {
  mmdb db = MMDB_CLOSED;
  mmdb_cell cell = number(77);
  size_t written = 77;
  uint8_t text[4] = "abc";
  MUST(execute(&db, "SCAN t") == MMDB_MISUSE);
  MUST(prepare(&db, "SCAN t", &written) == MMDB_MISUSE && written == 77);
  MUST(mmdb_parameters(&db, 0, &written) == MMDB_MISUSE && written == 77);
  MUST(mmdb_run(&db, 0, no_values, 0) == MMDB_MISUSE);
  MUST(mmdb_query(&db, 0, no_values, 0, &cell, 1, &written) == MMDB_MISUSE && written == 0 && is_number(&cell, 77));
  MUST(mmdb_finalize(&db, 0) == MMDB_MISUSE);
  written = 77;
  MUST(mmdb_run_many(&db, 0, &cell, 1, 1, &written) == MMDB_MISUSE && written == 0);
  MUST(mmdb_count(&db) == 0);
  MUST(mmdb_read(&db, 0, &cell, 1) == 0 && is_number(&cell, 77));
  written = 77;
  MUST(mmdb_text(&db, text, 3, &written) == MMDB_MISUSE && written == 77 && !memcmp(text, "abc", 4));
  mmdb_column column = {.type = 77};
  MUST(columns_of(&db, "SCAN t", &column, 1, &written) == MMDB_MISUSE && written == 77 && column.type == 77);
  MUST(place_in(&db, "SCAN", MMDB_SYNTAX) == 0);
  MUST(!mmdb_in_transaction(&db));
  uint8_t kind = 77;
  MUST(mmdb_statement_kind(&db, 0, &kind) == MMDB_MISUSE && kind == 77);
  MUST(mmdb_statement_columns(&db, 0, &column, 1, &written) == MMDB_MISUSE && written == 77 && column.type == 77);
  MUST(mmdb_explain(&db, 0, no_values, 0) == MMDB_MISUSE);
  MUST(mmdb_total_changes(&db) == 0);
  MUST(release(&db, "s") == MMDB_MISUSE);
  MUST(load(&db, "BEGIN", &written) == MMDB_MISUSE && written == 0);
  MUST(append(&db, "t", NULL, 0) == MMDB_MISUSE);
  written = 77;
  MUST(definition(&db, MMDB_KIND_TABLE, "t", text, 3, &written) == MMDB_MISUSE && written == 77 && !memcmp(text, "abc", 4));
  mmdb_close(&db);
  MUST(!db.is_open);
}

static void opened_twice_and_closed_twice(void) {
  mmdb db;
  memset(&db, 0, sizeof db);
  MUST(mmdb_open(&db) == MMDB_DONE);
  MUST(is_done(&db, "TABLE t (id INT KEY)"));
  struct picture before = picture_of(&db);
  mmdb copy = db;
  MUST(mmdb_open(&db) == MMDB_MISUSE && db.block == copy.block && db.is_open);
  MUST(stays(&db, &before));
  mmdb_close(&db);
  MUST(!db.is_open && execute(&db, "TABLES") == MMDB_MISUSE);
  mmdb_close(&db);
  MUST(!db.is_open && mmdb_open(&db) == MMDB_DONE);
  MUST(answers(&db, "TABLES", MMDB_TEXT, "tables 0\n"));
  MUST(mmdb_run(&db, 0, no_values, 0) == MMDB_MISUSE);
  mmdb_close(&db);
}

/* Closing frees everything that is open: a transaction, savepoints, statements, the rows of a reply. */
static void closed_in_the_middle(void) {
  mmdb db = opened_with_rows();
  MUST(is_done(&db, "WATCH w SELECT a.s FROM t a WHERE a.k > 0"));
  MUST(is_done(&db, "BEGIN") && is_done(&db, "SAVEPOINT s"));
  MUST(answers(&db, "UPDATE t SET k = 9", MMDB_COUNT, "ok 2\n"));
  size_t statement = prepared(&db, "SELECT a.s FROM t a WHERE a.k = ?");
  mmdb_cell value = number(9);
  MUST(runs(&db, statement, &value, 1, MMDB_ROWS, "('a')\n('it''s')\nrows 2\n"));
  mmdb_close(&db);
  MUST(!db.is_open);
}

static void two_databases(void) {
  mmdb one = opened_with_rows(), other = opened();
  MUST(is_done(&other, "TABLE t (x TEXT KEY)"));
  size_t of_one = prepared(&one, "INSERT t (?, 0, '')"), of_other = prepared(&other, "INSERT t (?)");
  MUST(is_done(&one, "BEGIN") && mmdb_in_transaction(&one) && !mmdb_in_transaction(&other));
  for (int64_t i = 0; i < 50; i++) {
    mmdb_cell id = number(100 + i), x = words(i % 2 ? "odd" : "even");
    x.text[x.len++] = (uint8_t)('0' + i);
    MUST(runs(&one, of_one, &id, 1, MMDB_COUNT, "ok 1\n") && runs(&other, of_other, &x, 1, MMDB_COUNT, "ok 1\n"));
    MUST(runs(&one, of_one, &x, 1, MMDB_TYPE_MISMATCH, "error 30 type mismatch\n") && last_reply_is(&other, "ok 1\n"));
  }
  MUST(execute(&one, "SCAN t") == MMDB_ROWS && mmdb_count(&one) == 52);
  MUST(execute(&other, "SCAN t") == MMDB_ROWS && mmdb_count(&other) == 50);
  mmdb_close(&one);
  MUST(execute(&other, "SCAN t") == MMDB_ROWS && mmdb_count(&other) == 50);
  mmdb_close(&other);
}

/* Inserts numbers into a database of its own, and sets *argument if it reads all of them back. */
static void *one_thread(void *argument) {
  bool *is_right = argument;
  mmdb db = MMDB_CLOSED;
  size_t insert, find, rows;
  *is_right = mmdb_open(&db) == MMDB_DONE && execute(&db, "TABLE t (id INT KEY, k INT)") == MMDB_DONE;
  *is_right &= prepare(&db, "INSERT t (?, ?)", &insert) == MMDB_DONE && prepare(&db, "SELECT a.k FROM t a WHERE a.id = ?", &find) == MMDB_DONE;
  for (int64_t i = 0; *is_right && i < calls / 100; i++) {
    mmdb_cell values[] = {number(i), number((int64_t)(uintptr_t)argument + i)}, cell;
    *is_right = mmdb_run(&db, insert, values, 2) == MMDB_COUNT && mmdb_query(&db, find, values, 1, &cell, 1, &rows) == MMDB_ROWS;
    *is_right &= rows == 1 && is_number(&cell, values[1].number);
  }
  mmdb_close(&db);
  return NULL;
}

/* Each thread has a database of its own. */
static void two_threads(void) {
  pthread_t threads[2];
  bool are_right[2] = {false, false};
  for (int i = 0; i < 2; i++) MUST(pthread_create(&threads[i], NULL, one_thread, &are_right[i]) == 0);
  for (int i = 0; i < 2; i++) MUST(pthread_join(threads[i], NULL) == 0);
  MUST(are_right[0] && are_right[1]);
}

/* A database that one thread after another uses. */
struct shared {
  mmdb db;
  size_t insert, find;
  bool is_right;
};

static void *open_it(void *argument) {
  struct shared *shared = argument;
  mmdb *db = &shared->db;
  shared->is_right = mmdb_open(db) == MMDB_DONE && execute(db, "TABLE t (id INT KEY, s TEXT)") == MMDB_DONE;
  shared->is_right &= prepare(db, "INSERT t (?, ?)", &shared->insert) == MMDB_DONE;
  shared->is_right &= prepare(db, "SELECT a.s FROM t a WHERE a.id = ?", &shared->find) == MMDB_DONE;
  return NULL;
}

static void *use_it(void *argument) {
  struct shared *shared = argument;
  mmdb *db = &shared->db;
  shared->is_right &= execute(db, "BEGIN") == MMDB_DONE && execute(db, "SAVEPOINT s") == MMDB_DONE;
  int64_t first = (int64_t)mmdb_total_changes(db);
  for (int64_t i = first; shared->is_right && i < first + 100; i++) {
    mmdb_cell values[] = {number(i), words("a text of more than sixteen bytes")}, cell;
    size_t rows;
    shared->is_right &= mmdb_run(db, shared->insert, values, 2) == MMDB_COUNT;
    shared->is_right &= mmdb_query(db, shared->find, values, 1, &cell, 1, &rows) == MMDB_ROWS && rows == 1;
  }
  shared->is_right &= execute(db, "COMMIT") == MMDB_DONE && execute(db, "SCAN t") == MMDB_ROWS && mmdb_count(db) == (size_t)first + 100;
  return NULL;
}

static void *close_it(void *argument) {
  struct shared *shared = argument;
  shared->is_right &= execute(&shared->db, "SCAN t") == MMDB_ROWS && mmdb_count(&shared->db) == 200;
  mmdb_close(&shared->db);
  return NULL;
}

/* One thread opens a handle, two others use it one after the other, and a fourth closes it. */
static void a_handle_of_several_threads(void) {
  struct shared shared = {.db = MMDB_CLOSED};
  void *(*const parts[])(void *) = {open_it, use_it, use_it, close_it};
  for (size_t i = 0; i < sizeof parts / sizeof *parts; i++) {
    pthread_t thread;
    MUST(pthread_create(&thread, NULL, parts[i], &shared) == 0 && pthread_join(thread, NULL) == 0);
  }
  MUST(shared.is_right && !shared.db.is_open);
}

/* Calls without a handle. */

static void versions(void) {
  MUST(mmdb_version() == MMDB_VERSION);
  MUST(mmdb_version() == 1001000);
}

static const struct { uint8_t status; const char *words; } statuses_with_words[] = {
  {MMDB_LINE_TOO_LONG, "line too long"},
  {MMDB_SYNTAX, "syntax"},
  {MMDB_NUMBER_OUT_OF_RANGE, "number out of range"},
  {MMDB_TEXT_TOO_LONG, "text too long"},
  {MMDB_NO_SUCH_TABLE, "no such table"},
  {MMDB_NO_SUCH_COLUMN, "no such column"},
  {MMDB_NO_SUCH_INDEX, "no such index"},
  {MMDB_NO_SUCH_STANDING_QUERY, "no such standing query"},
  {MMDB_NAME_TAKEN, "name taken"},
  {MMDB_ALIAS_TAKEN, "alias taken"},
  {MMDB_NO_SUCH_ALIAS, "no such alias"},
  {MMDB_TYPE_MISMATCH, "type mismatch"},
  {MMDB_WRONG_NUMBER_OF_VALUES, "wrong number of values"},
  {MMDB_ARITHMETIC_OUT_OF_RANGE, "arithmetic out of range"},
  {MMDB_DUPLICATE_KEY, "duplicate key"},
  {MMDB_NO_TARGET_ROW, "no target row"},
  {MMDB_ROW_IS_REFERENCED, "row is referenced"},
  {MMDB_IN_USE, "in use"},
  {MMDB_TABLE_FULL, "table full"},
  {MMDB_RESULT_TOO_LARGE, "result too large"},
  {MMDB_STANDING_LIST_TOO_LARGE, "standing list too large"},
  {MMDB_TOO_MANY, "too many"},
  {MMDB_TRANSACTION_OPEN, "transaction open"},
  {MMDB_NO_TRANSACTION, "no transaction"},
  {MMDB_NOT_IN_TRANSACTION, "not in a transaction"},
  {MMDB_NO_SUCH_SAVEPOINT, "no such savepoint"},
  {MMDB_MEMORY, "memory"},
  {MMDB_MISUSE, "misuse"},
};

static const char *words_of(unsigned status) {
  for (size_t i = 0; i < sizeof statuses_with_words / sizeof *statuses_with_words; i++)
    if (statuses_with_words[i].status == status) return statuses_with_words[i].words;
  return "";
}

/* All 256 statuses, each with buffers of every size: the words are cut at the buffer's end, and the length is the full one. */
static void words_of_statuses(void) {
  for (unsigned status = 0; status < 256; status++) {
    const char *wanted = words_of(status);
    size_t length = strlen(wanted);
    for (size_t room = 0; room <= length + 1; room++) {
      uint8_t got[40];
      memset(got, '#', sizeof got);
      size_t written = room < length ? room : length;
      MUST(mmdb_words((uint8_t)status, got, room) == length && !memcmp(got, wanted, written) && got[written] == '#');
    }
  }
}

/* Replies. */

static void each_kind_of_reply(void) {
  mmdb db = opened();
  mmdb_cell cells[6];
  MUST(mmdb_count(&db) == 0 && mmdb_read(&db, 0, cells, 6) == 0 && last_reply_is(&db, ""));
  MUST(is_done(&db, "TABLE t (id INT KEY, k INT, s TEXT)") && mmdb_count(&db) == 0);
  MUST(answers(&db, "INSERT t (1, 5, 'a'), (2, -7, 'it''s')", MMDB_COUNT, "ok 2\n") && mmdb_count(&db) == 2 && mmdb_read(&db, 0, cells, 6) == 0);
  MUST(answers(&db, "SCAN t", MMDB_ROWS, "(1, 5, 'a')\n(2, -7, 'it''s')\nrows 2\n") && mmdb_count(&db) == 2);
  MUST(mmdb_read(&db, 0, cells, 6) == 2 && is_number(&cells[0], 1) && is_number(&cells[4], -7) && is_words(&cells[5], "it's", 4));
  MUST(answers(&db, "EXPLAIN SELECT a.k FROM t a", MMDB_TEXT, "a scan\nsteps 1\n") && mmdb_count(&db) == 0 && mmdb_read(&db, 0, cells, 6) == 0);
  MUST(answers(&db, "TABLES", MMDB_TEXT, "TABLE t (id INT KEY, k INT, s TEXT) rows 2\ntables 1\n") && mmdb_count(&db) == 0);
  MUST(answers(&db, "SCAN u", MMDB_NO_SUCH_TABLE, "error 20 no such table\n") && mmdb_count(&db) == 0 && mmdb_read(&db, 0, cells, 6) == 0);
  MUST(answers(&db, "", MMDB_NOTHING, "") && mmdb_count(&db) == 0);
  MUST(answers(&db, " \t", MMDB_NOTHING, "") && answers(&db, "-- a comment, with ? and '", MMDB_NOTHING, ""));
  MUST(answers(&db, "SELECT a.k FROM t a WHERE a.k > 5", MMDB_ROWS, "rows 0\n") && mmdb_count(&db) == 0 && mmdb_read(&db, 0, cells, 6) == 0);
  MUST(answers(&db, "DELETE t WHERE k > 5", MMDB_COUNT, "ok 0\n") && mmdb_count(&db) == 0);
  mmdb_close(&db);
}

/* A line for each refusal that a line can have over the rows of each_refusal, in the order of execution. */
static const struct { uint8_t number; const char *line, *text; } refusals[] = {
  {MMDB_SYNTAX, "SCAN t;", "error 11 syntax\n"},
  {MMDB_SYNTAX, "SCAN t\r", "error 11 syntax\n"},
  {MMDB_SYNTAX, "SCAN t\n", "error 11 syntax\n"},
  {MMDB_SYNTAX, "DELETE t WHERE s = 'a\nb'", "error 11 syntax\n"},
  {MMDB_SYNTAX, "DELETE t WHERE id = ?", "error 11 syntax\n"},
  {MMDB_NUMBER_OUT_OF_RANGE, "INSERT t (9223372036854775808, 5, 'b')", "error 12 number out of range\n"},
  {MMDB_TEXT_TOO_LONG, "DELETE t WHERE s = '12345678901234567890123456789012345678901234567890123456789012345'", "error 13 text too long\n"},
  {MMDB_NO_SUCH_TABLE, "SCAN nope", "error 20 no such table\n"},
  {MMDB_NO_SUCH_COLUMN, "INDEX j ON t (j) TREE", "error 21 no such column\n"},
  {MMDB_NO_SUCH_INDEX, "SCAN INDEX j", "error 22 no such index\n"},
  {MMDB_NO_SUCH_STANDING_QUERY, "SHOW v", "error 23 no such standing query\n"},
  {MMDB_NAME_TAKEN, "TABLE t (id INT KEY)", "error 24 name taken\n"},
  {MMDB_ALIAS_TAKEN, "SELECT a.k FROM t a, t a", "error 25 alias taken\n"},
  {MMDB_NO_SUCH_ALIAS, "SELECT b.k FROM t a", "error 26 no such alias\n"},
  {MMDB_TYPE_MISMATCH, "INSERT t (3, 'x', 'b')", "error 30 type mismatch\n"},
  {MMDB_WRONG_NUMBER_OF_VALUES, "INSERT t (3, 5)", "error 31 wrong number of values\n"},
  {MMDB_ARITHMETIC_OUT_OF_RANGE, "UPDATE t SET k = k + 9223372036854775807", "error 32 arithmetic out of range\n"},
  {MMDB_DUPLICATE_KEY, "INSERT t (1, 7, 'b')", "error 40 duplicate key\n"},
  {MMDB_NO_TARGET_ROW, "INSERT u (2, 7)", "error 41 no target row\n"},
  {MMDB_ROW_IS_REFERENCED, "DELETE t", "error 42 row is referenced\n"},
  {MMDB_IN_USE, "DROP TABLE t", "error 43 in use\n"},
  {MMDB_RESULT_TOO_LARGE, "SELECT a.id FROM many a, many b", "error 46 result too large\n"},
  {MMDB_STANDING_LIST_TOO_LARGE, "WATCH v SELECT a.id FROM many a, many b", "error 47 standing list too large\n"},
  {MMDB_TOO_MANY, "SELECT a.k FROM t a, t b, t c, t d, t e", "error 48 too many\n"},
  {MMDB_NO_TRANSACTION, "COMMIT", "error 51 no transaction\n"},
  {MMDB_TRANSACTION_OPEN, "BEGIN", "error 50 transaction open\n"},
  {MMDB_NOT_IN_TRANSACTION, "DROP TABLE u", "error 52 not in a transaction\n"},
  {MMDB_NO_SUCH_SAVEPOINT, "ROLLBACK TO s", "error 53 no such savepoint\n"},
};

static void each_refusal(void) {
  mmdb db = opened_with_rows();
  MUST(is_done(&db, "TABLE u (id INT KEY, r INT REF t)") && is_done(&db, "TABLE many (id INT KEY)"));
  MUST(answers(&db, "INSERT u (1, 1)", MMDB_COUNT, "ok 1\n"));
  size_t fill = prepared(&db, "INSERT many (?)");
  for (int64_t i = 0; i < 1025; i++) {
    mmdb_cell value = number(i);
    MUST(mmdb_run(&db, fill, &value, 1) == MMDB_COUNT);
  }
  for (size_t i = 0; i < sizeof refusals / sizeof *refusals; i++) {
    if (refusals[i].number == MMDB_TRANSACTION_OPEN) MUST(is_done(&db, "BEGIN"));
    struct picture before = picture_of(&db);
    check(answers(&db, refusals[i].line, refusals[i].number, refusals[i].text), refusals[i].line, __LINE__);
    check(is_as_before(&db, &before), refusals[i].line, __LINE__);
    size_t statement;
    if (refusals[i].number >= MMDB_NO_SUCH_TABLE) {
      check(runs(&db, prepared(&db, refusals[i].line), no_values, 0, refusals[i].number, refusals[i].text), refusals[i].line, __LINE__);
      check(is_as_before(&db, &before), refusals[i].line, __LINE__);
    } else if (!strchr(refusals[i].line, '?')) {
      check(prepare(&db, refusals[i].line, &statement) == refusals[i].number, refusals[i].line, __LINE__);
      check(stays(&db, &before), refusals[i].line, __LINE__);
    }
  }
  mmdb_close(&db);
}

static void lines_of_the_greatest_length(void) {
  static uint8_t line[LONGEST_LINE + 1];
  mmdb db = opened_with_rows();
  size_t statement = SIZE_MAX;
  memset(line, ' ', sizeof line);
  memcpy(line, "SCAN t", 6);
  MUST(mmdb_execute(&db, line, LONGEST_LINE) == MMDB_ROWS && mmdb_count(&db) == 2);
  MUST(mmdb_execute(&db, line, LONGEST_LINE + 1) == MMDB_LINE_TOO_LONG && last_reply_is(&db, "error 10 line too long\n"));
  MUST(mmdb_prepare(&db, line, LONGEST_LINE + 1, &statement) == MMDB_LINE_TOO_LONG && statement == SIZE_MAX);
  MUST(mmdb_prepare(&db, line, LONGEST_LINE, &statement) == MMDB_DONE && statement == 0);
  MUST(mmdb_run(&db, statement, no_values, 0) == MMDB_ROWS && mmdb_count(&db) == 2);
  mmdb_close(&db);
}

/* A reply's text in buffers of every size: the text is cut at the buffer's end, and the length is the full one. */
static void a_reply_as_text(void) {
  mmdb db = opened_with_rows();
  const char *wanted = "(1, 5, 'a')\n(2, -7, 'it''s')\nrows 2\n";
  size_t length = strlen(wanted);
  execute(&db, "SCAN t");
  for (size_t room = 0; room <= length + 2; room++) {
    uint8_t text[64];
    memset(text, '#', sizeof text);
    size_t written = room < length ? room : length;
    MUST(text_of_reply(&db, text, room) == length && !memcmp(text, wanted, written) && text[written] == '#');
  }
  mmdb_close(&db);
}

/* Rows in buffers of every size, from every row on: as many whole rows as fit. */
static void rows_in_pieces(void) {
  mmdb db = opened();
  enum { ROWS = 10, COLUMNS = 3, CELLS = ROWS * COLUMNS };
  MUST(is_done(&db, "TABLE t (id INT KEY, k INT, s TEXT)"));
  size_t insert = prepared(&db, "INSERT t (?, ?, 'x')");
  for (int64_t i = 0; i < ROWS; i++) {
    mmdb_cell values[] = {number(i), number(i * i)};
    MUST(runs(&db, insert, values, 2, MMDB_COUNT, "ok 1\n"));
  }
  MUST(execute(&db, "SCAN t") == MMDB_ROWS);
  for (size_t first = 0; first <= ROWS + 1; first++)
    for (size_t room = 0; room <= CELLS + COLUMNS; room++) {
      mmdb_cell cells[CELLS + COLUMNS + 1];
      for (size_t i = 0; i < CELLS + COLUMNS + 1; i++) cells[i] = number(-1);
      size_t left = first < ROWS ? ROWS - first : 0, wanted = room / COLUMNS < left ? room / COLUMNS : left;
      MUST(mmdb_read(&db, first, cells, room) == wanted);
      for (size_t row = 0; row < wanted; row++) {
        int64_t id = (int64_t)(first + row);
        const mmdb_cell *cell = &cells[row * COLUMNS];
        MUST(is_number(&cell[0], id) && is_number(&cell[1], id * id) && is_words(&cell[2], "x", 1));
      }
      MUST(is_number(&cells[wanted * COLUMNS], -1));
    }
  mmdb_cell cell;
  MUST(mmdb_read(&db, SIZE_MAX, &cell, 1) == 0 && mmdb_read(&db, ROWS, &cell, 1) == 0 && mmdb_count(&db) == ROWS);
  mmdb_close(&db);
}

/* Columns of lines, and places of refusals in lines. */

static bool is_column(const mmdb_column *column, uint8_t type, const char *name) {
  static const uint8_t none[MMDB_NAME_BYTES];
  size_t length = strlen(name);
  bool is_named = column->len == length && !memcmp(column->name, name, length);
  return is_named && column->type == type && !memcmp(column->name + length, none, MMDB_NAME_BYTES - length);
}

/* Lines that can be read, and the columns of the rows that they return: type and name. */
static const struct { const char *line, *columns; } lines_with_columns[] = {
  {"SCAN t", "0 id 0 k 1 s "},
  {"SCAN INDEX i", "0 id 0 k 1 s "},
  {"SELECT b.s, a.k, b.s FROM t a, t b WHERE a.id = b.k ORDER 2", "1 s 0 k 1 s "},
  {"SELECT DISTINCT a.k FROM t a WHERE a.s = ? AND a.id < a.k + ?", "0 k "},
  {"SHOW w", "1 s 0 id "},
  {"SCAN nope", ""},
  {"SCAN INDEX nope", ""},
  {"SHOW nope", ""},
  {"SELECT a.nope, b.k, a.k FROM t a", "0 k "},
  {"EXPLAIN SELECT a.k FROM t a", ""},
  {"WATCH v SELECT a.k FROM t a", ""},
  {"INSERT t (?, ?, ?)", ""},
  {"TABLES", ""},
  {"", ""},
  {"-- SCAN t", ""},
};

static void columns_of_lines(void) {
  enum { ROOM_FOR_COLUMNS = 8 };
  mmdb db = opened_with_rows();
  MUST(is_done(&db, "INDEX i ON t (k) TREE") && is_done(&db, "WATCH w SELECT a.s, a.id FROM t a"));
  struct picture before = picture_of(&db);
  for (size_t i = 0; i < sizeof lines_with_columns / sizeof *lines_with_columns; i++) {
    mmdb_column columns[ROOM_FOR_COLUMNS];
    char told[200] = "";
    size_t count = SIZE_MAX, length = 0;
    check(columns_of(&db, lines_with_columns[i].line, columns, ROOM_FOR_COLUMNS, &count) == MMDB_DONE, lines_with_columns[i].line, __LINE__);
    for (size_t j = 0; j < count && j < ROOM_FOR_COLUMNS; j++)
      length += (size_t)sprintf(told + length, "%u %.*s ", columns[j].type, columns[j].len, (const char *)columns[j].name);
    check(!strcmp(told, lines_with_columns[i].columns) && stays(&db, &before), lines_with_columns[i].line, __LINE__);
  }
  mmdb_close(&db);
}

/* Only as many columns are written as fit, and none for a line that cannot be read. */
static void columns_in_their_room(void) {
  static uint8_t line[LONGEST_LINE + 1];
  mmdb db = opened_with_rows();
  struct picture before = picture_of(&db);
  size_t count;
  for (size_t room = 0; room <= 4; room++) {
    mmdb_column columns[5];
    memset(columns, '#', sizeof columns);
    size_t written = room < 3 ? room : 3;
    MUST(columns_of(&db, "SCAN t", columns, room, &count) == MMDB_DONE && count == 3 && columns[written].type == '#' && columns[written].name[0] == '#');
    MUST((written < 1 || is_column(&columns[0], MMDB_NUMBER, "id")) && (written < 3 || is_column(&columns[2], MMDB_STRING, "s")));
  }
  mmdb_column column = {.type = 77};
  count = 77;
  MUST(columns_of(&db, "SCAN", &column, 1, &count) == MMDB_SYNTAX && columns_of(&db, "TABLE v (? INT KEY)", &column, 1, &count) == MMDB_SYNTAX);
  MUST(columns_of(&db, "INSERT t (?, 9223372036854775808, 'a')", &column, 1, &count) == MMDB_NUMBER_OUT_OF_RANGE);
  MUST(mmdb_columns(&db, line, LONGEST_LINE + 1, &column, 1, &count) == MMDB_LINE_TOO_LONG && count == 77 && column.type == 77 && stays(&db, &before));
  mmdb_close(&db);
}

/* The columns are those of the current catalog. */
static void columns_of_the_catalog(void) {
  mmdb db = opened();
  mmdb_column columns[2];
  size_t count = 77;
  for (int i = 0; i < 2; i++) {
    MUST(columns_of(&db, "SCAN t", columns, 2, &count) == MMDB_DONE && count == 0);
    MUST(is_done(&db, "TABLE t (a234567890123456789012345678_012 TEXT KEY, k INT)"));
    MUST(columns_of(&db, "SCAN t", columns, 2, &count) == MMDB_DONE && count == 2);
    MUST(is_column(&columns[0], MMDB_STRING, "a234567890123456789012345678_012") && is_column(&columns[1], MMDB_NUMBER, "k"));
    MUST(is_done(&db, "DROP TABLE t") && is_done(&db, "TABLE t (s INT KEY)"));
    MUST(columns_of(&db, "SCAN t", columns, 2, &count) == MMDB_DONE && count == 1 && is_column(&columns[0], MMDB_NUMBER, "s"));
    MUST(is_done(&db, "DROP TABLE t"));
  }
  mmdb_close(&db);
}

/* The columns of a statement are those of its line, also after the catalog has changed. */
static void columns_of_statements(void) {
  enum { COUNT = sizeof lines_with_columns / sizeof *lines_with_columns };
  mmdb db = opened_with_rows();
  size_t statements[COUNT];
  for (size_t i = 0; i < COUNT; i++) statements[i] = prepared(&db, lines_with_columns[i].line);
  for (int round = 0; round < 2; round++) {
    for (size_t i = 0; i < COUNT; i++) {
      mmdb_column columns[8], wanted[8];
      memset(columns, '#', sizeof columns), memset(wanted, '#', sizeof wanted);
      size_t count = SIZE_MAX, wanted_count = SIZE_MAX - 1;
      struct picture before = picture_of(&db);
      check(mmdb_statement_columns(&db, statements[i], columns, 8, &count) == MMDB_DONE, lines_with_columns[i].line, __LINE__);
      check(columns_of(&db, lines_with_columns[i].line, wanted, 8, &wanted_count) == MMDB_DONE, lines_with_columns[i].line, __LINE__);
      check(count == wanted_count && !memcmp(columns, wanted, sizeof columns) && stays(&db, &before), lines_with_columns[i].line, __LINE__);
    }
    if (round == 0) MUST(is_done(&db, "INDEX i ON t (k) TREE") && is_done(&db, "WATCH w SELECT a.s, a.id FROM t a"));
  }
  mmdb_column columns[5];
  size_t count;
  for (size_t room = 0; room <= 4; room++) {
    memset(columns, '#', sizeof columns);
    size_t written = room < 3 ? room : 3;
    MUST(mmdb_statement_columns(&db, statements[0], columns, room, &count) == MMDB_DONE && count == 3);
    MUST(columns[written].type == '#' && columns[written].name[0] == '#' && (written < 1 || is_column(&columns[0], MMDB_NUMBER, "id")));
  }
  columns[0].type = 77, count = 77;
  MUST(mmdb_finalize(&db, statements[0]) == MMDB_DONE);
  struct picture before = picture_of(&db);
  MUST(mmdb_statement_columns(&db, statements[0], columns, 5, &count) == MMDB_MISUSE && count == 77 && columns[0].type == 77);
  MUST(mmdb_statement_columns(&db, COUNT, columns, 5, &count) == MMDB_MISUSE && count == 77 && columns[0].type == 77);
  MUST(mmdb_statement_columns(&db, SIZE_MAX, columns, 5, &count) == MMDB_MISUSE && count == 77 && columns[0].type == 77);
  MUST(stays(&db, &before));
  mmdb_close(&db);
}

/* Refused lines, and the place of the refusal in each. */
static const struct { uint8_t status; const char *line; size_t place; } lines_with_places[] = {
  {MMDB_SYNTAX, "SCAN", 4},
  {MMDB_SYNTAX, "SCAN t u", 7},
  {MMDB_SYNTAX, "  insert t (1)", 2},
  {MMDB_SYNTAX, "INSERT t (1, )", 13},
  {MMDB_SYNTAX, "DELETE t WHERE id = ? AND", 25},
  {MMDB_NUMBER_OUT_OF_RANGE, "INSERT t (3, 9223372036854775808, 'b')", 13},
  {MMDB_TEXT_TOO_LONG, "DELETE t WHERE s = '12345678901234567890123456789012345678901234567890123456789012345'", 19},
  {MMDB_NO_SUCH_TABLE, "SCAN nope", 5},
  {MMDB_NO_SUCH_COLUMN, "SELECT a.nope FROM t a", 9},
  {MMDB_NO_SUCH_SAVEPOINT, "ROLLBACK TO s_1", 12},
  {MMDB_DUPLICATE_KEY, "INSERT t (1, 7, 'b')", 0},
};

static void places_in_lines(void) {
  mmdb db = opened_with_rows();
  MUST(is_done(&db, "BEGIN"));
  for (size_t i = 0; i < sizeof lines_with_places / sizeof *lines_with_places; i++) {
    const char *line = lines_with_places[i].line;
    uint8_t status = lines_with_places[i].status;
    check(execute(&db, line) == status && place_in(&db, line, status) == lines_with_places[i].place, line, __LINE__);
    for (unsigned other = 0; other < 256; other++) {
      bool is_refusal = other >= MMDB_LINE_TOO_LONG && other <= MMDB_MEMORY;
      check(place_in(&db, line, (uint8_t)other) <= (is_refusal ? strlen(line) : 0), line, __LINE__);
    }
    char told[80];
    snprintf(told, sizeof told, "error %u ", status);
    uint8_t text[80];
    check(text_of_reply(&db, text, sizeof text) < sizeof text && !memcmp(text, told, strlen(told)), line, __LINE__);
  }
  mmdb_close(&db);
}

/* Statements. */

static void numbers_of_statements(void) {
  enum { COUNT = 1000 };
  mmdb db = opened_with_rows();
  size_t statement, count;
  for (size_t i = 0; i < COUNT; i++) MUST(prepared(&db, i % 2 ? "SELECT a.s FROM t a WHERE a.id = ?" : "SCAN t") == i);
  for (size_t i = 0; i < COUNT; i += 3) MUST(mmdb_finalize(&db, i) == MMDB_DONE);
  for (size_t i = 0; i < COUNT; i++) {
    bool is_there = i % 3 != 0;
    count = SIZE_MAX;
    MUST(mmdb_parameters(&db, i, &count) == (is_there ? MMDB_DONE : MMDB_MISUSE) && count == (is_there ? i % 2 : SIZE_MAX));
    if (!is_there) MUST(mmdb_finalize(&db, i) == MMDB_MISUSE && mmdb_run(&db, i, no_values, 0) == MMDB_MISUSE);
  }
  for (size_t i = 0; i < COUNT; i += 3) MUST(prepared(&db, "INSERT t (?, ?, ?)") == i);
  MUST(prepared(&db, "SCAN t") == COUNT);
  MUST(mmdb_parameters(&db, 999, &count) == MMDB_DONE && count == 3);
  MUST(mmdb_parameters(&db, COUNT + 1, &count) == MMDB_MISUSE && mmdb_parameters(&db, SIZE_MAX, &count) == MMDB_MISUSE);
  MUST(prepare(&db, "SCAN", &statement) == MMDB_SYNTAX && prepared(&db, "SCAN t") == COUNT + 1);
  mmdb_close(&db);
}

/* The number of a deleted statement is reused for the next one. */
static void a_number_used_again(void) {
  mmdb db = opened_with_rows();
  mmdb_cell one = number(1);
  size_t statement = prepared(&db, "DELETE t WHERE id = ?"), other = prepared(&db, "SCAN t");
  MUST(mmdb_finalize(&db, statement) == MMDB_DONE);
  struct picture before = picture_of(&db);
  MUST(mmdb_run(&db, statement, &one, 1) == MMDB_MISUSE && stays(&db, &before));
  MUST(mmdb_finalize(&db, statement) == MMDB_MISUSE && stays(&db, &before));
  MUST(prepared(&db, "SELECT a.s FROM t a WHERE a.id = ?") == statement && stays(&db, &before));
  MUST(runs(&db, statement, &one, 1, MMDB_ROWS, "('a')\nrows 1\n"));
  MUST(runs(&db, other, no_values, 0, MMDB_ROWS, "(1, 5, 'a')\n(2, -7, 'it''s')\nrows 2\n"));
  mmdb_close(&db);
}

/* Lines, the status of preparing them, and their number of holes. */
static const struct { const char *line; uint8_t status; size_t count; } lines_to_prepare[] = {
  {"INSERT t (?, 1, ?), (?, ?, 'x?')", MMDB_DONE, 4},
  {"UPDATE t SET k = ?, s = ? WHERE id >= ? AND k < id + ?", MMDB_DONE, 4},
  {"DELETE t WHERE k > id-? AND s = '?'", MMDB_DONE, 1},
  {"SELECT a.k FROM t a, t b WHERE a.k = ? AND a.id < b.id - ? ORDER 1", MMDB_DONE, 2},
  {"EXPLAIN SELECT a.k FROM t a WHERE a.k = ?", MMDB_DONE, 1},
  {"SELECT a.k FROM nope a WHERE a.k = ?", MMDB_DONE, 1},
  {"", MMDB_DONE, 0},
  {"-- is this a hole?", MMDB_DONE, 0},
  {"BEGIN", MMDB_DONE, 0},
  {"TABLE v (id INT KEY)", MMDB_DONE, 0},
  {"WATCH v SELECT a.k FROM t a WHERE a.k = ?", MMDB_SYNTAX, 0},
  {"TABLE v (? INT KEY)", MMDB_SYNTAX, 0},
  {"INDEX ? ON t (k) TREE", MMDB_SYNTAX, 0},
  {"DROP TABLE ?", MMDB_SYNTAX, 0},
  {"UNWATCH ?", MMDB_SYNTAX, 0},
  {"SCAN ?", MMDB_SYNTAX, 0},
  {"SHOW ?", MMDB_SYNTAX, 0},
  {"SAVEPOINT ?", MMDB_SYNTAX, 0},
  {"SELECT a.k FROM t a ORDER ?", MMDB_SYNTAX, 0},
  {"SELECT a.k FROM t a WHERE ? = a.k", MMDB_SYNTAX, 0},
  {"INSERT t (-?, 1, 'a')", MMDB_SYNTAX, 0},
  {"INSERT ? (1, 1, 'a')", MMDB_SYNTAX, 0},
  {"?", MMDB_SYNTAX, 0},
  {"INSERT t (?, 9223372036854775808, 'a')", MMDB_NUMBER_OUT_OF_RANGE, 0},
  {"INSERT t (?, 1, '12345678901234567890123456789012345678901234567890123456789012345')", MMDB_TEXT_TOO_LONG, 0},
};

static void lines_that_can_be_prepared(void) {
  mmdb db = opened_with_rows();
  struct picture before = picture_of(&db);
  for (size_t i = 0; i < sizeof lines_to_prepare / sizeof *lines_to_prepare; i++) {
    size_t statement = 77, count = 77;
    uint8_t status = prepare(&db, lines_to_prepare[i].line, &statement);
    check(status == lines_to_prepare[i].status && (status == MMDB_DONE) == (statement == 0), lines_to_prepare[i].line, __LINE__);
    check(stays(&db, &before), lines_to_prepare[i].line, __LINE__);
    if (status != MMDB_DONE) continue;
    check(mmdb_parameters(&db, statement, &count) == MMDB_DONE && count == lines_to_prepare[i].count, lines_to_prepare[i].line, __LINE__);
    check(mmdb_finalize(&db, statement) == MMDB_DONE && stays(&db, &before), lines_to_prepare[i].line, __LINE__);
  }
  size_t nothing = prepared(&db, "-- a comment");
  MUST(runs(&db, nothing, no_values, 0, MMDB_NOTHING, ""));
  mmdb_close(&db);
}

/* A line of each kind. */
static const struct { const char *line; uint8_t kind; } lines_with_kinds[] = {
  {"", MMDB_KIND_NOTHING},
  {"-- SCAN t", MMDB_KIND_NOTHING},
  {"TABLE v (id INT KEY)", MMDB_KIND_TABLE},
  {"DROP TABLE v", MMDB_KIND_DROP_TABLE},
  {"INDEX i ON t (k) TREE", MMDB_KIND_INDEX},
  {"DROP INDEX i", MMDB_KIND_DROP_INDEX},
  {"WATCH w SELECT a.k FROM t a", MMDB_KIND_WATCH},
  {"UNWATCH w", MMDB_KIND_UNWATCH},
  {"INSERT t (?, 1, 'a')", MMDB_KIND_INSERT},
  {"UPDATE t SET k = ?", MMDB_KIND_UPDATE},
  {"DELETE t", MMDB_KIND_DELETE},
  {"SCAN t", MMDB_KIND_SCAN},
  {"SCAN INDEX i", MMDB_KIND_SCAN_INDEX},
  {"SELECT a.k FROM t a WHERE a.k = ?", MMDB_KIND_SELECT},
  {"SHOW w", MMDB_KIND_SHOW},
  {"EXPLAIN SELECT a.k FROM t a", MMDB_KIND_EXPLAIN},
  {"TABLES", MMDB_KIND_TABLES},
  {"BEGIN", MMDB_KIND_BEGIN},
  {"COMMIT", MMDB_KIND_COMMIT},
  {"ROLLBACK", MMDB_KIND_ROLLBACK},
  {"SAVEPOINT s", MMDB_KIND_SAVEPOINT},
  {"ROLLBACK TO s", MMDB_KIND_ROLLBACK_TO},
};

static void kinds_of_statements(void) {
  enum { COUNT = sizeof lines_with_kinds / sizeof *lines_with_kinds };
  mmdb db = opened_with_rows();
  size_t statements[COUNT];
  struct picture before = picture_of(&db);
  for (size_t i = 0; i < COUNT; i++) {
    uint8_t kind = 77;
    statements[i] = prepared(&db, lines_with_kinds[i].line);
    MUST(mmdb_statement_kind(&db, statements[i], &kind) == MMDB_DONE);
    check(kind == lines_with_kinds[i].kind, lines_with_kinds[i].line, __LINE__);
  }
  MUST(stays(&db, &before));
  uint8_t kind = 77;
  MUST(mmdb_finalize(&db, statements[2]) == MMDB_DONE);
  MUST(mmdb_statement_kind(&db, statements[2], &kind) == MMDB_MISUSE && mmdb_statement_kind(&db, COUNT, &kind) == MMDB_MISUSE);
  MUST(mmdb_statement_kind(&db, SIZE_MAX, &kind) == MMDB_MISUSE && kind == 77);
  MUST(prepared(&db, "BEGIN") == statements[2] && mmdb_statement_kind(&db, statements[2], &kind) == MMDB_DONE && kind == MMDB_KIND_BEGIN);
  mmdb_close(&db);
}

/* Explains a statement, and returns whether it has this status and this reply. */
static bool explains(mmdb *db, size_t statement, const mmdb_cell *values, size_t count, uint8_t status, const char *text) {
  return mmdb_explain(db, statement, values, count) == status && last_reply_is(db, text);
}

static void explained_statements(void) {
  mmdb db = opened_with_rows();
  MUST(is_done(&db, "INDEX i ON t (k) TREE"));
  size_t select = prepared(&db, "SELECT a.s FROM t a WHERE a.k = ?"), explain = prepared(&db, "EXPLAIN SELECT a.s FROM t a WHERE a.id = ?");
  size_t plain = prepared(&db, "SELECT a.id FROM t a, t b WHERE a.id = b.k - ?"), nowhere = prepared(&db, "SELECT a.k FROM nope a");
  size_t without = prepared(&db, "EXPLAIN SELECT a.k FROM t a");
  mmdb_cell five = number(5), text = words("x"), least = number(INT64_MIN);
  uint64_t changes = mmdb_total_changes(&db);
  for (int i = 0; i < 2; i++) {
    MUST(explains(&db, select, &five, 1, MMDB_TEXT, "a tree i =\nsteps 1\n"));
    MUST(runs(&db, select, &five, 1, MMDB_ROWS, "('a')\nrows 1\n"));
    MUST(explains(&db, explain, &five, 1, MMDB_TEXT, "a tree #key =\nsteps 1\n"));
    MUST(explains(&db, without, no_values, 0, MMDB_TEXT, "a scan\nsteps 1\n"));
    MUST(explains(&db, select, &text, 1, MMDB_TYPE_MISMATCH, "error 30 type mismatch\n"));
    MUST(explains(&db, plain, &least, 1, MMDB_NUMBER_OUT_OF_RANGE, "error 12 number out of range\n"));
    MUST(explains(&db, plain, &text, 1, MMDB_SYNTAX, "error 11 syntax\n"));
    MUST(explains(&db, nowhere, no_values, 0, MMDB_NO_SUCH_TABLE, "error 20 no such table\n"));
    MUST(mmdb_explain(&db, plain, &five, 1) == MMDB_TEXT);
  }
  MUST(is_done(&db, "DROP INDEX i") && explains(&db, select, &five, 1, MMDB_TEXT, "a scan\nsteps 1\n"));
  MUST(mmdb_total_changes(&db) == changes);
  mmdb_close(&db);
}

/* The plan of a statement is the reply to EXPLAIN with the same query. */
static void explained_as_their_lines(void) {
  static const char *const queries[] = {
    "SELECT a.k FROM t a",
    "SELECT DISTINCT a.k, b.s FROM t a, t b WHERE a.id = b.k AND a.s < 'm' ORDER 1",
    "SELECT a.k FROM t a WHERE a.k > -3",
    "SELECT a.k FROM t a, u b WHERE a.k = b.id",
    "SELECT a.nope FROM t a",
    "SELECT a.k FROM t a, t a",
  };
  mmdb db = opened_with_rows();
  for (size_t i = 0; i < sizeof queries / sizeof *queries; i++) {
    char line[200], wanted[ROOM];
    snprintf(line, sizeof line, "EXPLAIN %s", queries[i]);
    uint8_t status = execute(&db, line);
    size_t length = text_of_reply(&db, (uint8_t *)wanted, ROOM - 1);
    wanted[length] = 0;
    check(explains(&db, prepared(&db, queries[i]), no_values, 0, status, wanted), queries[i], __LINE__);
    check(explains(&db, prepared(&db, line), no_values, 0, status, wanted), line, __LINE__);
  }
  mmdb_close(&db);
}

/* Whether mmdb_explain with these values is a misuse and changes nothing. */
static bool is_unexplained(mmdb *db, size_t statement, const mmdb_cell *values, size_t count, const struct picture *before) {
  return mmdb_explain(db, statement, values, count) == MMDB_MISUSE && stays(db, before);
}

static void misused_explains(void) {
  mmdb db = opened_with_rows();
  size_t select = prepared(&db, "SELECT a.s FROM t a WHERE a.k = ? AND a.s = ?"), gone = prepared(&db, "SELECT a.s FROM t a");
  MUST(mmdb_finalize(&db, gone) == MMDB_DONE);
  mmdb_cell values[] = {number(5), words("a"), number(1)};
  struct picture before = picture_of(&db);
  for (size_t i = 0; i < sizeof lines_with_kinds / sizeof *lines_with_kinds; i++) {
    size_t statement = prepared(&db, lines_with_kinds[i].line), count;
    bool has_plan = lines_with_kinds[i].kind == MMDB_KIND_SELECT || lines_with_kinds[i].kind == MMDB_KIND_EXPLAIN;
    MUST(mmdb_parameters(&db, statement, &count) == MMDB_DONE);
    check(has_plan || is_unexplained(&db, statement, values, count, &before), lines_with_kinds[i].line, __LINE__);
    MUST(mmdb_finalize(&db, statement) == MMDB_DONE);
  }
  MUST(is_unexplained(&db, gone, values, 0, &before) && is_unexplained(&db, SIZE_MAX, values, 0, &before));
  MUST(is_unexplained(&db, select, values, 0, &before) && is_unexplained(&db, select, values, 1, &before));
  MUST(is_unexplained(&db, select, values, 3, &before));
  values[1].kind = 2;
  MUST(is_unexplained(&db, select, values, 2, &before));
  values[1] = words("a\n");
  MUST(is_unexplained(&db, select, values, 2, &before));
  values[1] = words("a"), values[1].len = MMDB_TEXT_BYTES + 1;
  MUST(is_unexplained(&db, select, values, 2, &before));
  values[1] = words("a");
  MUST(mmdb_explain(&db, select, values, 2) == MMDB_TEXT);
  mmdb_close(&db);
}

/* Each reply "ok N" adds N to the sum. Refusals, queries, rollbacks and plans do not change it. */
static void counted_changes(void) {
  mmdb db = opened();
  size_t done;
  MUST(mmdb_total_changes(&db) == 0 && is_done(&db, "TABLE t (id INT KEY, k INT)") && mmdb_total_changes(&db) == 0);
  size_t insert = prepared(&db, "INSERT t (?, ?)"), change = prepared(&db, "UPDATE t SET k = ?");
  mmdb_cell rows[] = {number(1), number(10), number(2), number(20), number(1), number(30)};
  MUST(mmdb_run_many(&db, insert, rows, 6, 2, &done) == MMDB_DUPLICATE_KEY && done == 2 && mmdb_total_changes(&db) == 2);
  MUST(runs(&db, change, rows, 1, MMDB_COUNT, "ok 2\n") && mmdb_total_changes(&db) == 4);
  MUST(answers(&db, "INSERT t (3, 1), (4, 1), (5, 1)", MMDB_COUNT, "ok 3\n") && mmdb_total_changes(&db) == 7);
  MUST(answers(&db, "DELETE t WHERE k > 100", MMDB_COUNT, "ok 0\n") && mmdb_total_changes(&db) == 7);
  MUST(execute(&db, "SCAN t") == MMDB_ROWS && execute(&db, "INSERT t (3, 1)") == MMDB_DUPLICATE_KEY && execute(&db, "TABLES") == MMDB_TEXT);
  MUST(mmdb_run(&db, insert, rows, 1) == MMDB_MISUSE && execute(&db, "nothing") == MMDB_SYNTAX && execute(&db, "") == MMDB_NOTHING);
  MUST(mmdb_total_changes(&db) == 7 && is_done(&db, "BEGIN") && answers(&db, "DELETE t", MMDB_COUNT, "ok 5\n"));
  MUST(mmdb_total_changes(&db) == 12);
  MUST(is_done(&db, "ROLLBACK") && mmdb_total_changes(&db) == 12 && execute(&db, "SCAN t") == MMDB_ROWS && mmdb_count(&db) == 5);
  mmdb_close(&db);
  MUST(mmdb_total_changes(&db) == 0 && mmdb_open(&db) == MMDB_DONE && mmdb_total_changes(&db) == 0);
  mmdb_close(&db);
}

/* An empty array may be NULL, in each call that takes one. */
static void arrays_that_are_null(void) {
  mmdb db = opened_with_rows();
  size_t statement = 77, count, rows, done;
  MUST(mmdb_execute(&db, NULL, 0) == MMDB_NOTHING && last_reply_is(&db, ""));
  MUST(mmdb_prepare(&db, NULL, 0, &statement) == MMDB_DONE && statement == 0);
  MUST(mmdb_run(&db, statement, NULL, 0) == MMDB_NOTHING);
  MUST(mmdb_columns(&db, NULL, 0, NULL, 0, &count) == MMDB_DONE && count == 0);
  MUST(columns_of(&db, "SCAN t", NULL, 0, &count) == MMDB_DONE && count == 3);
  MUST(mmdb_place(&db, NULL, 0, MMDB_SYNTAX) == 0);
  size_t scan = prepared(&db, "SCAN t"), explain = prepared(&db, "SELECT a.k FROM t a");
  MUST(mmdb_run(&db, scan, NULL, 0) == MMDB_ROWS && mmdb_count(&db) == 2);
  MUST(mmdb_query(&db, scan, NULL, 0, NULL, 0, &rows) == MMDB_ROWS && rows == 0);
  MUST(mmdb_run_many(&db, scan, NULL, 0, 1, &done) == MMDB_DONE && done == 0);
  MUST(mmdb_statement_columns(&db, scan, NULL, 0, &count) == MMDB_DONE && count == 3);
  MUST(mmdb_explain(&db, explain, NULL, 0) == MMDB_TEXT);
  MUST(mmdb_explain(&db, scan, NULL, 0) == MMDB_MISUSE);
  MUST(mmdb_read(&db, 0, NULL, 0) == 0);
  MUST(mmdb_text(&db, NULL, 0, &count) == MMDB_DONE && count == strlen("a scan\nsteps 1\n"));
  MUST(mmdb_words(MMDB_SYNTAX, NULL, 0) == strlen("syntax"));
  MUST(mmdb_release(&db, NULL, 0) == MMDB_SYNTAX);
  MUST(mmdb_definition(&db, MMDB_KIND_TABLE, NULL, 0, NULL, 0, &count) == MMDB_SYNTAX);
  MUST(definition(&db, MMDB_KIND_TABLE, "t", NULL, 0, &count) == MMDB_DONE && count == strlen("TABLE t (id INT KEY, k INT, s TEXT)"));
  MUST(mmdb_load(&db, NULL, 0, &done) == MMDB_DONE && done == 0);
  mmdb_array nothing[] = {{.numbers = NULL}, {.bytes = NULL}, {.offsets = NULL}};
  MUST(append(&db, "t", NULL, 0) == MMDB_COUNT && append(&db, "t", nothing, 3) == MMDB_COUNT && last_reply_is(&db, "ok 0\n"));
  MUST(mmdb_append(&db, NULL, 0, NULL, 0) == MMDB_SYNTAX && last_reply_is(&db, "error 11 syntax\n"));
  size_t insert = prepared(&db, "INSERT t (?, 1, 'x')");
  MUST(mmdb_run(&db, insert, NULL, 0) == MMDB_MISUSE && mmdb_explain(&db, insert, NULL, 0) == MMDB_MISUSE);
  mmdb_close(&db);
  MUST(mmdb_execute(&db, NULL, 0) == MMDB_MISUSE && mmdb_run(&db, 0, NULL, 0) == MMDB_MISUSE && mmdb_read(&db, 0, NULL, 0) == 0);
}

/* Whether mmdb_run, mmdb_query and mmdb_run_many with these values are misuses and change nothing. */
static bool are_misused(mmdb *db, size_t statement, const mmdb_cell *values, size_t count, const struct picture *before) {
  mmdb_cell cell = number(-1);
  size_t rows = 77, done = 77;
  bool holds = mmdb_run(db, statement, values, count) == MMDB_MISUSE && stays(db, before);
  holds &= mmdb_query(db, statement, values, count, &cell, 1, &rows) == MMDB_MISUSE && rows == 0 && is_number(&cell, -1) && stays(db, before);
  return holds && mmdb_run_many(db, statement, values, count, count, &done) == MMDB_MISUSE && done == 0 && stays(db, before);
}

static void misused_values(void) {
  mmdb db = opened_with_rows();
  size_t insert = prepared(&db, "INSERT t (?, ?, ?)"), scan = prepared(&db, "SCAN t");
  mmdb_cell values[4] = {number(3), number(4), words("b"), number(5)}, good = values[2];
  struct picture before = picture_of(&db);
  MUST(mmdb_run(&db, insert, values, 0) == MMDB_MISUSE && stays(&db, &before));
  MUST(are_misused(&db, insert, values, 1, &before) && are_misused(&db, insert, values, 2, &before) && are_misused(&db, insert, values, 4, &before));
  MUST(are_misused(&db, scan, values, 1, &before));
  MUST(are_misused(&db, scan + 1, values, 3, &before) && are_misused(&db, SIZE_MAX, values, 3, &before));
  values[2].kind = 2;
  MUST(are_misused(&db, insert, values, 3, &before));
  values[2].kind = 255;
  MUST(are_misused(&db, insert, values, 3, &before));
  values[2] = good;
  values[2].len = MMDB_TEXT_BYTES + 1;
  MUST(are_misused(&db, insert, values, 3, &before));
  values[2].len = 255;
  MUST(are_misused(&db, insert, values, 3, &before));
  values[2] = words("b\n");
  MUST(are_misused(&db, insert, values, 3, &before));
  values[2] = words("\nb");
  MUST(are_misused(&db, insert, values, 3, &before));
  values[2] = good;
  MUST(runs(&db, insert, values, 3, MMDB_COUNT, "ok 1\n"));
  mmdb_close(&db);
}

/* Only the first len bytes of a text belong to its value, and no byte of the text of a number does. */
static void bytes_behind_a_value(void) {
  mmdb db = opened_with_rows();
  size_t insert = prepared(&db, "INSERT t (?, ?, ?)");
  mmdb_cell values[3] = {number(3), number(4), words("b\n\n")};
  memset(values[0].text, '\n', MMDB_TEXT_BYTES);
  values[2].len = 1;
  values[2].number = -1;
  MUST(runs(&db, insert, values, 3, MMDB_COUNT, "ok 1\n"));
  MUST(answers(&db, "SELECT a.id, a.k, a.s FROM t a WHERE a.id = 3", MMDB_ROWS, "(3, 4, 'b')\nrows 1\n"));
  mmdb_close(&db);
}

/* Texts with all bytes, of all lengths that are stored in different ways, are read back unchanged. */
static void texts(void) {
  static const size_t lengths[] = {0, 1, 15, 16, 17, 22, 23, 24, 25, 63, 64};
  mmdb db = opened();
  MUST(is_done(&db, "TABLE t (x TEXT KEY, n INT)"));
  size_t insert = prepared(&db, "INSERT t (?, ?)"), find = prepared(&db, "SELECT a.x, a.n FROM t a WHERE a.x = ?");
  for (size_t i = 0; i < sizeof lengths / sizeof *lengths; i++) {
    uint8_t text[MMDB_TEXT_BYTES];
    for (size_t start = 0; start < 256; start += MMDB_TEXT_BYTES) {
      if (!lengths[i] && start) break;
      for (size_t j = 0; j < lengths[i]; j++) text[j] = start + j == '\n' ? 'n' : (uint8_t)(start + j);
      mmdb_cell values[] = {bytes(text, lengths[i]), number((int64_t)start)}, cells[2];
      size_t rows;
      MUST(runs(&db, insert, values, 2, MMDB_COUNT, "ok 1\n"));
      MUST(mmdb_query(&db, find, values, 1, cells, 2, &rows) == MMDB_ROWS && rows == 1);
      MUST(is_words(&cells[0], text, lengths[i]) && is_number(&cells[1], (int64_t)start));
    }
  }
  mmdb_cell quotes = words("''");
  MUST(runs(&db, prepared(&db, "UPDATE t SET x = ? WHERE x = ''"), &quotes, 1, MMDB_COUNT, "ok 1\n"));
  MUST(runs(&db, prepared(&db, "SELECT a.x FROM t a WHERE a.x = ?"), &quotes, 1, MMDB_ROWS, "('''''')\nrows 1\n"));
  mmdb_close(&db);
}

static void numbers(void) {
  static const int64_t samples[] = {0, 1, -1, INT64_MAX, INT64_MIN, INT64_MIN + 1, 1000000007, -42};
  mmdb db = opened();
  MUST(is_done(&db, "TABLE t (n INT KEY)"));
  size_t insert = prepared(&db, "INSERT t (?)"), find = prepared(&db, "SELECT a.n FROM t a WHERE a.n = ?");
  for (size_t i = 0; i < sizeof samples / sizeof *samples; i++) {
    mmdb_cell value = number(samples[i]), cell;
    size_t rows;
    MUST(runs(&db, insert, &value, 1, MMDB_COUNT, "ok 1\n"));
    MUST(mmdb_query(&db, find, &value, 1, &cell, 1, &rows) == MMDB_ROWS && rows == 1 && is_number(&cell, samples[i]));
  }
  mmdb_close(&db);
}

static void values_of_the_wrong_type(void) {
  mmdb db = opened_with_rows();
  static const char *const lines[] = {
    "UPDATE t SET k = ?",
    "UPDATE t SET k = 1 WHERE id = ?",
    "DELETE t WHERE k < ?",
    "SELECT a.s FROM t a WHERE a.k = ?",
    "EXPLAIN SELECT a.s FROM t a WHERE a.k = ?",
  };
  mmdb_cell text = words("x"), one = number(1);
  struct picture before = picture_of(&db);
  for (size_t i = 0; i < sizeof lines / sizeof *lines; i++) {
    size_t statement = prepared(&db, lines[i]);
    check(runs(&db, statement, &text, 1, MMDB_TYPE_MISMATCH, "error 30 type mismatch\n") && is_as_before(&db, &before), lines[i], __LINE__);
    check(i < 3 || mmdb_run(&db, statement, &one, 1) < MMDB_LINE_TOO_LONG, lines[i], __LINE__);
    check(runs(&db, statement, &text, 1, MMDB_TYPE_MISMATCH, "error 30 type mismatch\n") && is_as_before(&db, &before), lines[i], __LINE__);
  }
  size_t insert = prepared(&db, "INSERT t (?, ?, ?)");
  mmdb_cell row[] = {text, one, text}, other[] = {number(3), one, one}, good[] = {number(3), one, text};
  MUST(runs(&db, insert, row, 3, MMDB_TYPE_MISMATCH, "error 30 type mismatch\n") && is_as_before(&db, &before));
  MUST(runs(&db, insert, other, 3, MMDB_TYPE_MISMATCH, "error 30 type mismatch\n") && is_as_before(&db, &before));
  MUST(runs(&db, insert, good, 3, MMDB_COUNT, "ok 1\n"));
  MUST(runs(&db, insert, good, 3, MMDB_DUPLICATE_KEY, "error 40 duplicate key\n"));
  MUST(runs(&db, insert, other, 3, MMDB_TYPE_MISMATCH, "error 30 type mismatch\n"));
  mmdb_close(&db);
}

/* Values in the hole of a shift: the sign of the value counts, a text is an error, and the least number cannot be negated. */
static void shifts(void) {
  mmdb db = opened_with_rows();
  size_t minus = prepared(&db, "UPDATE t SET k = k - ? WHERE id = 1"), plus = prepared(&db, "UPDATE t SET k = k + ? WHERE id = 1");
  size_t find = prepared(&db, "SELECT a.id, b.id FROM t a, t b WHERE a.k = b.k - ?");
  mmdb_cell text = words("1"), least = number(INT64_MIN), five = number(5), minus_five = number(-5), twelve = number(12), minus_twelve = number(-12);
  struct picture before = picture_of(&db);
  for (int i = 0; i < 2; i++) {
    MUST(runs(&db, minus, &text, 1, MMDB_SYNTAX, "error 11 syntax\n") && runs(&db, plus, &text, 1, MMDB_SYNTAX, "error 11 syntax\n"));
    MUST(runs(&db, find, &text, 1, MMDB_SYNTAX, "error 11 syntax\n") && is_as_before(&db, &before));
    MUST(runs(&db, minus, &least, 1, MMDB_NUMBER_OUT_OF_RANGE, "error 12 number out of range\n"));
    MUST(runs(&db, find, &least, 1, MMDB_NUMBER_OUT_OF_RANGE, "error 12 number out of range\n"));
    MUST(is_as_before(&db, &before));
    MUST(runs(&db, minus, &five, 1, MMDB_COUNT, "ok 1\n") && answers(&db, "SELECT a.k FROM t a WHERE a.id = 1", MMDB_ROWS, "(0)\nrows 1\n"));
    MUST(runs(&db, minus, &minus_five, 1, MMDB_COUNT, "ok 1\n") && is_as_before(&db, &before));
    MUST(runs(&db, plus, &minus_five, 1, MMDB_COUNT, "ok 1\n") && answers(&db, "SELECT a.k FROM t a WHERE a.id = 1", MMDB_ROWS, "(0)\nrows 1\n"));
    MUST(runs(&db, plus, &five, 1, MMDB_COUNT, "ok 1\n") && is_as_before(&db, &before));
    MUST(runs(&db, find, &twelve, 1, MMDB_ROWS, "(2, 1)\nrows 1\n") && runs(&db, find, &minus_twelve, 1, MMDB_ROWS, "(1, 2)\nrows 1\n"));
    MUST(runs(&db, plus, &least, 1, MMDB_COUNT, "ok 1\n"));
    MUST(answers(&db, "UPDATE t SET k = 5 WHERE id = 1", MMDB_COUNT, "ok 1\n") && is_as_before(&db, &before));
  }
  mmdb_close(&db);
}

/* A statement does what its line would do in the current catalog, whatever happened to its table and indexes. */
static void changes_of_the_catalog(void) {
  mmdb db = opened();
  size_t insert = prepared(&db, "INSERT t (?, ?)"), find = prepared(&db, "SELECT a.k FROM t a WHERE a.id = ?");
  size_t change = prepared(&db, "UPDATE t SET k = ? WHERE id = ?"), explain = prepared(&db, "EXPLAIN SELECT a.k FROM t a WHERE a.k = ?");
  size_t make = prepared(&db, "TABLE t (id INT KEY, k INT)"), drop = prepared(&db, "DROP TABLE t");
  mmdb_cell one[] = {number(1), number(5)}, text[] = {words("1"), words("five")};
  for (int i = 0; i < 3; i++) {
    MUST(runs(&db, insert, one, 2, MMDB_NO_SUCH_TABLE, "error 20 no such table\n") && runs(&db, find, one, 1, MMDB_NO_SUCH_TABLE, "error 20 no such table\n"));
    MUST(runs(&db, change, one, 2, MMDB_NO_SUCH_TABLE, "error 20 no such table\n"));
    MUST(runs(&db, explain, one, 1, MMDB_NO_SUCH_TABLE, "error 20 no such table\n"));
    MUST(runs(&db, make, no_values, 0, MMDB_DONE, "ok\n") && runs(&db, make, no_values, 0, MMDB_NAME_TAKEN, "error 24 name taken\n"));
    MUST(runs(&db, insert, one, 2, MMDB_COUNT, "ok 1\n") && runs(&db, find, one, 1, MMDB_ROWS, "(5)\nrows 1\n"));
    MUST(runs(&db, insert, text, 2, MMDB_TYPE_MISMATCH, "error 30 type mismatch\n"));
    MUST(runs(&db, find, text, 1, MMDB_TYPE_MISMATCH, "error 30 type mismatch\n"));
    MUST(runs(&db, explain, one, 1, MMDB_TEXT, "a scan\nsteps 1\n"));
    MUST(is_done(&db, "INDEX i ON t (k) TREE") && runs(&db, explain, one, 1, MMDB_TEXT, "a tree i =\nsteps 1\n"));
    MUST(runs(&db, find, one, 1, MMDB_ROWS, "(5)\nrows 1\n") && is_done(&db, "DROP INDEX i") && runs(&db, explain, one, 1, MMDB_TEXT, "a scan\nsteps 1\n"));
    MUST(runs(&db, drop, no_values, 0, MMDB_DONE, "ok\n"));
    MUST(is_done(&db, "TABLE t (k TEXT, id TEXT KEY)"));
    MUST(runs(&db, insert, one, 2, MMDB_TYPE_MISMATCH, "error 30 type mismatch\n") && runs(&db, find, one, 1, MMDB_TYPE_MISMATCH, "error 30 type mismatch\n"));
    MUST(runs(&db, insert, text, 2, MMDB_COUNT, "ok 1\n") && runs(&db, find, &text[1], 1, MMDB_ROWS, "('1')\nrows 1\n"));
    MUST(runs(&db, change, text, 2, MMDB_COUNT, "ok 1\n"));
    MUST(runs(&db, drop, no_values, 0, MMDB_DONE, "ok\n") && is_done(&db, "TABLE t (id INT KEY)"));
    MUST(runs(&db, insert, one, 2, MMDB_WRONG_NUMBER_OF_VALUES, "error 31 wrong number of values\n"));
    MUST(runs(&db, find, one, 1, MMDB_NO_SUCH_COLUMN, "error 21 no such column\n"));
    MUST(runs(&db, change, one, 2, MMDB_NO_SUCH_COLUMN, "error 21 no such column\n") && runs(&db, drop, no_values, 0, MMDB_DONE, "ok\n"));
  }
  mmdb_close(&db);
}

/* A statement still works after creating or dropping another table has moved its own table in the catalog. */
static void other_tables(void) {
  mmdb db = opened();
  MUST(is_done(&db, "TABLE u (x TEXT KEY)") && is_done(&db, "TABLE t (id INT KEY, k INT)"));
  size_t insert = prepared(&db, "INSERT t (?, ?)"), find = prepared(&db, "SELECT a.k FROM t a WHERE a.k = ?");
  mmdb_cell first[] = {number(1), number(5)}, second[] = {number(2), number(5)};
  MUST(runs(&db, insert, first, 2, MMDB_COUNT, "ok 1\n") && runs(&db, find, &first[1], 1, MMDB_ROWS, "(5)\nrows 1\n"));
  MUST(is_done(&db, "INDEX i ON t (k) HASH") && runs(&db, find, &first[1], 1, MMDB_ROWS, "(5)\nrows 1\n"));
  MUST(is_done(&db, "DROP TABLE u") && runs(&db, find, &first[1], 1, MMDB_ROWS, "(5)\nrows 1\n"));
  MUST(runs(&db, insert, second, 2, MMDB_COUNT, "ok 1\n") && runs(&db, find, &first[1], 1, MMDB_ROWS, "(5)\n(5)\nrows 2\n"));
  MUST(is_done(&db, "TABLE v (id INT KEY, r INT REF t)") && runs(&db, find, &first[1], 1, MMDB_ROWS, "(5)\n(5)\nrows 2\n"));
  MUST(is_done(&db, "DROP INDEX i") && runs(&db, find, &first[1], 1, MMDB_ROWS, "(5)\n(5)\nrows 2\n"));
  mmdb_close(&db);
}

static void standing_queries(void) {
  mmdb db = opened_with_rows();
  size_t watch = prepared(&db, "WATCH w SELECT a.s FROM t a WHERE a.k > 0"), show = prepared(&db, "SHOW w"), unwatch = prepared(&db, "UNWATCH w");
  size_t change = prepared(&db, "UPDATE t SET k = ? WHERE id = ?"), drop = prepared(&db, "DROP TABLE t");
  mmdb_cell up[] = {number(7), number(2)}, down[] = {number(-7), number(2)};
  for (int i = 0; i < 3; i++) {
    MUST(runs(&db, change, down, 2, MMDB_COUNT, "ok 1\n") && runs(&db, show, no_values, 0, MMDB_NO_SUCH_STANDING_QUERY, "error 23 no such standing query\n"));
    MUST(runs(&db, watch, no_values, 0, MMDB_DONE, "ok\n") && runs(&db, show, no_values, 0, MMDB_ROWS, "('a')\nrows 1\n"));
    MUST(runs(&db, change, up, 2, MMDB_COUNT, "ok 1\n") && runs(&db, show, no_values, 0, MMDB_ROWS, "('a')\n('it''s')\nrows 2\n"));
    MUST(runs(&db, drop, no_values, 0, MMDB_IN_USE, "error 43 in use\n") && runs(&db, watch, no_values, 0, MMDB_NAME_TAKEN, "error 24 name taken\n"));
    mmdb_cell cells[2];
    size_t rows;
    MUST(mmdb_query(&db, show, no_values, 0, cells, 1, &rows) == MMDB_ROWS && rows == 1 && is_words(&cells[0], "a", 1) && mmdb_count(&db) == 2);
    MUST(mmdb_read(&db, 1, cells, 2) == 1 && is_words(&cells[0], "it's", 4));
    MUST(runs(&db, unwatch, no_values, 0, MMDB_DONE, "ok\n"));
  }
  mmdb_close(&db);
}

static void transactions(void) {
  mmdb db = opened_with_rows();
  size_t begin = prepared(&db, "BEGIN"), commit = prepared(&db, "COMMIT"), roll_back = prepared(&db, "ROLLBACK");
  size_t save = prepared(&db, "SAVEPOINT s"), go_back = prepared(&db, "ROLLBACK TO s"), insert = prepared(&db, "INSERT t (?, 0, '')");
  mmdb_cell three = number(3), four = number(4);
  struct picture before = picture_of(&db);
  MUST(runs(&db, roll_back, no_values, 0, MMDB_NO_TRANSACTION, "error 51 no transaction\n"));
  MUST(runs(&db, save, no_values, 0, MMDB_NO_TRANSACTION, "error 51 no transaction\n"));
  MUST(runs(&db, begin, no_values, 0, MMDB_DONE, "ok\n"));
  MUST(mmdb_in_transaction(&db));
  MUST(runs(&db, begin, no_values, 0, MMDB_TRANSACTION_OPEN, "error 50 transaction open\n"));
  MUST(runs(&db, go_back, no_values, 0, MMDB_NO_SUCH_SAVEPOINT, "error 53 no such savepoint\n") && runs(&db, insert, &three, 1, MMDB_COUNT, "ok 1\n"));
  MUST(runs(&db, insert, &three, 1, MMDB_DUPLICATE_KEY, "error 40 duplicate key\n") && mmdb_in_transaction(&db));
  struct picture with_three = picture_of(&db);
  MUST(runs(&db, save, no_values, 0, MMDB_DONE, "ok\n") && runs(&db, insert, &four, 1, MMDB_COUNT, "ok 1\n") && !is_as_before(&db, &with_three));
  MUST(runs(&db, go_back, no_values, 0, MMDB_DONE, "ok\n") && is_as_before(&db, &with_three));
  MUST(answers(&db, "DROP TABLE t", MMDB_NOT_IN_TRANSACTION, "error 52 not in a transaction\n"));
  MUST(mmdb_run(&db, insert, no_values, 0) == MMDB_MISUSE);
  MUST(mmdb_in_transaction(&db));
  MUST(runs(&db, roll_back, no_values, 0, MMDB_DONE, "ok\n") && !mmdb_in_transaction(&db) && is_as_before(&db, &before));
  MUST(runs(&db, begin, no_values, 0, MMDB_DONE, "ok\n") && runs(&db, insert, &three, 1, MMDB_COUNT, "ok 1\n"));
  MUST(runs(&db, commit, no_values, 0, MMDB_DONE, "ok\n"));
  MUST(!mmdb_in_transaction(&db));
  MUST(runs(&db, commit, no_values, 0, MMDB_NO_TRANSACTION, "error 51 no transaction\n"));
  with_three.in_transaction = false;
  MUST(is_as_before(&db, &with_three));
  mmdb_close(&db);
}

/* A release removes a savepoint and those after it. No row changes, and ROLLBACK TO an earlier savepoint restores its rows. */
static void released_savepoints(void) {
  mmdb db = opened_with_rows();
  struct picture before = picture_of(&db);
  MUST(release(&db, "s") == MMDB_NO_TRANSACTION && stays(&db, &before));
  MUST(is_done(&db, "BEGIN") && is_done(&db, "SAVEPOINT one") && answers(&db, "DELETE t WHERE id = 1", MMDB_COUNT, "ok 1\n"));
  MUST(is_done(&db, "SAVEPOINT two") && answers(&db, "INSERT t (3, 3, 'c')", MMDB_COUNT, "ok 1\n") && is_done(&db, "SAVEPOINT three"));
  struct picture with_three = picture_of(&db);
  uint64_t changes = mmdb_total_changes(&db);
  MUST(release(&db, "nope") == MMDB_NO_SUCH_SAVEPOINT && stays(&db, &with_three));
  MUST(release(&db, "two") == MMDB_DONE && stays(&db, &with_three) && mmdb_total_changes(&db) == changes);
  MUST(release(&db, "two") == MMDB_NO_SUCH_SAVEPOINT && release(&db, "three") == MMDB_NO_SUCH_SAVEPOINT && stays(&db, &with_three));
  MUST(answers(&db, "ROLLBACK TO three", MMDB_NO_SUCH_SAVEPOINT, "error 53 no such savepoint\n"));
  before.in_transaction = true;
  MUST(is_done(&db, "ROLLBACK TO one") && is_as_before(&db, &before));
  MUST(release(&db, "one") == MMDB_DONE && release(&db, "one") == MMDB_NO_SUCH_SAVEPOINT);
  before.in_transaction = false;
  MUST(is_done(&db, "COMMIT") && is_as_before(&db, &before) && release(&db, "one") == MMDB_NO_TRANSACTION);
  mmdb_close(&db);
}

/* Of two savepoints with one name, the later one is released first. */
static void released_savepoints_of_one_name(void) {
  mmdb db = opened_with_rows();
  struct picture before = picture_of(&db);
  before.in_transaction = true;
  MUST(is_done(&db, "BEGIN") && is_done(&db, "SAVEPOINT s") && answers(&db, "UPDATE t SET k = 1", MMDB_COUNT, "ok 2\n"));
  struct picture changed = picture_of(&db);
  MUST(is_done(&db, "SAVEPOINT s") && answers(&db, "DELETE t", MMDB_COUNT, "ok 2\n"));
  MUST(is_done(&db, "ROLLBACK TO s") && is_as_before(&db, &changed) && answers(&db, "DELETE t", MMDB_COUNT, "ok 2\n"));
  MUST(release(&db, "s") == MMDB_DONE && is_done(&db, "ROLLBACK TO s") && is_as_before(&db, &before));
  MUST(release(&db, "s") == MMDB_DONE && release(&db, "s") == MMDB_NO_SUCH_SAVEPOINT && is_done(&db, "ROLLBACK"));
  mmdb_close(&db);
}

/* A program that sets and releases a savepoint for each item never has more than one. */
static void a_savepoint_for_each_item(void) {
  mmdb db = opened_with_rows();
  MUST(is_done(&db, "BEGIN"));
  size_t save = prepared(&db, "SAVEPOINT item"), back = prepared(&db, "ROLLBACK TO item"), insert = prepared(&db, "INSERT t (?, 0, '')");
  for (int64_t i = 0; i < 1000; i++) {
    mmdb_cell id = number(100 + i);
    MUST(mmdb_run(&db, save, no_values, 0) == MMDB_DONE && mmdb_run(&db, insert, &id, 1) == MMDB_COUNT);
    if (i % 3 == 0) MUST(mmdb_run(&db, back, no_values, 0) == MMDB_DONE);
    MUST(release(&db, "item") == MMDB_DONE);
  }
  MUST(is_done(&db, "COMMIT") && execute(&db, "SCAN t") == MMDB_ROWS && mmdb_count(&db) == 2 + 666);
  mmdb_close(&db);
}

/* Bytes that are not a name are a syntax error before any other refusal. */
static void names_of_savepoints(void) {
  static const char *const names[] = {"", "S", "s s", "1s", "_s", "s?", "'s'", "s\n", "a234567890123456789012345678_0123"};
  mmdb db = opened_with_rows();
  for (int round = 0; round < 2; round++) {
    struct picture before = picture_of(&db);
    for (size_t i = 0; i < sizeof names / sizeof *names; i++)
      check(release(&db, names[i]) == MMDB_SYNTAX && stays(&db, &before), names[i], __LINE__);
    if (round == 0) MUST(is_done(&db, "BEGIN"));
  }
  MUST(is_done(&db, "SAVEPOINT a234567890123456789012345678_012") && release(&db, "a234567890123456789012345678_012") == MMDB_DONE);
  mmdb_close(&db);
}

/* Dumps: each piece consists of whole lines, and the pieces rebuild the database. */

enum { LONG_TABLE = 3000 };

/* A database with a long table, lines of many lengths, an index and a standing query. */
static mmdb opened_to_dump(void) {
  mmdb db = opened_with_rows();
  MUST(is_done(&db, "TABLE u (name TEXT KEY, t INT REF t)") && is_done(&db, "TABLE v (id INT KEY)"));
  size_t insert = prepared(&db, "INSERT u (?, 2)");
  static const char tail[] = "abcdefghijklmnopqrstuvwxyz'ABCDEFGHIJKLMNOPQRSTUVWXYZ'0123456789";
  for (int i = 0; i < LONG_TABLE; i++) {
    char name[65];
    int length = snprintf(name, sizeof name, "%05d%.*s", i * 7919 % LONG_TABLE, i % 60, tail);
    mmdb_cell value = bytes(name, (size_t)length);
    MUST(mmdb_run(&db, insert, &value, 1) == MMDB_COUNT);
  }
  MUST(is_done(&db, "INDEX by_k ON t (k) HASH") && is_done(&db, "INDEX by_t ON u (t) TREE"));
  MUST(is_done(&db, "WATCH w SELECT a.name FROM u a, t b WHERE a.t = b.id AND a.name < 'x' ORDER 1"));
  return db;
}

/* Executes the lines of a piece. */
static bool executes_lines(mmdb *db, const uint8_t *piece, size_t length) {
  for (size_t i = 0, begin = 0; i < length; i++) {
    if (piece[i] != '\n') continue;
    if (i - begin > LONGEST_LINE || mmdb_execute(db, piece + begin, i - begin) >= MMDB_LINE_TOO_LONG) return false;
    begin = i + 1;
  }
  return length == 0 || piece[length - 1] == '\n';
}

/* Dumps a database in pieces of at most room bytes into another one. Returns the number of pieces. */
static size_t dumped(mmdb *from, mmdb *into, size_t room) {
  static uint8_t piece[1 << 20];
  mmdb_dump_place place = MMDB_DUMP_START;
  size_t pieces = 0, length = 1;
  while (!has_failed && length) {
    MUST(mmdb_dump(from, &place, piece, room, &length) == MMDB_DONE && length <= room && executes_lines(into, piece, length));
    pieces += length > 0;
  }
  return pieces;
}

static bool have_one_reply(mmdb *one, mmdb *other, const char *line) {
  static uint8_t texts[2][1 << 20];
  size_t lengths[2];
  uint8_t status = execute(one, line);
  if (status >= MMDB_LINE_TOO_LONG || execute(other, line) != status) return false;
  if (mmdb_text(one, texts[0], sizeof texts[0], &lengths[0]) != MMDB_DONE) return false;
  if (mmdb_text(other, texts[1], sizeof texts[1], &lengths[1]) != MMDB_DONE) return false;
  return lengths[0] == lengths[1] && lengths[0] <= sizeof texts[0] && !memcmp(texts[0], texts[1], lengths[0]);
}

static void dumps(void) {
  static const size_t rooms[] = {MMDB_DUMP_ROOM, 5000, 8194, 65536, 1 << 20};
  static const char *const lines[] = {"TABLES", "SCAN t", "SCAN u", "SCAN v", "SCAN INDEX by_k", "SCAN INDEX by_t", "SHOW w"};
  mmdb db = opened_to_dump();
  for (size_t i = 0; i < sizeof rooms / sizeof *rooms; i++) {
    mmdb copy = opened();
    size_t pieces = dumped(&db, &copy, rooms[i]);
    MUST(i ? pieces >= 1 : pieces > 20);
    for (size_t k = 0; k < sizeof lines / sizeof *lines; k++) check(have_one_reply(&db, &copy, lines[k]), lines[k], __LINE__);
    mmdb_close(&copy);
  }
  mmdb empty = opened(), copy = opened();
  MUST(dumped(&empty, &copy, MMDB_DUMP_ROOM) == 0 && have_one_reply(&empty, &copy, "TABLES"));
  mmdb_close(&empty), mmdb_close(&copy), mmdb_close(&db);
}

static void dumps_in_a_transaction(void) {
  mmdb db = opened_with_rows(), copy = opened();
  MUST(is_done(&db, "BEGIN") && answers(&db, "DELETE t WHERE id = 1", MMDB_COUNT, "ok 1\n"));
  MUST(dumped(&db, &copy, MMDB_DUMP_ROOM) == 1 && have_one_reply(&db, &copy, "SCAN t") && !mmdb_in_transaction(&copy));
  mmdb_close(&copy), mmdb_close(&db);
}

/* A command that may change the database ends a dump. Questions and refused commands do not. */
static void interrupted_dumps(void) {
  static const char *const ending[] = {"INSERT t (9, 9, '')", "TABLE x (id INT KEY)", "BEGIN", "SAVEPOINT s", "COMMIT", "DELETE t WHERE id = 77"};
  static const char *const asking[] = {"SCAN t", "TABLES", "SELECT a.id FROM t a WHERE a.k > 0", "SHOW w", "", "DELETE nothing", "nonsense"};
  static uint8_t piece[MMDB_DUMP_ROOM];
  mmdb db = opened_to_dump();
  for (size_t i = 0; i < sizeof ending / sizeof *ending; i++) {
    mmdb_dump_place place = MMDB_DUMP_START, first = MMDB_DUMP_START;
    size_t length = 0;
    MUST(mmdb_dump(&db, &place, piece, sizeof piece, &length) == MMDB_DONE && length > 0);
    for (size_t k = 0; k < sizeof asking / sizeof *asking; k++) execute(&db, asking[k]);
    MUST(mmdb_dump(&db, &place, piece, sizeof piece, &length) == MMDB_DONE && length > 0);
    check(execute(&db, ending[i]) < MMDB_LINE_TOO_LONG, ending[i], __LINE__);
    mmdb_dump_place kept = place;
    length = 77;
    MUST(mmdb_dump(&db, &place, piece, sizeof piece, &length) == MMDB_MISUSE && length == 77 && !memcmp(&place, &kept, sizeof kept));
    MUST(mmdb_dump(&db, &first, piece, sizeof piece, &length) == MMDB_DONE && length > 0 && length != 77);
  }
  mmdb_close(&db);
}

static void misused_dumps(void) {
  static uint8_t piece[MMDB_DUMP_ROOM];
  mmdb db = opened_with_rows(), closed = MMDB_CLOSED;
  mmdb_dump_place place = MMDB_DUMP_START, far = {(size_t)-1, (size_t)-1, 0}, past = {1, 1000, 0};
  size_t length = 77;
  MUST(mmdb_dump(&closed, &place, piece, sizeof piece, &length) == MMDB_MISUSE && length == 77);
  MUST(mmdb_dump(&db, &place, piece, MMDB_DUMP_ROOM - 1, &length) == MMDB_MISUSE && length == 77);
  MUST(mmdb_dump(&db, &place, NULL, 0, &length) == MMDB_MISUSE && length == 77);
  MUST(mmdb_dump(&db, &place, piece, sizeof piece, &length) == MMDB_DONE && length > 0 && length != 77);
  far.version = past.version = place.version;
  MUST(mmdb_dump(&db, &far, piece, sizeof piece, &length) == MMDB_DONE && length == 0);
  MUST(mmdb_dump(&db, &past, piece, sizeof piece, &length) == MMDB_DONE && length == 0);
  mmdb_close(&db);
}

/* Definitions: the lines of a dump, one at a time. */

/* Whether a definition is this line, whatever the room is, and the reply stays. */
static bool is_defined_by(mmdb *db, uint8_t kind, const char *name, const char *line) {
  size_t length = strlen(line), rooms[] = {0, 1, length - 1, length, length + 1, ROOM};
  struct picture before = picture_of(db);
  for (size_t i = 0; i < sizeof rooms / sizeof *rooms; i++) {
    uint8_t found[ROOM];
    size_t needed = 77, copied = rooms[i] < length ? rooms[i] : length;
    memset(found, '#', ROOM);
    if (definition(db, kind, name, rooms[i] ? found : NULL, rooms[i], &needed) != MMDB_DONE || needed != length) return false;
    if (memcmp(found, line, copied) || (copied < ROOM && found[copied] != '#')) return false;
  }
  return last_reply_is_scan(db, &before);
}

static void definitions(void) {
  static const char index[] = "INDEX w ON u (t) HASH", query[] = "WATCH w SELECT a.name,b.k FROM u a,t b WHERE a.t=b.id AND a.name<'it''s'ORDER 2,1";
  static const char wide[] = "TABLE w (w INT, name TEXT KEY, t INT REF t, u TEXT REF u CASCADE)";
  mmdb db = opened_with_rows(), copy = opened();
  MUST(is_done(&db, "TABLE u (name TEXT KEY, t INT REF t)") && is_done(&db, wide) && is_done(&db, index));
  MUST(is_done(&db, "WATCH  w SELECT a.name, b.k FROM u a, t b WHERE a.t = b.id AND a.name < 'it''s' ORDER 2, 1"));
  MUST(is_defined_by(&db, MMDB_KIND_TABLE, "t", "TABLE t (id INT KEY, k INT, s TEXT)"));
  MUST(is_defined_by(&db, MMDB_KIND_TABLE, "u", "TABLE u (name TEXT KEY, t INT REF t)"));
  /* One name in three name spaces. */
  MUST(is_defined_by(&db, MMDB_KIND_TABLE, "w", wide) && is_defined_by(&db, MMDB_KIND_INDEX, "w", index));
  MUST(is_defined_by(&db, MMDB_KIND_WATCH, "w", query));
  /* Each line creates what it defines, and is a line of the dump. */
  static const struct { uint8_t kind; const char *name; } defined[] = {
      {MMDB_KIND_TABLE, "t"}, {MMDB_KIND_TABLE, "u"}, {MMDB_KIND_TABLE, "w"}, {MMDB_KIND_INDEX, "w"}, {MMDB_KIND_WATCH, "w"}};
  for (size_t i = 0; i < sizeof defined / sizeof *defined; i++) {
    uint8_t line[LONGEST_LINE];
    size_t length = 0;
    MUST(definition(&db, defined[i].kind, defined[i].name, line, sizeof line, &length) == MMDB_DONE && length <= sizeof line);
    MUST(mmdb_execute(&copy, line, length) == MMDB_DONE);
  }
  mmdb restored = opened();
  MUST(answers(&db, "DELETE t", MMDB_COUNT, "ok 2\n") && dumped(&db, &restored, MMDB_DUMP_ROOM) == 1);
  MUST(have_one_reply(&db, &copy, "TABLES") && have_one_reply(&restored, &copy, "TABLES"));
  mmdb_close(&db), mmdb_close(&copy), mmdb_close(&restored);
}

/* What has no definition, and misuses: nothing is written, and the reply and the database stay. */
static void refused_definitions(void) {
  static const struct { uint8_t kind; const char *name; uint8_t status; } refused[] = {
      {MMDB_KIND_TABLE, "u", MMDB_NO_SUCH_TABLE}, {MMDB_KIND_TABLE, "w", MMDB_NO_SUCH_TABLE}, {MMDB_KIND_TABLE, "by_k", MMDB_NO_SUCH_TABLE},
      {MMDB_KIND_INDEX, "t", MMDB_NO_SUCH_INDEX}, {MMDB_KIND_INDEX, "k", MMDB_NO_SUCH_INDEX}, {MMDB_KIND_WATCH, "t", MMDB_NO_SUCH_STANDING_QUERY},
      {MMDB_KIND_WATCH, "by_k", MMDB_NO_SUCH_STANDING_QUERY}, {MMDB_KIND_TABLE, "", MMDB_SYNTAX}, {MMDB_KIND_TABLE, "T", MMDB_SYNTAX},
      {MMDB_KIND_INDEX, "by k", MMDB_SYNTAX}, {MMDB_KIND_WATCH, "w;", MMDB_SYNTAX}, {MMDB_KIND_WATCH, "TABLE", MMDB_SYNTAX},
      {MMDB_KIND_TABLE, "a234567890123456789012345678_0123", MMDB_SYNTAX}, {MMDB_KIND_TABLE, "a234567890123456789012345678_012", MMDB_NO_SUCH_TABLE},
      {MMDB_KIND_NOTHING, "t", MMDB_MISUSE}, {MMDB_KIND_DROP_TABLE, "t", MMDB_MISUSE}, {MMDB_KIND_INSERT, "t", MMDB_MISUSE},
      {MMDB_KIND_UNWATCH, "w", MMDB_MISUSE}, {255, "t", MMDB_MISUSE}};
  mmdb db = opened_with_rows(), closed = MMDB_CLOSED;
  MUST(is_done(&db, "INDEX by_k ON t (k) TREE") && is_done(&db, "WATCH w SELECT a.id FROM t a"));
  struct picture before = picture_of(&db);
  for (size_t i = 0; i < sizeof refused / sizeof *refused; i++) {
    uint8_t line[64];
    size_t needed = 77;
    memset(line, '#', sizeof line);
    check(definition(&db, refused[i].kind, refused[i].name, line, sizeof line, &needed) == refused[i].status, refused[i].name, __LINE__);
    MUST(needed == 77 && line[0] == '#' && stays(&db, &before));
    check(definition(&closed, refused[i].kind, refused[i].name, line, sizeof line, &needed) == MMDB_MISUSE, refused[i].name, __LINE__);
    MUST(needed == 77 && line[0] == '#' && !closed.is_open);
  }
  mmdb_close(&db);
}

/* A definition goes on with a dump, and definitions are those of the catalog in a transaction too. */
static void definitions_between_calls(void) {
  static uint8_t piece[MMDB_DUMP_ROOM];
  mmdb db = opened_to_dump();
  mmdb_dump_place place = MMDB_DUMP_START;
  size_t length = 0, needed = 0;
  MUST(mmdb_dump(&db, &place, piece, sizeof piece, &length) == MMDB_DONE && length > 0);
  MUST(definition(&db, MMDB_KIND_INDEX, "by_t", NULL, 0, &needed) == MMDB_DONE && needed == strlen("INDEX by_t ON u (t) TREE"));
  MUST(mmdb_dump(&db, &place, piece, sizeof piece, &length) == MMDB_DONE && length > 0);
  MUST(is_done(&db, "BEGIN") && is_done(&db, "DROP INDEX by_t"));
  MUST(definition(&db, MMDB_KIND_INDEX, "by_t", NULL, 0, &needed) == MMDB_NO_SUCH_INDEX && mmdb_in_transaction(&db));
  mmdb_close(&db);
}

/* Scripts: the lines of a script are executed up to the first that is refused. */

static void loads(void) {
  mmdb db = opened();
  size_t lines = 77;
  MUST(load(&db, "TABLE t (id INT KEY, s TEXT)\n\r\n-- a comment\r\nINSERT t (1, 'a'), (2, 'b')\r\nINSERT t (3, 'c')", &lines) == MMDB_DONE);
  MUST(lines == 5 && last_reply_is(&db, "ok 1\n") && mmdb_total_changes(&db) == 3);
  MUST(answers(&db, "SCAN t", MMDB_ROWS, "(1, 'a')\n(2, 'b')\n(3, 'c')\nrows 3\n"));
  /* The last line may end with a line feed or without one, and an empty line is a line. */
  MUST(load(&db, "DELETE t WHERE id = 3\n", &lines) == MMDB_DONE && lines == 1 && last_reply_is(&db, "ok 1\n"));
  MUST(load(&db, "SCAN t\n\n", &lines) == MMDB_DONE && lines == 2 && mmdb_count(&db) == 0 && last_reply_is(&db, ""));
  MUST(load(&db, "\n\nSCAN t\r", &lines) == MMDB_DONE && lines == 3 && mmdb_count(&db) == 2);
  /* Without a line, nothing happens. */
  MUST(load(&db, "", &lines) == MMDB_DONE && lines == 0 && mmdb_count(&db) == 2);
  MUST(mmdb_load(&db, NULL, 0, &lines) == MMDB_DONE && lines == 0 && mmdb_count(&db) == 2);
  MUST(mmdb_total_changes(&db) == 4);
  mmdb_close(&db);
}

/* A script that stops at a line: the lines before it stay done. */
struct stopping {
  const char *script;
  size_t lines;
  uint8_t status;
  const char *reply, *rows;
};

static void refused_loads(void) {
  static const struct stopping scripts[] = {
      {"INSERT t (1)\nINSERT t (1)\nINSERT t (2)", 1, MMDB_DUPLICATE_KEY, "error 40 duplicate key\n", "(1)\nrows 1\n"},
      {"INSERT u (1)\nINSERT t (1)", 0, MMDB_NO_SUCH_TABLE, "error 20 no such table\n", "rows 0\n"},
      {"INSERT t (1)\n\n--\nINSERT t\n(2)\n", 3, MMDB_SYNTAX, "error 11 syntax\n", "(1)\nrows 1\n"},
      {"INSERT t (1)\r\r\n", 0, MMDB_SYNTAX, "error 11 syntax\n", "rows 0\n"},
      {"INSERT t (1)\rINSERT t (2)\n", 0, MMDB_SYNTAX, "error 11 syntax\n", "rows 0\n"},
      {"INSERT t (?)", 0, MMDB_SYNTAX, "error 11 syntax\n", "rows 0\n"},
      {"BEGIN\nINSERT t (1)\nCOMMIT\nBEGIN\nINSERT t (2)\nROLLBACK\nROLLBACK\nDELETE t", 6, MMDB_NO_TRANSACTION, "error 51 no transaction\n",
       "(1)\nrows 1\n"},
      {"INSERT t (1)\nSCAN t\nINSERT t (1, 2)", 2, MMDB_WRONG_NUMBER_OF_VALUES, "error 31 wrong number of values\n", "(1)\nrows 1\n"}};
  for (size_t i = 0; i < sizeof scripts / sizeof *scripts; i++) {
    mmdb db = opened();
    size_t lines = 77;
    MUST(is_done(&db, "TABLE t (id INT KEY)"));
    check(load(&db, scripts[i].script, &lines) == scripts[i].status, scripts[i].script, __LINE__);
    check(lines == scripts[i].lines && last_reply_is(&db, scripts[i].reply), scripts[i].script, __LINE__);
    check(!mmdb_in_transaction(&db) && answers(&db, "SCAN t", MMDB_ROWS, scripts[i].rows), scripts[i].script, __LINE__);
    mmdb_close(&db);
  }
}

/* A line of 4,096 bytes is executed, with a carriage return behind it too, and a longer one is refused. */
static void loads_of_long_lines(void) {
  static const struct { size_t length; const char *end; uint8_t status; size_t lines; } long_lines[] = {
      {LONGEST_LINE, "\nBEGIN", MMDB_DONE, 3},       {LONGEST_LINE, "\r\nBEGIN", MMDB_DONE, 3}, {LONGEST_LINE, "", MMDB_DONE, 2},
      {LONGEST_LINE, "\r", MMDB_DONE, 2},            {LONGEST_LINE + 1, "\nBEGIN", MMDB_LINE_TOO_LONG, 1},
      {LONGEST_LINE + 1, "", MMDB_LINE_TOO_LONG, 1}, {LONGEST_LINE, "\r\r\nBEGIN", MMDB_LINE_TOO_LONG, 1},
      {3 * LONGEST_LINE, "\nBEGIN", MMDB_LINE_TOO_LONG, 1}};
  for (size_t i = 0; i < sizeof long_lines / sizeof *long_lines; i++) {
    static char script[4 * LONGEST_LINE];
    static const char first[] = "TABLE t (id INT KEY)\n", insert[] = "INSERT t (1)";
    char *at = script + sprintf(script, "%s%s", first, insert), *end = script + strlen(first) + long_lines[i].length;
    while (at < end) *at++ = ' ';
    strcpy(at, long_lines[i].end);
    mmdb db = opened();
    size_t lines = 77;
    MUST(load(&db, script, &lines) == long_lines[i].status && lines == long_lines[i].lines);
    MUST(mmdb_in_transaction(&db) == (lines == 3) && answers(&db, "SCAN t", MMDB_ROWS, lines > 1 ? "(1)\nrows 1\n" : "rows 0\n"));
    mmdb_close(&db);
  }
}

/* A load is what its lines are one at a time, with prepared statements beside it, and all or none in a transaction. */
static void loads_between_calls(void) {
  static const char script[] = "INSERT t (7, 7, 'x')\nUPDATE t SET k = 1\nINSERT t (7, 7, 'y')\nDELETE t";
  static uint8_t piece[1 << 20];
  mmdb db = opened_with_rows();
  size_t find = prepared(&db, "SELECT a.s FROM t a WHERE a.k = ?"), lines, length = 0;
  mmdb_cell value = number(1);
  struct picture before = picture_of(&db);
  MUST(is_done(&db, "BEGIN") && load(&db, script, &lines) == MMDB_DUPLICATE_KEY && lines == 2);
  MUST(runs(&db, find, &value, 1, MMDB_ROWS, "('a')\n('it''s')\n('x')\nrows 3\n") && is_done(&db, "ROLLBACK"));
  MUST(is_as_before(&db, &before) && runs(&db, find, &value, 1, MMDB_ROWS, "rows 0\n"));
  /* Statements follow a catalog that a load changed. */
  MUST(load(&db, "DROP TABLE t\nTABLE t (s TEXT, k TEXT KEY)\nINSERT t ('new', 'k')", &lines) == MMDB_DONE && lines == 3);
  value = words("k");
  MUST(runs(&db, find, &value, 1, MMDB_ROWS, "('new')\nrows 1\n"));
  mmdb_close(&db);
  /* All pieces of a dump are one script. */
  mmdb whole = opened_to_dump(), copy = opened();
  mmdb_dump_place place = MMDB_DUMP_START;
  MUST(mmdb_dump(&whole, &place, piece, sizeof piece, &length) == MMDB_DONE && length > 0 && length < sizeof piece);
  MUST(mmdb_load(&copy, piece, length, &lines) == MMDB_DONE && lines > 20);
  static const char *const questions[] = {"TABLES", "SCAN t", "SCAN u", "SCAN v", "SCAN INDEX by_k", "SCAN INDEX by_t", "SHOW w"};
  for (size_t k = 0; k < sizeof questions / sizeof *questions; k++) check(have_one_reply(&whole, &copy, questions[k]), questions[k], __LINE__);
  /* A load that executes a line ends a dump, and one that executes none does not. */
  mmdb_dump_place start = MMDB_DUMP_START;
  MUST(mmdb_dump(&whole, &start, piece, MMDB_DUMP_ROOM, &length) == MMDB_DONE);
  MUST(load(&whole, "nonsense", &lines) == MMDB_SYNTAX && mmdb_dump(&whole, &start, piece, MMDB_DUMP_ROOM, &length) == MMDB_DONE);
  MUST(load(&whole, "DELETE v\nnonsense", &lines) == MMDB_SYNTAX && lines == 1);
  MUST(mmdb_dump(&whole, &start, piece, MMDB_DUMP_ROOM, &length) == MMDB_MISUSE);
  mmdb_close(&whole), mmdb_close(&copy);
}

/* Rows that are passed as arrays. */

static mmdb_array numbers_of(const int64_t *numbers, size_t count) { return (mmdb_array){.numbers = numbers, .number_count = count}; }

static mmdb_array texts_of(const uint32_t *offsets, size_t texts, const char *text) {
  return (mmdb_array){.offsets = offsets, .offset_count = texts + 1, .bytes = (const uint8_t *)text, .byte_count = strlen(text)};
}

static void appends(void) {
  static const int64_t keys[] = {7, INT64_MIN, 3, INT64_MAX}, others[] = {1, -1, 0, 5};
  static const uint32_t offsets[] = {2, 2, 3, 7, 71};
  static const char text[] = "no1it's6789012345678901234567890123456789012345678901234567890123456789no";
  mmdb db = opened_with_rows(), lines = opened_with_rows();
  mmdb_array columns[] = {numbers_of(keys, 4), numbers_of(others, 4), texts_of(offsets, 4, text)};
  MUST(append(&db, "t", columns, 3) == MMDB_COUNT && last_reply_is(&db, "ok 4\n") && mmdb_count(&db) == 4 && mmdb_total_changes(&db) == 6);
  MUST(answers(&lines, "INSERT t (7, 1, ''), (-9223372036854775808, -1, '1'), (3, 0, 'it''s'), (9223372036854775807, 5, "
                       "'6789012345678901234567890123456789012345678901234567890123456789')", MMDB_COUNT, "ok 4\n"));
  MUST(have_one_reply(&db, &lines, "SCAN t") && mmdb_count(&db) == 6);
  /* Any byte except a line feed. */
  uint8_t bytes[255];
  uint32_t ends[] = {0, 64, 128, 192, 255};
  for (size_t i = 0, byte = 0; i < sizeof bytes; i++, byte++) bytes[i] = (uint8_t)(byte += byte == 10);
  mmdb_array each = {.offsets = ends, .offset_count = 5, .bytes = bytes, .byte_count = sizeof bytes};
  MUST(is_done(&db, "TABLE s (s TEXT KEY)") && append(&db, "s", &each, 1) == MMDB_COUNT && execute(&db, "SCAN s") == MMDB_ROWS);
  mmdb_cell cells[4];
  MUST(mmdb_read(&db, 0, cells, 4) == 4);
  for (size_t i = 0; i < 4; i++) MUST(is_words(&cells[i], bytes + ends[i], ends[i + 1] - ends[i]));
  /* Without a row: no array, or empty ones of any number. */
  ends[0] = 255;
  each.offset_count = 1, columns[0].number_count = 0;
  MUST(append(&db, "s", &each, 1) == MMDB_COUNT && last_reply_is(&db, "ok 0\n") && append(&db, "s", NULL, 0) == MMDB_COUNT);
  MUST(append(&db, "t", &each, 1) == MMDB_COUNT && append(&db, "t", columns, 1) == MMDB_COUNT && last_reply_is(&db, "ok 0\n"));
  MUST(append(&db, "u", NULL, 0) == MMDB_NO_SUCH_TABLE && last_reply_is(&db, "error 20 no such table\n"));
  mmdb_close(&db), mmdb_close(&lines);
}

/* All rows or none: a refused append has the refusal of the INSERT of its rows, and changes only the reply. */
static void refused_appends(void) {
  static const int64_t keys[] = {5, 6, 7}, taken[] = {5, 6, 1}, twice[] = {5, 6, 5};
  static const uint32_t offsets[] = {0, 1, 2, 3}, long_offsets[] = {0, 1, 66, 67}, short_offsets[] = {0, 1, 65, 66};
  static const char text[] = "abc", broken[] = "a\nc", longer[] = "a234567890123456789012345678901234567890123456789012345678901234567890";
  static const char key[] = "INSERT t (5, 5, 'a'), (6, 6, 'b'), (1, 7, 'c')", key_twice[] = "INSERT t (5, 5, 'a'), (6, 6, 'b'), (5, 7, 'c')";
  static const char types[] = "INSERT t ('a', 'b', 'c')", few[] = "INSERT t (5, 5), (6, 6), (7, 7)", many[] = "INSERT t (5, 5, 'a', 5), (6, 6, 'b', 6)";
  const mmdb_array a = numbers_of(keys, 3), b = numbers_of(taken, 3), c = numbers_of(twice, 3), s = texts_of(offsets, 3, text);
  const mmdb_array lf = texts_of(offsets, 3, broken), above = texts_of(long_offsets, 3, longer), full = texts_of(short_offsets, 3, longer);
  const struct { const char *name; size_t count; mmdb_array columns[4]; uint8_t status; const char *line; } refused[] = {
      {"u", 3, {a, a, s}, MMDB_NO_SUCH_TABLE, "INSERT u (5)"},  {"t", 3, {b, a, s}, MMDB_DUPLICATE_KEY, key},
      {"t", 3, {c, a, s}, MMDB_DUPLICATE_KEY, key_twice},       {"t", 3, {s, a, s}, MMDB_TYPE_MISMATCH, types},
      {"t", 3, {a, a, a}, MMDB_TYPE_MISMATCH, "INSERT t (1, 1, 1)"}, {"t", 2, {a, a}, MMDB_WRONG_NUMBER_OF_VALUES, few},
      {"t", 4, {a, a, s, a}, MMDB_WRONG_NUMBER_OF_VALUES, many}, {"t", 2, {s, a}, MMDB_TYPE_MISMATCH, "INSERT t ('a', 5)"},
      {"t", 3, {a, a, lf}, MMDB_SYNTAX, "INSERT t (5, 5, 'a\n')"}, {"u", 1, {lf}, MMDB_SYNTAX, "INSERT u ('\n')"},
      {"t", 3, {a, a, above}, MMDB_TEXT_TOO_LONG, NULL},        {"u", 1, {above}, MMDB_TEXT_TOO_LONG, NULL},
      {"t", 3, {a, lf, above}, MMDB_SYNTAX, NULL},              {"t", 3, {a, above, lf}, MMDB_TEXT_TOO_LONG, NULL},
      {"", 3, {a, a, s}, MMDB_SYNTAX, "INSERT  (5)"},           {"T", 3, {a, a, above}, MMDB_SYNTAX, "INSERT T (5)"},
      {"t (1)", 3, {a, a, s}, MMDB_SYNTAX, "INSERT t (1) (5)"}, {"r", 2, {a, a}, MMDB_NO_TARGET_ROW, "INSERT r (5, 5)"},
      {"a234567890123456789012345678_0123", 3, {a, a, s}, MMDB_SYNTAX, "INSERT a234567890123456789012345678_0123 (5)"}};
  mmdb db = opened_with_rows();
  MUST(is_done(&db, "TABLE r (id INT KEY, t INT REF t)") && is_done(&db, "INDEX by_k ON t (k) TREE"));
  for (size_t in_transaction = 0; in_transaction < 2; in_transaction++) {
    if (in_transaction) MUST(is_done(&db, "BEGIN") && answers(&db, "UPDATE t SET k = 9 WHERE id = 2", MMDB_COUNT, "ok 1\n"));
    struct picture before = picture_of(&db);
    for (size_t i = 0; i < sizeof refused / sizeof *refused; i++) {
      char reply[ROOM];
      size_t length = 0;
      if (refused[i].line != NULL) {
        check(execute(&db, refused[i].line) == refused[i].status, refused[i].line, __LINE__);
        length = text_of_reply(&db, (uint8_t *)reply, ROOM);
      }
      reply[length] = 0;
      check(append(&db, refused[i].name, refused[i].columns, refused[i].count) == refused[i].status, refused[i].name, __LINE__);
      check(length == 0 || last_reply_is(&db, reply), refused[i].name, __LINE__);
      check(mmdb_count(&db) == 0 && is_as_before(&db, &before), refused[i].name, __LINE__);
    }
  }
  /* A text of 64 bytes is none of them. */
  const mmdb_array right[] = {a, a, full};
  MUST(append(&db, "t", right, 3) == MMDB_COUNT && last_reply_is(&db, "ok 3\n") && is_done(&db, "ROLLBACK"));
  mmdb_close(&db);
}

/* Arrays that are no columns of rows: nothing changes, not even the reply. */
static void misused_appends(void) {
  static const int64_t keys[] = {5, 6, 7};
  static const uint32_t offsets[] = {0, 1, 2, 3}, falling[] = {0, 2, 1, 3}, behind[] = {0, 1, 2, 4}, far[] = {0, 1, UINT32_MAX, 3};
  const mmdb_array a = numbers_of(keys, 3), s = texts_of(offsets, 3, "abc"), fewer = numbers_of(keys, 2), less = texts_of(offsets, 2, "abc");
  mmdb_array both = s, empty = s;
  both.numbers = keys, both.number_count = 3, empty.byte_count = 0, empty.bytes = NULL;
  const mmdb_array misused[][3] = {
      {a, a, fewer}, {fewer, a, s}, {a, a, less}, {less, a, s}, {a, a, both}, {both, a, s}, {a, a, empty}, {a, a, {.numbers = NULL}},
      {a, a, texts_of(falling, 3, "abc")}, {a, a, texts_of(behind, 3, "abc")}, {a, a, texts_of(far, 3, "abc")}, {texts_of(behind, 3, "abc"), a, s},
      {a, texts_of(offsets + 1, 2, "abc"), s}};
  mmdb db = opened_with_rows(), closed = MMDB_CLOSED;
  struct picture before = picture_of(&db);
  for (size_t i = 0; i < sizeof misused / sizeof *misused; i++) {
    MUST(append(&db, "t", misused[i], 3) == MMDB_MISUSE && stays(&db, &before));
    MUST(append(&db, "u", misused[i], 3) == MMDB_MISUSE && append(&db, "", misused[i], 3) == MMDB_MISUSE && stays(&db, &before));
    MUST(append(&closed, "t", misused[i], 3) == MMDB_MISUSE && !closed.is_open);
  }
  const mmdb_array one[] = {a, a, s};
  MUST(append(&closed, "t", one, 3) == MMDB_MISUSE && append(&db, "t", one, 3) == MMDB_COUNT);
  mmdb_close(&db);
}

/* Appends between other calls: statements, standing queries, transactions, savepoints and dumps. */
static void appends_between_calls(void) {
  static const int64_t keys[] = {3, 4, 5, 6}, others[] = {5, 5, 6, -7};
  static const uint32_t offsets[] = {0, 1, 2, 3, 4};
  static uint8_t piece[MMDB_DUMP_ROOM];
  mmdb db = opened_with_rows();
  mmdb_array columns[] = {numbers_of(keys, 4), numbers_of(others, 4), texts_of(offsets, 4, "wxyz")};
  MUST(is_done(&db, "INDEX by_k ON t (k) HASH") && is_done(&db, "WATCH w SELECT a.id, a.s FROM t a WHERE a.k = 5"));
  size_t find = prepared(&db, "SELECT a.s FROM t a WHERE a.k = ?"), length = 0;
  mmdb_cell value = number(5);
  struct picture before = picture_of(&db);
  mmdb_dump_place place = MMDB_DUMP_START;
  MUST(mmdb_dump(&db, &place, piece, sizeof piece, &length) == MMDB_DONE);
  MUST(is_done(&db, "BEGIN") && is_done(&db, "SAVEPOINT s") && append(&db, "t", columns, 3) == MMDB_COUNT && mmdb_in_transaction(&db));
  MUST(runs(&db, find, &value, 1, MMDB_ROWS, "('a')\n('w')\n('x')\nrows 3\n"));
  MUST(answers(&db, "SHOW w", MMDB_ROWS, "(1, 'a')\n(3, 'w')\n(4, 'x')\nrows 3\n"));
  MUST(append(&db, "t", columns, 3) == MMDB_DUPLICATE_KEY && runs(&db, find, &value, 1, MMDB_ROWS, "('a')\n('w')\n('x')\nrows 3\n"));
  MUST(is_done(&db, "ROLLBACK TO s") && runs(&db, find, &value, 1, MMDB_ROWS, "('a')\nrows 1\n") && is_done(&db, "ROLLBACK"));
  MUST(is_as_before(&db, &before) && answers(&db, "SHOW w", MMDB_ROWS, "(1, 'a')\nrows 1\n"));
  place = (mmdb_dump_place)MMDB_DUMP_START;
  MUST(mmdb_dump(&db, &place, piece, sizeof piece, &length) == MMDB_DONE && append(&db, "u", columns, 3) == MMDB_NO_SUCH_TABLE);
  MUST(mmdb_dump(&db, &place, piece, sizeof piece, &length) == MMDB_DONE && append(&db, "t", columns, 3) == MMDB_COUNT);
  MUST(mmdb_dump(&db, &place, piece, sizeof piece, &length) == MMDB_MISUSE);
  MUST(mmdb_run(&db, find, &value, 1) == MMDB_ROWS && mmdb_count(&db) == 3 && mmdb_total_changes(&db) == 10);
  mmdb_close(&db);
}

/* As many rows in one call as a table may have, and one more. */
static void an_append_of_a_full_table(void) {
  static int64_t keys[MOST_ROWS + 1];
  mmdb db = opened();
  size_t most = calls < MOST_ROWS ? 1 << 12 : MOST_ROWS;
  for (size_t i = 0; i <= most; i++) keys[i] = (int64_t)(most - i);
  mmdb_array column = numbers_of(keys, most + 1);
  MUST(is_done(&db, "TABLE t (id INT KEY)"));
  if (most == MOST_ROWS) MUST(append(&db, "t", &column, 1) == MMDB_TABLE_FULL && answers(&db, "SCAN t", MMDB_ROWS, "rows 0\n"));
  column.number_count = most;
  MUST(append(&db, "t", &column, 1) == MMDB_COUNT && mmdb_count(&db) == most);
  if (most == MOST_ROWS) MUST(answers(&db, "INSERT t (0)", MMDB_TABLE_FULL, "error 45 table full\n"));
  mmdb_cell last[2];
  MUST(execute(&db, "SCAN t") == MMDB_ROWS && mmdb_count(&db) == most && mmdb_read(&db, most - 2, last, 2) == 2);
  MUST(is_number(&last[0], (int64_t)most - 1) && is_number(&last[1], (int64_t)most));
  mmdb_close(&db);
}

/* mmdb_query: a run and a read in one call. */
static void queries(void) {
  mmdb db = opened_with_rows();
  size_t find = prepared(&db, "SELECT a.id, a.s FROM t a WHERE a.id >= ?"), change = prepared(&db, "UPDATE t SET k = ?"), rows;
  mmdb_cell values[] = {number(1)}, cells[5];
  for (size_t room = 0; room <= 5; room++) {
    for (size_t i = 0; i < 5; i++) cells[i] = number(-1);
    size_t wanted = room / 2 < 2 ? room / 2 : 2;
    MUST(mmdb_query(&db, find, values, 1, cells, room, &rows) == MMDB_ROWS && rows == wanted && mmdb_count(&db) == 2);
    MUST(last_reply_is(&db, "(1, 'a')\n(2, 'it''s')\nrows 2\n"));
    MUST(is_number(&cells[2 * wanted], -1) && (wanted < 1 || is_words(&cells[1], "a", 1)) && (wanted < 2 || is_words(&cells[3], "it's", 4)));
  }
  rows = 77;
  MUST(mmdb_query(&db, change, values, 1, cells, 5, &rows) == MMDB_COUNT && rows == 0 && mmdb_count(&db) == 2 && last_reply_is(&db, "ok 2\n"));
  values[0] = words("x");
  rows = 77;
  MUST(mmdb_query(&db, find, values, 1, cells, 5, &rows) == MMDB_TYPE_MISMATCH && rows == 0 && last_reply_is(&db, "error 30 type mismatch\n"));
  mmdb_close(&db);
}

static void runs_of_many(void) {
  mmdb db = opened_with_rows();
  size_t insert = prepared(&db, "INSERT t (?, ?, 'x')"), scan = prepared(&db, "SCAN t"), find = prepared(&db, "SELECT a.k FROM t a WHERE a.id = ?"), done = 77;
  mmdb_cell rows[] = {number(3), number(30), number(4), number(40), number(1), number(10), number(5), number(50)};
  struct picture before = picture_of(&db);
  MUST(mmdb_run_many(&db, insert, rows, 2, 0, &done) == MMDB_MISUSE && done == 0 && stays(&db, &before));
  done = 77;
  MUST(mmdb_run_many(&db, scan, rows, 1, 1, &done) == MMDB_MISUSE && done == 0 && stays(&db, &before));
  done = 77;
  MUST(mmdb_run_many(&db, insert, rows, 3, 3, &done) == MMDB_MISUSE && done == 0 && stays(&db, &before));
  done = 77;
  MUST(mmdb_run_many(&db, insert, rows, 0, 2, &done) == MMDB_DONE && done == 0 && stays(&db, &before));
  MUST(mmdb_run_many(&db, insert, rows, 8, 2, &done) == MMDB_DUPLICATE_KEY && done == 2 && last_reply_is(&db, "error 40 duplicate key\n"));
  MUST(answers(&db, "SELECT a.id FROM t a WHERE a.s = 'x'", MMDB_ROWS, "(3)\n(4)\nrows 2\n"));
  MUST(mmdb_run_many(&db, insert, rows + 6, 2, SIZE_MAX, &done) == MMDB_DONE && done == 1 && last_reply_is(&db, "ok 1\n"));
  mmdb_cell keys[] = {number(3), number(4), number(5)};
  MUST(mmdb_run_many(&db, find, keys, 3, 1, &done) == MMDB_DONE && done == 3 && last_reply_is(&db, "(50)\nrows 1\n"));
  mmdb_close(&db);
}

/* A misuse in the second of two rows, by a cell that is not a value or a short row: the first row runs, and its reply is the last one. */
static void runs_of_many_with_a_misuse(void) {
  mmdb db = opened_with_rows();
  size_t insert = prepared(&db, "INSERT t (?, ?, 'x')"), done = 77;
  mmdb_cell rows[] = {number(3), number(30), number(4), number(40)};
  rows[3].kind = 7;
  MUST(mmdb_run_many(&db, insert, rows, 4, 2, &done) == MMDB_MISUSE && done == 1 && last_reply_is(&db, "ok 1\n"));
  MUST(answers(&db, "SELECT a.id FROM t a WHERE a.s = 'x'", MMDB_ROWS, "(3)\nrows 1\n"));
  rows[0] = number(5);
  MUST(mmdb_run_many(&db, insert, rows, 3, 2, &done) == MMDB_MISUSE && done == 1 && last_reply_is(&db, "ok 1\n"));
  MUST(answers(&db, "SELECT a.id FROM t a WHERE a.s = 'x'", MMDB_ROWS, "(3)\n(5)\nrows 2\n"));
  mmdb_close(&db);
}

/* A table with the maximum number of rows, inserted by few calls. */
static void a_full_table(void) {
  enum { AT_ONCE = 1 << 12 };
  static mmdb_cell values[AT_ONCE], cells[AT_ONCE];
  mmdb db = opened();
  int64_t most = calls < MOST_ROWS ? AT_ONCE : MOST_ROWS;
  size_t done;
  MUST(is_done(&db, "TABLE t (id INT KEY)"));
  size_t insert = prepared(&db, "INSERT t (?)");
  for (int64_t first = 0; first < most; first += AT_ONCE) {
    for (int64_t i = 0; i < AT_ONCE; i++) values[i] = number(first + i);
    MUST(mmdb_run_many(&db, insert, values, AT_ONCE, 1, &done) == MMDB_DONE && done == AT_ONCE);
  }
  values[0] = number(-1);
  if (most == MOST_ROWS) MUST(runs(&db, insert, values, 1, MMDB_TABLE_FULL, "error 45 table full\n"));
  MUST(execute(&db, "SCAN t") == MMDB_ROWS && mmdb_count(&db) == (size_t)most);
  int64_t next = 0;
  for (size_t count; (count = mmdb_read(&db, (size_t)next, cells, AT_ONCE)) > 0; next += (int64_t)count)
    for (size_t i = 0; i < count; i++)
      if (!is_number(&cells[i], next + (int64_t)i)) MUST(!"a wrong row");
  MUST(next == most);
  mmdb_close(&db);
}

/* Random finds, updates, inserts and deletes, compared with an array. */
static void many_calls(void) {
  enum { KEYS = 1000 };
  static int64_t kept[KEYS];
  mmdb db = opened();
  MUST(is_done(&db, "TABLE t (id INT KEY, k INT)") && is_done(&db, "INDEX i ON t (k) HASH"));
  size_t insert = prepared(&db, "INSERT t (?, ?)"), find = prepared(&db, "SELECT a.k FROM t a WHERE a.id = ?"), rows;
  size_t change = prepared(&db, "UPDATE t SET k = ? WHERE id = ?"), remove = prepared(&db, "DELETE t WHERE id = ?");
  uint64_t random = 88172645463325252u;
  memset(kept, -1, sizeof kept);
  for (long i = 0; i < calls && !has_failed; i++) {
    random ^= random << 13, random ^= random >> 7, random ^= random << 17;
    int64_t key = (int64_t)(random % KEYS);
    bool is_there = kept[key] >= 0;
    mmdb_cell both[] = {number(key), number(i)}, swapped[] = {number(i), number(key)}, cell;
    switch (random >> 32 & 7) {
    case 0: MUST(mmdb_run(&db, insert, both, 2) == (is_there ? MMDB_DUPLICATE_KEY : MMDB_COUNT)), kept[key] = is_there ? kept[key] : i; break;
    case 1: MUST(mmdb_run(&db, remove, both, 1) == MMDB_COUNT && mmdb_count(&db) == is_there), kept[key] = -1; break;
    case 2: MUST(mmdb_run(&db, change, swapped, 2) == MMDB_COUNT && mmdb_count(&db) == is_there), kept[key] = is_there ? i : -1; break;
    default: MUST(mmdb_query(&db, find, both, 1, &cell, 1, &rows) == MMDB_ROWS && rows == is_there && (!is_there || is_number(&cell, kept[key])));
    }
  }
  mmdb_close(&db);
}

#define TEST(name) {#name, name}

static const struct { const char *name; void (*run)(void); } tests[] = {
  TEST(a_closed_handle), TEST(opened_twice_and_closed_twice), TEST(closed_in_the_middle), TEST(two_databases), TEST(two_threads),
  TEST(a_handle_of_several_threads), TEST(versions), TEST(words_of_statuses),
  TEST(each_kind_of_reply), TEST(each_refusal), TEST(lines_of_the_greatest_length), TEST(a_reply_as_text), TEST(rows_in_pieces),
  TEST(columns_of_lines), TEST(columns_in_their_room), TEST(columns_of_the_catalog), TEST(columns_of_statements), TEST(places_in_lines),
  TEST(numbers_of_statements), TEST(a_number_used_again), TEST(lines_that_can_be_prepared), TEST(kinds_of_statements),
  TEST(explained_statements), TEST(explained_as_their_lines), TEST(misused_explains), TEST(counted_changes), TEST(arrays_that_are_null),
  TEST(misused_values), TEST(bytes_behind_a_value),
  TEST(texts), TEST(numbers), TEST(values_of_the_wrong_type), TEST(shifts),
  TEST(changes_of_the_catalog), TEST(other_tables), TEST(standing_queries), TEST(transactions),
  TEST(released_savepoints), TEST(released_savepoints_of_one_name), TEST(a_savepoint_for_each_item), TEST(names_of_savepoints),
  TEST(dumps), TEST(dumps_in_a_transaction), TEST(interrupted_dumps), TEST(misused_dumps),
  TEST(definitions), TEST(refused_definitions), TEST(definitions_between_calls),
  TEST(loads), TEST(refused_loads), TEST(loads_of_long_lines), TEST(loads_between_calls),
  TEST(appends), TEST(refused_appends), TEST(misused_appends), TEST(appends_between_calls), TEST(an_append_of_a_full_table),
  TEST(queries), TEST(runs_of_many), TEST(runs_of_many_with_a_misuse),
  TEST(a_full_table), TEST(many_calls),
};

int main(int count, char **words) {
  enum { COUNT = sizeof tests / sizeof *tests };
  int failed = 0;
  if (count > 1) calls = atol(words[1]);
  for (size_t i = 0; i < COUNT; i++) {
    has_failed = false;
    tests[i].run();
    printf("%s: %s\n", has_failed ? "failed" : "passed", tests[i].name);
    failed += has_failed;
  }
  printf("%d passed, %d failed\n", COUNT - failed, failed);
  return failed ? 1 : 0;
}
