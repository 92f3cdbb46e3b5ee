/* The workload of work.h in SQLite, in this process, with each statement prepared once.

   sqlite WORK ROWS CALLS [transaction]: prints the processor time per call in nanoseconds, and the number of rows read. */
#include "work.h"
#include <sqlite3.h>

static const char *const lines[WORKS] = {
    "SELECT v, w FROM t WHERE k = ?",
    "SELECT v, w FROM t WHERE h = ?",
    "SELECT k, v FROM t WHERE r >= ? AND r < ? ORDER BY r",
    "SELECT c.id, t.v FROM c, t WHERE c.id = ? AND c.p = t.k",
    "INSERT INTO t VALUES (?, ?, ?, ?, 'new')",
    "UPDATE t SET v = ? WHERE k = ?",
    "UPDATE t SET r = ? WHERE k = ?",
    "DELETE FROM t WHERE k = ?",
    "UPDATE t SET v = ? WHERE k = ?",
};

static sqlite3 *db;

static void must(bool holds) {
  if (!holds) {
    fprintf(stderr, "sqlite: %s\n", sqlite3_errmsg(db));
    exit(1);
  }
}

static void execute(const char *line) { must(sqlite3_exec(db, line, NULL, NULL, NULL) == SQLITE_OK); }

static sqlite3_stmt *prepared(const char *line) {
  sqlite3_stmt *statement;
  must(sqlite3_prepare_v2(db, line, -1, &statement, NULL) == SQLITE_OK);
  return statement;
}

/* Runs a statement, reads all values of its rows, and returns the number of rows. */
static int64_t run(sqlite3_stmt *statement, const int64_t *values, size_t count) {
  int64_t rows = 0;
  int status;
  for (size_t i = 0; i < count; i++)
    must(sqlite3_bind_int64(statement, (int)i + 1, values[i]) == SQLITE_OK);
  while ((status = sqlite3_step(statement)) == SQLITE_ROW) {
    for (int i = 0; i < sqlite3_column_count(statement); i++)
      if (sqlite3_column_type(statement, i) == SQLITE_INTEGER)
        sqlite3_column_int64(statement, i);
      else
        sqlite3_column_text(statement, i);
    rows++;
  }
  must(status == SQLITE_DONE);
  must(sqlite3_reset(statement) == SQLITE_OK);
  return rows;
}

static void set_up(enum work work, int64_t rows) {
  execute("PRAGMA foreign_keys = ON");
  execute("CREATE TABLE t (k INTEGER PRIMARY KEY, h INT, r INT, v INT, w TEXT)");
  execute("CREATE INDEX th ON t (h)");
  execute("CREATE INDEX tr ON t (r)");
  if (work == BY_FOREIGN_KEY)
    execute("CREATE TABLE c (id INTEGER PRIMARY KEY, p INT REFERENCES t)");
  if (work == CHANGE_AND_LIST) {
    execute("CREATE TABLE list (k INTEGER PRIMARY KEY, v INT)");
    execute("CREATE TRIGGER comes AFTER UPDATE OF v ON t WHEN new.v < 0 AND old.v >= 0 BEGIN INSERT INTO list VALUES (new.k, new.v); END");
    execute("CREATE TRIGGER stays AFTER UPDATE OF v ON t WHEN new.v < 0 AND old.v < 0 BEGIN UPDATE list SET v = new.v WHERE k = new.k; END");
    execute("CREATE TRIGGER goes AFTER UPDATE OF v ON t WHEN new.v >= 0 AND old.v < 0 BEGIN DELETE FROM list WHERE k = new.k; END");
  }
  execute("BEGIN");
  sqlite3_stmt *t = prepared("INSERT INTO t VALUES (?, ?, ?, ?, 'text')");
  for (int64_t i = 0; i < rows; i++) {
    int64_t k = mixed(i, rows), values[4] = {k, 3 * k, k, i};
    run(t, values, 4);
  }
  sqlite3_finalize(t);
  if (work == BY_FOREIGN_KEY) {
    sqlite3_stmt *c = prepared("INSERT INTO c VALUES (?, ?)");
    for (int64_t i = 0; i < rows; i++) {
      int64_t values[2] = {i, mixed(i, rows)};
      run(c, values, 2);
    }
    sqlite3_finalize(c);
  }
  execute("COMMIT");
}

int main(int count, char **words) {
  if (count < 4)
    return 2;
  enum work work = (enum work)atoi(words[1]);
  int64_t rows = atoll(words[2]), calls = atoll(words[3]), read = 0;
  bool in_transaction = count > 4;
  must(sqlite3_open(":memory:", &db) == SQLITE_OK);
  set_up(work, rows);
  sqlite3_stmt *statement = prepared(lines[work]);
  sqlite3_stmt *list = work == CHANGE_AND_LIST ? prepared("SELECT k, v FROM list ORDER BY k") : NULL;
  double before = processor_seconds();
  if (in_transaction)
    execute("BEGIN");
  for (int64_t i = 0; i < calls; i++) {
    int64_t values[4];
    parameters(work, i, rows, values);
    read += run(statement, values, work_parameters[work]);
    if (list != NULL)
      read += run(list, NULL, 0);
  }
  if (in_transaction)
    execute("COMMIT");
  printf("%.1f %lld\n", 1e9 * (processor_seconds() - before) / (double)(calls ? calls : 1), (long long)read);
  sqlite3_finalize(statement);
  sqlite3_finalize(list);
  return sqlite3_close(db) == SQLITE_OK ? 0 : 1;
}
