/* The workload of work.h in mmdb, in this process, with each statement prepared once.

   mmdb WORK ROWS CALLS [transaction]: prints the processor time per call in nanoseconds, and the number of rows read. */
#include "work.h"
#include <mmdb.h>

enum { MOST_PARAMETERS = 4, ROOM = 32 };

static const char *const lines[WORKS] = {
    "SELECT a.v, a.w FROM t a WHERE a.k = ?",
    "SELECT a.v, a.w FROM t a WHERE a.h = ?",
    "SELECT a.k, a.v FROM t a WHERE a.r >= ? AND a.r < ?",
    "SELECT b.id, a.v FROM c b, t a WHERE b.id = ? AND b.p = a.k",
    "INSERT t (?, ?, ?, ?, 'new')",
    "UPDATE t SET v = ? WHERE k = ?",
    "UPDATE t SET r = ? WHERE k = ?",
    "DELETE t WHERE k = ?",
    "UPDATE t SET v = ? WHERE k = ?",
};

static mmdb db = MMDB_CLOSED;

static void must(bool holds) {
  if (!holds) {
    uint8_t text[80];
    size_t length = 0;
    mmdb_text(&db, text, sizeof text, &length);
    fprintf(stderr, "mmdb: %.*s\n", (int)(length < sizeof text ? length : sizeof text), (const char *)text);
    exit(1);
  }
}

static void execute(const char *line) { must(mmdb_execute(&db, (const uint8_t *)line, strlen(line)) == MMDB_DONE); }

static size_t prepared(const char *line) {
  size_t statement;
  must(mmdb_prepare(&db, (const uint8_t *)line, strlen(line), &statement) == MMDB_DONE);
  return statement;
}

/* Runs a statement, reads all values of its rows, and returns the number of rows. */
static int64_t run(size_t statement, const int64_t *numbers, size_t count) {
  mmdb_cell values[MOST_PARAMETERS], cells[ROOM];
  size_t rows;
  for (size_t i = 0; i < count; i++) {
    values[i].kind = MMDB_NUMBER;
    values[i].number = numbers[i];
  }
  uint8_t status = mmdb_query(&db, statement, values, count, cells, ROOM, &rows);
  must(status < MMDB_LINE_TOO_LONG);
  if (status != MMDB_ROWS)
    return 0;
  for (size_t more = rows; more > 0 && rows < mmdb_count(&db); rows += more)
    more = mmdb_read(&db, rows, cells, ROOM);
  return (int64_t)rows;
}

static void set_up(enum work work, int64_t rows) {
  execute("TABLE t (k INT KEY, h INT, r INT, v INT, w TEXT)");
  execute("INDEX th ON t (h) HASH");
  execute("INDEX tr ON t (r) TREE");
  size_t t = prepared("INSERT t (?, ?, ?, ?, 'text')");
  for (int64_t i = 0; i < rows; i++) {
    int64_t k = mixed(i, rows), values[4] = {k, 3 * k, k, i};
    run(t, values, 4);
  }
  if (work == BY_FOREIGN_KEY) {
    execute("TABLE c (id INT KEY, p INT REF t)");
    size_t c = prepared("INSERT c (?, ?)");
    for (int64_t i = 0; i < rows; i++) {
      int64_t values[2] = {i, mixed(i, rows)};
      run(c, values, 2);
    }
  }
  if (work == CHANGE_AND_LIST)
    execute("WATCH list SELECT a.k, a.v FROM t a WHERE a.v < 0");
}

int main(int count, char **words) {
  int number = count < 4 ? WORKS : atoi(words[1]);
  if (number < 0 || number >= WORKS)
    return 2;
  enum work work = (enum work)number;
  int64_t rows = atoll(words[2]), calls = atoll(words[3]), read = 0;
  bool in_transaction = count > 4;
  must(mmdb_open(&db) == MMDB_DONE);
  set_up(work, rows);
  size_t statement = prepared(lines[work]), list = work == CHANGE_AND_LIST ? prepared("SHOW list") : 0;
  double before = processor_seconds();
  if (in_transaction)
    execute("BEGIN");
  for (int64_t i = 0; i < calls; i++) {
    int64_t values[MOST_PARAMETERS];
    parameters(work, i, rows, values);
    read += run(statement, values, work_parameters[work]);
    if (work == CHANGE_AND_LIST)
      read += run(list, NULL, 0);
  }
  if (in_transaction)
    execute("COMMIT");
  printf("%.1f %lld\n", 1e9 * (processor_seconds() - before) / (double)(calls ? calls : 1), (long long)read);
  mmdb_close(&db);
  return 0;
}
