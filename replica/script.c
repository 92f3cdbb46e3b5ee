#include "script.h"

/* The words of a refusal have fewer bytes than this. */
enum { MOST_WORDS_BYTES = 64 };

/* How far the lines of a script have come. */
enum place { BEFORE_ALL, AFTER_ONE_LINE, IN_TRANSACTION, AFTER_TRANSACTION };

struct reading read_line(mmdb *db, struct text line) {
  struct reading reading = {.kind = MMDB_KIND_NOTHING};
  size_t statement;
  reading.status = mmdb_prepare(db, line.at, line.length, &statement);
  if (reading.status != MMDB_DONE) return reading;
  bool is_done =
      mmdb_statement_kind(db, statement, &reading.kind) == MMDB_DONE && mmdb_parameters(db, statement, &reading.holes) == MMDB_DONE;
  is_done = mmdb_finalize(db, statement) == MMDB_DONE && is_done;
  if (!is_done) reading.status = MMDB_MISUSE;
  return reading;
}

bool is_definition(uint8_t kind) { return kind >= MMDB_KIND_TABLE && kind <= MMDB_KIND_UNWATCH; }

bool is_change(uint8_t kind) { return kind >= MMDB_KIND_INSERT && kind <= MMDB_KIND_DELETE; }

bool is_question(uint8_t kind) { return kind >= MMDB_KIND_SCAN && kind <= MMDB_KIND_TABLES; }

bool add_refusal(struct bytes *text, uint8_t status) {
  uint8_t words[MOST_WORDS_BYTES];
  size_t length = mmdb_words(status, words, sizeof words);
  if (length > sizeof words) length = sizeof words;
  return bytes_print(text, "error %u %.*s\n", status, (int)length, (const char *)words);
}

static enum verdict bad(struct bytes *why, size_t number, const char *what) {
  return bytes_print(why, "line %zu: %s\n", number, what) ? VERDICT_BAD : VERDICT_MEMORY;
}

static enum verdict refused(struct bytes *why, size_t number, uint8_t status) {
  if (status == MMDB_MEMORY || status == MMDB_MISUSE) return VERDICT_MEMORY;
  return bytes_print(why, "line %zu: ", number) && add_refusal(why, status) ? VERDICT_BAD : VERDICT_MEMORY;
}

/* Returns what is wrong with a line of a kind at a place, or NULL and the place after it. */
static const char *step(enum place *place, uint8_t kind) {
  bool is_inside = *place == IN_TRANSACTION;
  if (*place == AFTER_ONE_LINE) return "a script of several lines begins with BEGIN";
  if (*place == AFTER_TRANSACTION) return "a script ends with its COMMIT or ROLLBACK";
  if (is_question(kind)) return "a script asks no questions";
  if (is_definition(kind) && is_inside) return "a definition is a script of its own";
  if (is_definition(kind) || is_change(kind)) {
    if (!is_inside) *place = AFTER_ONE_LINE;
    return NULL;
  }
  if (kind == MMDB_KIND_BEGIN) {
    *place = IN_TRANSACTION;
    return is_inside ? "a transaction is open" : NULL;
  }
  if (kind == MMDB_KIND_COMMIT || kind == MMDB_KIND_ROLLBACK) *place = AFTER_TRANSACTION;
  return is_inside ? NULL : "no transaction is open";
}

enum verdict check_script(mmdb *db, struct text script, struct bytes *why) {
  struct text line;
  enum place place = BEFORE_ALL;
  if (script.length > MOST_SCRIPT_BYTES) return bad(why, 1, "a script has at most 524288 bytes");
  size_t number = 1;
  for (; next_line(&script, &line); number++) {
    struct reading reading = read_line(db, line);
    if (reading.status != MMDB_DONE) return refused(why, number, reading.status);
    if (reading.kind == MMDB_KIND_NOTHING) continue;
    /* In a script, a ? is a syntax error, but a statement may have one. */
    if (reading.holes) return refused(why, number, MMDB_SYNTAX);
    const char *wrong = step(&place, reading.kind);
    if (wrong) return bad(why, number, wrong);
  }
  if (place == BEFORE_ALL) return bad(why, number, "a script has a command");
  return place == IN_TRANSACTION ? bad(why, number, "a script that begins with BEGIN ends with COMMIT or ROLLBACK") : VERDICT_GOOD;
}

enum verdict check_question(mmdb *db, struct text question, struct bytes *why) {
  struct text line = {question.at, 0};
  next_line(&question, &line);
  struct reading reading = read_line(db, line);
  if (reading.status == MMDB_MEMORY || reading.status == MMDB_MISUSE) return VERDICT_MEMORY;
  bool is_other = reading.status == MMDB_DONE && !is_question(reading.kind);
  if (is_other) return bad(why, 1, "a question is SELECT, SHOW, SCAN, EXPLAIN SELECT or TABLES");
  return question.length ? bad(why, 2, "a question is one line") : VERDICT_GOOD;
}
