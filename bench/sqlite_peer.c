/* SQLite as bench/all measures it. Reads statements from standard input, one per line, and writes and flushes a reply to each.

     sqlite_peer prepared   keeps a prepared statement for each form of line, and binds the literals of the line to it
     sqlite_peer parsed     prepares each line again
     sqlite_peer version    writes the version of SQLite, and reads nothing

   Tables are in memory, and foreign keys are enforced. Rows and counts have the format of mmdb. A line is always prepared again if it has more
   literals than MOST_LITERALS, such as an INSERT of many rows, or a doubled quote in a text. */
#define _GNU_SOURCE
#include <ctype.h>
#include <sqlite3.h>
#include <stdbool.h>
#include <stdio.h>
#include <stdlib.h>
#include <string.h>

#define MOST_LITERALS 32
#define MOST_KEPT 64

/* A literal of a line: a number, or the bytes of a text. */
struct literal {
  const char *text; /* 0 for a number */
  int length;
  sqlite3_int64 number;
};

/* A line with a question mark in place of each literal, and its statement. */
struct kept {
  char *form;
  size_t length;
  sqlite3_stmt *statement;
};

static sqlite3 *database;
static struct kept kept[MOST_KEPT];
static int number_kept;

static void put(const char *bytes, size_t length) { fwrite_unlocked(bytes, 1, length, stdout); }

static void put_number(sqlite3_int64 number) {
  char digits[24];
  int start = sizeof digits;
  unsigned long long left = number < 0 ? 0 - (unsigned long long)number : (unsigned long long)number;
  do digits[--start] = '0' + left % 10;
  while (left /= 10);
  if (number < 0) digits[--start] = '-';
  put(digits + start, sizeof digits - start);
}

static void put_text(const char *text) {
  putchar_unlocked('\'');
  for (; *text; text++) {
    if (*text == '\'') putchar_unlocked('\'');
    putchar_unlocked(*text);
  }
  putchar_unlocked('\'');
}

static void put_row(sqlite3_stmt *statement, int columns) {
  putchar_unlocked('(');
  for (int column = 0; column < columns; column++) {
    if (column) put(", ", 2);
    if (sqlite3_column_type(statement, column) == SQLITE_INTEGER) put_number(sqlite3_column_int64(statement, column));
    else put_text((const char *)sqlite3_column_text(statement, column));
  }
  put(")\n", 2);
}

static void put_counted(const char *word, sqlite3_int64 count) {
  put(word, strlen(word));
  put_number(count);
  putchar_unlocked('\n');
}

/* Finds the literals of a line and writes the form of the line. Returns their number, or -1 if the line must be prepared again. */
static int find_literals(char *line, char *form, size_t *length, struct literal *literals) {
  int count = 0;
  char *to = form, before = ' ';
  while (*line) {
    bool is_text = *line == '\'';
    if (!is_text && !(isdigit((unsigned char)*line) && !isalnum((unsigned char)before) && before != '_')) {
      before = *to++ = *line++;
      continue;
    }
    if (count == MOST_LITERALS) return -1;
    struct literal *literal = &literals[count++];
    if (is_text) {
      literal->text = ++line;
      while (*line && *line != '\'') line++;
      if (!*line || line[1] == '\'') return -1;
      literal->length = line++ - literal->text;
    } else {
      literal->text = 0;
      literal->number = strtoll(line, &line, 10);
    }
    before = *to++ = '?';
  }
  *length = to - form;
  return count;
}

static sqlite3_stmt *kept_statement(const char *form, size_t length) {
  for (int place = 0; place < number_kept; place++)
    if (kept[place].length == length && !memcmp(kept[place].form, form, length)) return kept[place].statement;
  sqlite3_stmt *statement;
  if (number_kept == MOST_KEPT || sqlite3_prepare_v3(database, form, length, SQLITE_PREPARE_PERSISTENT, &statement, 0) != SQLITE_OK) return 0;
  kept[number_kept++] = (struct kept){strndup(form, length), length, statement};
  return statement;
}

static sqlite3_stmt *bound_statement(char *line, char *form) {
  struct literal literals[MOST_LITERALS];
  size_t length;
  int count = find_literals(line, form, &length, literals);
  sqlite3_stmt *statement = count < 0 ? 0 : kept_statement(form, length);
  for (int place = 0; statement && place < count; place++) {
    struct literal *literal = &literals[place];
    if (literal->text) sqlite3_bind_text(statement, place + 1, literal->text, literal->length, SQLITE_STATIC);
    else sqlite3_bind_int64(statement, place + 1, literal->number);
  }
  return statement;
}

static void answer(const char *line, sqlite3_stmt *statement) {
  int columns = sqlite3_column_count(statement), status;
  sqlite3_int64 rows = 0;
  for (; (status = sqlite3_step(statement)) == SQLITE_ROW; rows++) put_row(statement, columns);
  if (status != SQLITE_DONE) printf("error %s\n", sqlite3_errmsg(database));
  else if (columns) put_counted("rows ", rows);
  else if (strchr("IUD", *line) && strncmp(line, "DROP", 4)) put_counted("ok ", sqlite3_changes64(database));
  else put("ok\n", 3);
}

/* Returns whether a statement may be repeated with other literals: a change of rows or a query, not a definition. */
static bool is_kept(const char *line) { return strncmp(line, "CREATE", 6) && strncmp(line, "DROP", 4) && strncmp(line, "ANALYZE", 7); }

int main(int arguments, char **words) {
  if (arguments != 2) return 2;
  if (!strcmp(words[1], "version")) return puts(sqlite3_libversion()) < 0;
  bool keeps = !strcmp(words[1], "prepared");
  if (sqlite3_open(":memory:", &database) || sqlite3_exec(database, "PRAGMA foreign_keys = ON", 0, 0, 0)) return 1;
  static char buffer[1 << 16], form[1 << 13];
  setvbuf(stdout, buffer, _IOFBF, sizeof buffer);
  char *line = 0;
  size_t room = 0;
  for (ssize_t length; (length = getline(&line, &room, stdin)) > 0; fflush_unlocked(stdout)) {
    if (line[length - 1] == '\n') line[--length] = 0;
    sqlite3_stmt *statement = 0, *own = 0;
    if (keeps && length < 1024 && is_kept(line)) statement = bound_statement(line, form);
    if (!statement && sqlite3_prepare_v2(database, line, length + 1, &own, 0) != SQLITE_OK) {
      printf("error %s\n", sqlite3_errmsg(database));
      continue;
    }
    answer(line, statement ? statement : own);
    if (statement) sqlite3_reset(statement);
    sqlite3_finalize(own);
  }
  return 0;
}
