/* Behaves like the program mmdb, but through the library. Reads commands from standard input, one per line, and writes the reply to each line before it reads
   the next one.

     script [--statements]

   With --statements, each line that can be prepared runs as a prepared statement. Parameters replace its numbers and texts if the language allows them there.
   The statement is kept for the next line of the same form. Without --statements, each line is executed. Both ways must produce the same replies, byte for
   byte. Compiled with -DALWAYS_STATEMENTS, the program needs no argument, so tests can run it instead of mmdb.

   The program compares each reply with its status, its count and its rows. The exit status is 0 at the end of the input, and 2 if a device failed or no
   database could be opened. The status is 4, with a message on standard error, if the library broke its contract or a reply is too long for the buffer here.
   The input may have any length.

   Compiled with -DASKS_ABOUT_LINES, the program also compares each reply with the results of mmdb_columns and mmdb_place. These calls allocate memory that no
   reply needs, so tests with failing allocations compile it without.

   The program itself allocates nothing: its buffers are static, and it uses stdio only for the message on standard error. So each allocation is the
   library's. */
#include <errno.h>
#include <inttypes.h>
#include <mmdb.h>
#include <stdio.h>
#include <stdlib.h>
#include <string.h>
#include <unistd.h>

#ifndef ALWAYS_STATEMENTS
#define ALWAYS_STATEMENTS false
#endif
#ifndef ASKS_ABOUT_LINES
#define ASKS_ABOUT_LINES false
#endif

enum { LONGEST_LINE = 4096, MOST_VALUES = LONGEST_LINE / 2, MOST_COLUMNS = 16, LONGEST_REPLY = 1 << 25, MOST_KEPT = 48 };
enum { STATUS_OF_DEVICE = 2, STATUS_OF_FAULT = 4 };

/* A line of the input. A line that is too long is cut after its first excess bytes. */
struct line {
  uint8_t bytes[LONGEST_LINE + 2];
  size_t length;
};

/* A line with a question mark for each literal that can be a parameter, and these literals. */
struct form {
  uint8_t bytes[LONGEST_LINE];
  size_t length;
  mmdb_cell values[MOST_VALUES];
  size_t count;
};

/* A prepared line, and the number of its statement. */
struct kept {
  uint8_t bytes[LONGEST_LINE];
  size_t length;
  size_t statement;
};

static mmdb db = MMDB_CLOSED;
static struct line line;
static struct form form;
static struct kept kept[MOST_KEPT];
static size_t number_kept, next_to_replace;

static _Noreturn void end_with_fault(const char *what) {
  fprintf(stderr, "script: %s, after the line '%.*s'\n", what, (int)line.length, (const char *)line.bytes);
  exit(STATUS_OF_FAULT);
}

static void must(bool holds, const char *what) {
  if (!holds) end_with_fault(what);
}

/* Input and output. */

/* Returns the next byte of standard input, or -1 at its end. */
static int next_byte(void) {
  static uint8_t bytes[1 << 16];
  static ssize_t count, from;
  if (from == count) {
    do count = read(STDIN_FILENO, bytes, sizeof bytes);
    while (count < 0 && errno == EINTR);
    if (count < 0) exit(STATUS_OF_DEVICE);
    from = 0;
  }
  return count ? bytes[from++] : -1;
}

/* Reads a line without its line feed and one carriage return before it. Returns whether there was a line. */
static bool read_line(void) {
  int byte = next_byte();
  if (byte < 0) return false;
  line.length = 0;
  for (; byte >= 0 && byte != '\n'; byte = next_byte())
    if (line.length < sizeof line.bytes) line.bytes[line.length++] = (uint8_t)byte;
  line.length -= line.length && line.bytes[line.length - 1] == '\r';
  return true;
}

static void write_all(const uint8_t *bytes, size_t length) {
  while (length) {
    ssize_t written = write(STDOUT_FILENO, bytes, length);
    if (written < 0 && errno != EINTR) exit(STATUS_OF_DEVICE);
    if (written < 0) continue;
    bytes += written;
    length -= (size_t)written;
  }
}

/* Replies: their text, compared with their status, their count and their rows. */

/* The part of a reply's text that has not been compared yet. */
struct rest {
  const uint8_t *bytes;
  size_t length;
};

/* Consumes these bytes if the text continues with them, and returns whether it did. */
static bool goes_on(struct rest *rest, const void *bytes, size_t length) {
  if (rest->length < length || memcmp(rest->bytes, bytes, length)) return false;
  rest->bytes += length;
  rest->length -= length;
  return true;
}

static bool goes_on_with(struct rest *rest, const char *words) { return goes_on(rest, words, strlen(words)); }

static bool goes_on_with_count(struct rest *rest, const char *word) {
  char told[32];
  snprintf(told, sizeof told, "%s %zu\n", word, mmdb_count(&db));
  return goes_on_with(rest, told);
}

static bool goes_on_with_value(struct rest *rest, const mmdb_cell *value) {
  char told[32];
  snprintf(told, sizeof told, "%" PRId64, value->number);
  if (value->kind == MMDB_NUMBER) return goes_on_with(rest, told);
  bool holds = value->kind == MMDB_STRING && value->len <= MMDB_TEXT_BYTES && goes_on_with(rest, "'");
  for (size_t i = 0; holds && i < value->len; i++)
    holds = value->text[i] == '\'' ? goes_on_with(rest, "''") : goes_on(rest, &value->text[i], 1);
  return holds && goes_on_with(rest, "'");
}

static bool goes_on_with_row(struct rest *rest, const mmdb_cell *cells, size_t columns) {
  bool holds = goes_on_with(rest, "(");
  for (size_t i = 0; holds && i < columns; i++) holds = (i == 0 || goes_on_with(rest, ", ")) && goes_on_with_value(rest, &cells[i]);
  return holds && goes_on_with(rest, ")\n");
}

/* Returns whether the text continues with the rows of the reply, read one at a time. The number of columns is the least capacity that the first row
   requires. */
static bool goes_on_with_rows(struct rest *rest) {
  mmdb_cell cells[MOST_COLUMNS];
  size_t columns = 1, row = 0;
  while (columns < MOST_COLUMNS && !mmdb_read(&db, 0, cells, columns)) columns++;
  while (mmdb_read(&db, row, cells, columns) == 1 && goes_on_with_row(rest, cells, columns)) row++;
  return row == mmdb_count(&db);
}

/* Returns whether the text of a reply has the form that its status requires. */
static bool fits_status(uint8_t status, struct rest rest) {
  char told[32];
  switch (status) {
  case MMDB_NOTHING: return rest.length == 0;
  case MMDB_DONE: return goes_on_with(&rest, "ok\n") && rest.length == 0;
  case MMDB_COUNT: return goes_on_with_count(&rest, "ok") && rest.length == 0;
  case MMDB_ROWS: return goes_on_with_rows(&rest) && goes_on_with_count(&rest, "rows") && rest.length == 0;
  case MMDB_TEXT: return rest.length && rest.bytes[rest.length - 1] == '\n' && mmdb_count(&db) == 0;
  case MMDB_MISUSE: return false;
  default: snprintf(told, sizeof told, "error %u ", status); return goes_on_with(&rest, told) && mmdb_count(&db) == 0;
  }
}

/* Writes the reply, or error 90 if the allocation for its text fails. Error 90 is correct for a query and a refused line, which change nothing. All other
   replies are short, and must not fail. */
static void write_reply(uint8_t status) {
  static const char memory[] = "error 90 memory\n";
  static uint8_t text[LONGEST_REPLY];
  size_t length;
  uint8_t told = status == MMDB_MEMORY ? MMDB_MEMORY : mmdb_text(&db, text, sizeof text, &length);
  if (told == MMDB_MEMORY) {
    must(status == MMDB_ROWS || status == MMDB_TEXT || status >= MMDB_LINE_TOO_LONG, "an allocation for a short reply failed");
    write_all((const uint8_t *)memory, sizeof memory - 1);
    return;
  }
  must(told == MMDB_DONE && length <= sizeof text, "a reply is too long");
  must(fits_status(status, (struct rest){text, length}), "the reply does not match its status");
  write_all(text, length);
}

/* Returns whether the line's columns match the rows of its reply in number and kinds. */
static bool are_columns_of_rows(const mmdb_column *columns, size_t count) {
  mmdb_cell cells[MOST_COLUMNS];
  size_t rows = mmdb_count(&db);
  bool holds = count > 0 && count <= MOST_COLUMNS && mmdb_read(&db, 0, cells, count - 1) == 0;
  for (size_t row = 0; holds && row < rows; row++) {
    holds = mmdb_read(&db, row, cells, count) == 1;
    for (size_t i = 0; holds && i < count; i++) holds = cells[i].kind == columns[i].type;
  }
  return holds;
}

/* Compares the line's columns and place with its reply. The reply must not change. */
static void ask_about_line(uint8_t status) {
  mmdb_column columns[MOST_COLUMNS];
  size_t count = 0;
  must(mmdb_place(&db, line.bytes, line.length, status) <= (status < MMDB_LINE_TOO_LONG ? 0 : line.length), "a place is beyond the line");
  if (status >= MMDB_LINE_TOO_LONG) return;
  must(mmdb_columns(&db, line.bytes, line.length, columns, MOST_COLUMNS, &count) == MMDB_DONE, "mmdb_columns failed for a line that was executed");
  must(status == MMDB_ROWS ? are_columns_of_rows(columns, count) : count == 0, "the columns do not match the rows");
}

/* Forms of lines. */

/* The kind of token before a literal, which decides whether the literal can be a parameter. */
enum before { NAME, BEFORE_A_LITERAL, MINUS_OF_A_NUMBER, SIGN_OF_A_SHIFT, ELSE };

/* The state of scanning a line. */
struct look {
  size_t at;
  enum before before;
  bool has_holes; /* a literal can be a parameter here: in a change of rows or a query, before ORDER */
  bool is_first;  /* no token was found yet */
};

static bool is_word(uint8_t byte) {
  return (byte >= '0' && byte <= '9') || (byte >= 'a' && byte <= 'z') || (byte >= 'A' && byte <= 'Z') || byte == '_';
}

/* Converts digits to a number, and returns whether it fits into 64 bits. Sums are negative, since the least number has no positive counterpart. */
static bool read_number(const uint8_t *digits, size_t count, bool is_negative, int64_t *number) {
  int64_t sum = 0;
  for (size_t i = 0; i < count; i++)
    if (__builtin_mul_overflow(sum, 10, &sum) || __builtin_sub_overflow(sum, digits[i] - '0', &sum)) return false;
  return is_negative ? (*number = sum, true) : !__builtin_sub_overflow((int64_t)0, sum, number);
}

static bool are_digits(const uint8_t *bytes, size_t length) {
  for (size_t i = 0; i < length; i++)
    if (bytes[i] < '0' || bytes[i] > '9') return false;
  return true;
}

static void copy(const uint8_t *bytes, size_t length) {
  memcpy(form.bytes + form.length, bytes, length);
  form.length += length;
}

static mmdb_cell *add_hole(void) {
  mmdb_cell *value = &form.values[form.count++];
  form.bytes[form.length++] = '?';
  return value;
}

/* Replaces digits, and a minus that is part of the number, with a parameter. Copies the digits if no parameter is allowed. */
static void add_digits(struct look *look, const uint8_t *digits, size_t count) {
  bool is_negative = look->before == MINUS_OF_A_NUMBER && form.bytes[form.length - 1] == '-';
  bool fits = is_negative || look->before == BEFORE_A_LITERAL || look->before == SIGN_OF_A_SHIFT;
  int64_t number;
  if (!look->has_holes || !fits || !read_number(digits, count, is_negative, &number)) {
    copy(digits, count);
    return;
  }
  form.length -= is_negative;
  *add_hole() = (mmdb_cell){.kind = MMDB_NUMBER, .number = number};
}

static void add_word(struct look *look, const uint8_t *word, size_t length) {
  static const char *const with_holes[] = {"INSERT", "UPDATE", "DELETE", "SELECT", "EXPLAIN"};
  if (are_digits(word, length)) add_digits(look, word, length);
  else copy(word, length);
  for (size_t i = 0; look->is_first && i < sizeof with_holes / sizeof *with_holes; i++)
    if (length == strlen(with_holes[i]) && !memcmp(word, with_holes[i], length)) look->has_holes = true;
  if (length == 5 && !memcmp(word, "ORDER", length)) look->has_holes = false;
  look->before = word[0] >= 'a' && word[0] <= 'z' ? NAME : ELSE;
  look->is_first = false;
}

/* Replaces a text with a parameter, or copies it if no parameter is allowed. Returns whether the text is closed. */
static bool add_text(struct look *look) {
  mmdb_cell value = {.kind = MMDB_STRING};
  size_t start = look->at, length = 0;
  for (look->at++;; look->at++) {
    if (look->at == line.length) return false;
    if (line.bytes[look->at] == '\'' && (++look->at == line.length || line.bytes[look->at] != '\'')) break;
    if (length < MMDB_TEXT_BYTES) value.text[length] = line.bytes[look->at];
    length++;
  }
  bool fits = look->before == BEFORE_A_LITERAL || look->before == SIGN_OF_A_SHIFT;
  value.len = (uint8_t)length;
  if (look->has_holes && fits && length <= MMDB_TEXT_BYTES) *add_hole() = value;
  else copy(line.bytes + start, look->at - start);
  look->before = ELSE;
  look->is_first = false;
  return true;
}

/* Copies a symbol, or a byte outside all tokens. */
static void add_symbol(struct look *look) {
  uint8_t byte = line.bytes[look->at++];
  copy(&byte, 1);
  if (byte == ' ' || byte == '\t') return;
  if (byte && strchr("(,=<>", byte)) look->before = BEFORE_A_LITERAL;
  else if (look->before == NAME && (byte == '+' || byte == '-')) look->before = SIGN_OF_A_SHIFT;
  else look->before = look->before == BEFORE_A_LITERAL && byte == '-' ? MINUS_OF_A_NUMBER : ELSE;
  look->is_first = false;
}

/* Computes the form of the line, and returns whether it has one. A line has none if it is too long, or has a question mark or an unclosed text. */
static bool make_form(void) {
  struct look look = {.at = 0, .before = ELSE, .has_holes = false, .is_first = true};
  form.length = form.count = 0;
  if (line.length > LONGEST_LINE) return false;
  if (line.length >= 2 && !memcmp(line.bytes, "--", 2)) {
    copy(line.bytes, line.length);
    return true;
  }
  while (look.at < line.length) {
    uint8_t byte = line.bytes[look.at];
    size_t end = look.at;
    while (end < line.length && is_word(line.bytes[end])) end++;
    if (byte == '?') return false;
    if (end > look.at) {
      add_word(&look, line.bytes + look.at, end - look.at);
      look.at = end;
    } else if (byte != '\'') {
      add_symbol(&look);
    } else if (!add_text(&look)) {
      return false;
    }
  }
  return true;
}

/* Statements. */

/* Returns a slot for a statement. If all slots are in use, deletes the oldest statement. */
static struct kept *place_for_one_more(void) {
  if (number_kept < MOST_KEPT) return &kept[number_kept++];
  struct kept *place = &kept[next_to_replace++ % MOST_KEPT];
  must(mmdb_finalize(&db, place->statement) == MMDB_DONE, "a kept statement does not exist");
  return place;
}

/* Returns the statement of the form, prepared now or before, or NULL if the form cannot be prepared. */
static const struct kept *statement_of_form(void) {
  for (size_t i = 0; i < number_kept; i++)
    if (kept[i].length == form.length && !memcmp(kept[i].bytes, form.bytes, form.length)) return &kept[i];
  size_t statement, parameters;
  if (mmdb_prepare(&db, form.bytes, form.length, &statement) != MMDB_DONE) return NULL;
  must(mmdb_parameters(&db, statement, &parameters) == MMDB_DONE && parameters == form.count, "a statement has another number of parameters");
  struct kept *place = place_for_one_more();
  place->statement = statement;
  place->length = form.length;
  memcpy(place->bytes, form.bytes, form.length);
  return place;
}

static void answer(bool by_statements) {
  const struct kept *found = by_statements && make_form() ? statement_of_form() : NULL;
  uint8_t status = found ? mmdb_run(&db, found->statement, form.values, form.count) : mmdb_execute(&db, line.bytes, line.length);
  if (ASKS_ABOUT_LINES) ask_about_line(status);
  write_reply(status);
}

/* Opens the database, and makes it allocate its buffer for the text of short replies. Returns whether both succeeded. */
static bool open_with_room(void) {
  uint8_t none;
  size_t length;
  return mmdb_open(&db) == MMDB_DONE && mmdb_execute(&db, (const uint8_t *)"SHOW w", 6) == MMDB_NO_SUCH_STANDING_QUERY &&
         mmdb_text(&db, &none, 0, &length) == MMDB_DONE;
}

int main(int count, char **words) {
  bool by_statements = ALWAYS_STATEMENTS || (count > 1 && !strcmp(words[1], "--statements"));
  if (!open_with_room()) return STATUS_OF_DEVICE;
  while (read_line()) answer(by_statements);
  mmdb_close(&db);
  return 0;
}
