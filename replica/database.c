#include "database.h"
#include "entry.h"
#include "script.h"
#include <inttypes.h>
#include <stdio.h>
#include <stdlib.h>
#include <string.h>

/* A reply to a command that changes something is shorter than this. */
enum { MOST_REPLY_BYTES = 128 };

enum { MOST_COLUMNS = 64 };

/* The room for a piece of a dump, unless memory is short. Each call walks over the rows of earlier pieces, so large pieces are faster. */
enum { PIECE_BYTES = (8 << 20) - 1 };

/* How many rows of a large table an index is expected to find for a value, and for a range. */
enum { EQUAL_ROWS = 1000, RANGE_ROWS = 100000 };

static const uint8_t rollback_line[] = "ROLLBACK";

/* The place in the log. */

static bool start_of_chain(struct digester *digester, const char *identity, struct digest *chain) {
  char text[64];
  int length = snprintf(text, sizeof text, "mmdb log %d %s", LOG_FORMAT, identity);
  digester_begin(digester);
  digester_add(digester, text, (size_t)length);
  return digester_end(digester, chain);
}

bool chain_on(struct digester *digester, const struct digest *before, const struct message *message, struct digest *after) {
  char text[DIGEST_TEXT_BYTES];
  write_digest(text, before);
  digester_begin(digester);
  digester_add(digester, text, DIGEST_DIGITS);
  digester_add(digester, "\n", 1);
  if (message->format) digester_add(digester, message->format, strlen(message->format));
  digester_add(digester, "\n", 1);
  if (message->checked) digester_add(digester, message->checked, strlen(message->checked));
  digester_add(digester, "\n", 1);
  digester_add(digester, message->body.at, message->body.length);
  return digester_end(digester, after);
}

const struct digest *database_chain_at(const struct database *database, uint64_t number) {
  bool is_kept = number <= database->applied && number >= database->chains_from && database->applied - number < CHAINS;
  return is_kept ? &database->chains[number % CHAINS] : NULL;
}

static void move_on(struct database *database, uint64_t number, const struct digest *chain) {
  database->before = database->chain;
  database->chain = *chain;
  database->applied = number;
  database->chains[number % CHAINS] = *chain;
  database->progress = (struct progress){.entries = 0};
}

void database_set_place(struct database *database, uint64_t number, const struct digest *before, const struct digest *chain) {
  database->chain = *before;
  move_on(database, number, chain);
  database->chains_from = number;
}

bool read_checked(const char *checked, uint64_t *number, struct digest *chain) {
  if (!checked) return false;
  struct text rest = {(const uint8_t *)checked, strlen(checked)};
  bool has_number = take_number(&rest, number);
  return has_number && rest.length == 1 + DIGEST_DIGITS && rest.at[0] == ' ' && read_digest((const char *)rest.at + 1, chain);
}

/* Opening and closing. */

bool database_open(struct database *database, const char *identity) {
  *database = (struct database){.db = MMDB_CLOSED, .chains = calloc(CHAINS, sizeof *database->chains)};
  bool is_open = database->chains && digester_open(&database->digester) && bytes_reserve(&database->replies, MOST_REPLY_BYTES) &&
                 recents_open(&database->recents) && mmdb_open(&database->db) == MMDB_DONE &&
                 mmdb_prepare(&database->db, rollback_line, sizeof rollback_line - 1, &database->rollback) == MMDB_DONE &&
                 start_of_chain(&database->digester, identity, &database->chain);
  if (is_open) {
    database->before = database->chains[0] = database->chain;
    return true;
  }
  database_close(database);
  return false;
}

void database_close(struct database *database) {
  mmdb_close(&database->db);
  recents_close(&database->recents);
  digester_close(&database->digester);
  bytes_free(&database->replies);
  free(database->chains);
  database->chains = NULL;
}

size_t database_part(const struct database *database) { return database->progress.entries + database->progress.has_run; }

bool database_is_between(const struct database *database) { return database_part(database) > 0; }

/* Scripts. */

/* Appends the reply that the handle keeps to text, if it has at most most bytes. Returns false if an allocation fails. */
static bool add_text(mmdb *db, struct bytes *text, size_t most) {
  size_t length = 0;
  do {
    if (!bytes_reserve(text, length)) return false;
    if (mmdb_text(db, text->at + text->length, text->room - text->length, &length) != MMDB_DONE) return false;
  } while (length <= most && length > text->room - text->length);
  if (length > most) return true;
  text->length += length;
  return true;
}

/* Appends the reply to a change, for which there is room: what is done is never left without a reply. */
static void add_reply(struct database *database, uint8_t status) {
  struct bytes *replies = &database->replies;
  if (status == MMDB_DONE) bytes_print(replies, "ok\n");
  else if (status == MMDB_COUNT) bytes_print(replies, "ok %zu\n", mmdb_count(&database->db));
  else add_refusal(replies, status);
}

/* Takes back the transaction that is open, if any. */
static bool roll_back(struct database *database) {
  return !mmdb_in_transaction(&database->db) || mmdb_run(&database->db, database->rollback, NULL, 0) == MMDB_DONE;
}

/* Runs a line of a script. Returns the status of its reply; MMDB_NOTHING for a comment; or MMDB_MEMORY, and then nothing changed. */
static uint8_t run_line(struct database *database, struct text line, uint8_t *kind) {
  mmdb *db = &database->db;
  size_t statement;
  if (!bytes_reserve(&database->replies, MOST_REPLY_BYTES)) return MMDB_MEMORY;
  if (mmdb_prepare(db, line.at, line.length, &statement) != MMDB_DONE) return MMDB_MEMORY;
  bool is_known = mmdb_statement_kind(db, statement, kind) == MMDB_DONE;
  uint8_t status = is_known ? mmdb_run(db, statement, NULL, 0) : MMDB_MEMORY;
  mmdb_finalize(db, statement);
  if (status == MMDB_MISUSE) return MMDB_MEMORY;
  if (status != MMDB_MEMORY && status != MMDB_NOTHING) add_reply(database, status);
  return status;
}

/* Runs the lines of a script up to the first that fails, which takes the script back. */
static enum applied run_script(struct database *database, const struct entry *entry, enum outcome *outcome) {
  struct text script = entry->script, line;
  *outcome = OUTCOME_DONE;
  while (*outcome == OUTCOME_DONE && next_line(&script, &line)) {
    uint8_t kind = MMDB_KIND_NOTHING, status = run_line(database, line, &kind);
    if (status == MMDB_MEMORY) return roll_back(database) ? APPLY_MEMORY : APPLY_BROKEN;
    bool has_to_match = (entry->flags & FLAG_ROWS) && (kind == MMDB_KIND_UPDATE || kind == MMDB_KIND_DELETE);
    if (status >= MMDB_LINE_TOO_LONG) *outcome = OUTCOME_REFUSED;
    else if (has_to_match && !mmdb_count(&database->db)) *outcome = OUTCOME_UNMET;
  }
  return roll_back(database) ? APPLIED : APPLY_BROKEN;
}

bool database_digest(struct database *database, struct text script, unsigned flags, struct digest *digest) {
  uint8_t byte = (uint8_t)flags;
  digester_begin(&database->digester);
  digester_add(&database->digester, &byte, 1);
  digester_add(&database->digester, script.at, script.length);
  return digester_end(&database->digester, digest);
}

/* Runs the script of an entry whose id is new. */
static enum applied run_entry(struct database *database, const struct entry *entry) {
  struct progress *progress = &database->progress;
  database->replies.length = 0;
  enum verdict verdict = check_script(&database->db, entry->script, &database->replies);
  if (verdict == VERDICT_MEMORY) return APPLY_MEMORY;
  progress->outcome = OUTCOME_INVALID;
  enum applied applied = verdict == VERDICT_GOOD ? run_script(database, entry, &progress->outcome) : APPLIED;
  progress->has_run = applied == APPLIED;
  return applied;
}

static enum applied apply_entry(struct database *database, uint64_t number, uint64_t checked, const struct entry *entry) {
  struct progress *progress = &database->progress;
  uint64_t since = entry->since < checked ? entry->since : checked;
  if (!progress->has_run) {
    if (since < progress->forgotten || recents_find(&database->recents, entry->id)) return APPLIED;
    enum applied applied = run_entry(database, entry);
    if (applied != APPLIED) return applied;
  }
  struct recent recent = {.id = entry->id, .sequence = number, .outcome = progress->outcome};
  recent.replies = (struct text){database->replies.at, database->replies.length};
  if (!database_digest(database, entry->script, entry->flags, &recent.digest) || !recents_add(&database->recents, recent))
    return APPLY_MEMORY;
  progress->has_run = false;
  return APPLIED;
}

/* Whether the headers and the body are those of a message of this format. */
static bool is_well_formed(const struct message *message, uint64_t *checked) {
  struct digest chain;
  char format[8];
  snprintf(format, sizeof format, "%d", LOG_FORMAT);
  bool has_headers = message->format && !strcmp(message->format, format) && read_checked(message->checked, checked, &chain);
  return has_headers && *checked < message->number && is_body(message->body);
}

static bool is_newer(const struct message *message) {
  uint64_t format;
  if (!message->format) return false;
  struct text rest = {(const uint8_t *)message->format, strlen(message->format)};
  return take_number(&rest, &format) && !rest.length && format > LOG_FORMAT;
}

enum applied database_apply(struct database *database, const struct message *message) {
  struct digest chain;
  struct entry entry;
  uint64_t checked;
  struct text rest = message->body;
  if (is_newer(message)) return database_is_between(database) ? APPLY_OTHER : APPLY_NEWER;
  if (!chain_on(&database->digester, &database->chain, message, &chain)) return APPLY_MEMORY;
  if (database_is_between(database) && !is_same_digest(&chain, &database->progress.chain)) return APPLY_OTHER;
  if (!database_is_between(database)) database->progress = (struct progress){.forgotten = database->recents.forgotten, .chain = chain};
  if (is_well_formed(message, &checked)) {
    for (size_t i = 0; next_entry(&rest, &entry); i++) {
      if (i < database->progress.entries) continue;
      enum applied applied = apply_entry(database, message->number, checked, &entry);
      if (applied != APPLIED) return applied;
      database->progress.entries++;
    }
  }
  move_on(database, message->number, &chain);
  return APPLIED;
}

/* Questions. */

/* Writes the columns of a statement to an empty text, as "name INT, name TEXT", or nothing if it has none or if they do not fit. */
static void write_columns(mmdb *db, size_t statement, char text[COLUMNS_BYTES]) {
  mmdb_column columns[MOST_COLUMNS];
  size_t count = 0, length = 0;
  if (mmdb_statement_columns(db, statement, columns, MOST_COLUMNS, &count) != MMDB_DONE || count > MOST_COLUMNS) return;
  for (size_t i = 0; i < count; i++) {
    const char *type = columns[i].type == MMDB_NUMBER ? "INT" : "TEXT", *comma = i ? ", " : "";
    int more =
        snprintf(text + length, COLUMNS_BYTES - length, "%s%.*s %s", comma, (int)columns[i].len, (const char *)columns[i].name, type);
    length += more < 0 ? COLUMNS_BYTES : (size_t)more;
    if (length >= COLUMNS_BYTES) text[0] = 0;
    if (!text[0]) return;
  }
}

/* Refuses a line that has no reading, or that has a hole, as the program does. */
static enum answer refuse_line(struct database *database, uint8_t status) {
  if (status == MMDB_MEMORY || status == MMDB_MISUSE) return ANSWER_MEMORY;
  return add_refusal(&database->replies, status) ? ANSWER_REFUSED : ANSWER_MEMORY;
}

/* Puts the whole reply of a line that asks into text, which is emptied first. Returns false if it is refused. */
static bool read_reply(struct database *database, const char *line, struct bytes *text) {
  text->length = 0;
  uint8_t status = mmdb_execute(&database->db, (const uint8_t *)line, strlen(line));
  return status < MMDB_LINE_TOO_LONG && add_text(&database->db, text, SIZE_MAX);
}

/* Reads the number of rows in a line of TABLES: 0 in one of an index. */
static uint64_t rows_of_line(struct text line) {
  static const char word[] = " rows ";
  size_t start = line.length;
  uint64_t rows;
  while (start && line.at[start - 1] >= '0' && line.at[start - 1] <= '9') start--;
  struct text digits = {line.at + start, line.length - start};
  bool is_count = start >= sizeof word - 1 && !memcmp(line.at + start - (sizeof word - 1), word, sizeof word - 1);
  return is_count && take_number(&digits, &rows) ? rows : 0;
}

uint64_t database_largest(struct database *database) {
  struct bytes tables = {NULL, 0, 0};
  struct text line;
  if (database->has_largest && database->largest_at == database->applied) return database->largest;
  database->has_largest = read_reply(database, "TABLES", &tables);
  database->largest_at = database->applied;
  database->largest = 0;
  for (struct text rest = {tables.at, tables.length}; next_line(&rest, &line);) {
    uint64_t rows = rows_of_line(line);
    if (rows > database->largest) database->largest = rows;
  }
  bytes_free(&tables);
  return database->has_largest ? database->largest : UINT64_MAX;
}

static bool has_end(struct text line, const char *end) {
  size_t length = strlen(end);
  return line.length >= length && !memcmp(line.at + line.length - length, end, length);
}

static uint64_t add(uint64_t left, uint64_t right) { return left > UINT64_MAX - right ? UINT64_MAX : left + right; }

static uint64_t multiply(uint64_t left, uint64_t right) { return right && left > UINT64_MAX / right ? UINT64_MAX : left * right; }

static uint64_t lesser(uint64_t left, uint64_t right) { return left < right ? left : right; }

/* Returns how many rows a step of a plan reads for each combination of rows before it. */
static uint64_t rows_of_step(struct text line, uint64_t largest) {
  struct text method = word_of_line(line, 1), how = word_of_line(line, 2);
  if (is_word(method, "precomputed") || has_end(line, " #key =") || has_end(line, " #key")) return 1;
  if (has_end(line, " range")) return lesser(largest, RANGE_ROWS);
  bool is_equality = is_word(method, "hash") || is_word(method, "tree") || is_word(how, "hash");
  return is_equality ? lesser(largest, EQUAL_ROWS) : largest;
}

uint64_t reads_of_plan(struct text plan, uint64_t largest) {
  uint64_t combinations = 1, reads = 0;
  struct text line;
  while (next_line(&plan, &line) && !is_word(word_of_line(line, 0), "steps")) {
    bool reads_all = is_word(word_of_line(line, 2), "merge") || is_word(word_of_line(line, 1), "built");
    combinations = multiply(combinations, rows_of_step(line, largest));
    reads = add(reads, add(combinations, reads_all ? largest : 0));
  }
  return reads;
}

/* Returns about how many rows a question will read. */
static uint64_t expected_reads(struct database *database, size_t statement) {
  struct bytes *plan = &database->replies;
  uint8_t kind;
  if (mmdb_statement_kind(&database->db, statement, &kind) != MMDB_DONE || kind == MMDB_KIND_EXPLAIN || kind == MMDB_KIND_TABLES) return 0;
  if (kind != MMDB_KIND_SELECT) return database_largest(database);
  uint64_t largest = database_largest(database);
  uint8_t status = mmdb_explain(&database->db, statement, NULL, 0);
  bool has_plan = status == MMDB_TEXT && add_text(&database->db, plan, SIZE_MAX);
  uint64_t reads = has_plan ? reads_of_plan((struct text){plan->at, plan->length}, largest) : 0;
  plan->length = 0;
  /* A question that EXPLAIN refuses is refused when it runs, before it reads. */
  return status == MMDB_TEXT && !has_plan ? UINT64_MAX : reads;
}

enum answer database_ask(struct database *database, struct text line, const struct limits *limits, char columns[COLUMNS_BYTES]) {
  struct bytes *reply = &database->replies;
  mmdb *db = &database->db;
  size_t statement, holes;
  bytes_trim(reply);
  reply->length = 0;
  columns[0] = 0;
  uint8_t status = mmdb_prepare(db, line.at, line.length, &statement);
  if (status != MMDB_DONE) return refuse_line(database, status);
  write_columns(db, statement, columns);
  bool has_holes = mmdb_parameters(db, statement, &holes) != MMDB_DONE || holes;
  bool is_long = !has_holes && limits->reads != ANY_READS && expected_reads(database, statement) > limits->reads;
  status = has_holes || is_long ? MMDB_SYNTAX : mmdb_run(db, statement, NULL, 0);
  mmdb_finalize(db, statement);
  if (is_long) return ANSWER_LONG;
  if (has_holes) return refuse_line(database, status);
  if (status == MMDB_MEMORY || status == MMDB_MISUSE || !add_text(db, reply, limits->bytes)) return ANSWER_MEMORY;
  if (!reply->length) return ANSWER_TOO_LARGE;
  return status < MMDB_LINE_TOO_LONG ? ANSWER_DONE : ANSWER_REFUSED;
}

/* Snapshots. */

bool database_dump(struct database *database, mmdb_dump_place *place, struct bytes *piece) {
  piece->length = 0;
  bool has_room = bytes_reserve(piece, PIECE_BYTES) || bytes_reserve(piece, MMDB_DUMP_ROOM);
  return has_room && mmdb_dump(&database->db, place, piece->at, piece->room, &piece->length) == MMDB_DONE;
}

bool database_restore(struct database *database, struct text line, struct bytes *watches) {
  uint8_t kind = MMDB_KIND_NOTHING;
  database->replies.length = 0;
  uint8_t status = run_line(database, line, &kind);
  bool is_done = (status == MMDB_DONE || status == MMDB_COUNT) && !mmdb_in_transaction(&database->db);
  return is_done && (kind != MMDB_KIND_WATCH || bytes_add(watches, line.at, line.length));
}

/* Sums. */

/* The place of a sum that covers the rows of all tables. */
#define ALL_TABLES SIZE_MAX

/* Adds the ids of messages past a number, which are the newest ones. */
static void sum_recents(struct database *database, uint64_t after, struct digester *sum) {
  size_t first = database->recents.count;
  while (first && recents_at(&database->recents, first - 1)->sequence > after) first--;
  for (size_t i = first; i < database->recents.count; i++) {
    const struct recent *recent = recents_at(&database->recents, i);
    uint64_t numbers[] = {recent->sequence, (uint64_t)recent->outcome, recent->replies.length};
    digester_add(sum, recent->id, strlen(recent->id) + 1);
    digester_add(sum, recent->digest.at, DIGEST_BYTES);
    digester_add(sum, numbers, sizeof numbers);
    digester_add(sum, recent->replies.at, recent->replies.length);
  }
}

/* Takes lines off the text of TABLES up to one of a table or standing query, and writes the question for its rows, or returns false. */
static bool next_list(struct text *tables, bool has_standing, char question[MOST_NAME_BYTES + 8]) {
  struct text line;
  while (next_line(tables, &line)) {
    struct text word = word_of_line(line, 0), name = word_of_line(line, 1);
    bool is_standing = is_word(word, "WATCH");
    if (!is_word(word, "TABLE") && !(is_standing && has_standing)) continue;
    snprintf(question, MOST_NAME_BYTES + 8, "%s %.*s", is_standing ? "SHOW" : "SCAN", (int)name.length, (const char *)name.at);
    return true;
  }
  return false;
}

static size_t count_lists(struct text tables, bool has_standing) {
  char question[MOST_NAME_BYTES + 8];
  size_t count = 0;
  while (next_list(&tables, has_standing, question)) count++;
  return count;
}

/* Adds TABLES, and the rows of all tables, or of the table or standing query at a place. */
static bool sum_rows(struct database *database, size_t place, struct digester *sum) {
  struct bytes tables = {NULL, 0, 0}, *rows = &database->replies;
  char question[MOST_NAME_BYTES + 8];
  bool is_part = place != ALL_TABLES, is_done = read_reply(database, "TABLES", &tables);
  struct text rest = {tables.at, tables.length};
  size_t count = count_lists(rest, is_part);
  digester_add(sum, tables.at, tables.length);
  for (size_t i = 0; is_done && next_list(&rest, is_part, question); i++) {
    if (is_part && place % count != i) continue;
    is_done = read_reply(database, question, rows);
    if (is_done) digester_add(sum, rows->at, rows->length);
  }
  bytes_free(&tables);
  bytes_trim(rows);
  return is_done && bytes_reserve(rows, MOST_REPLY_BYTES);
}

static bool sum_all(struct database *database, size_t place, uint64_t after, struct text watches, struct digest *sum) {
  struct digester *digester = &database->digester;
  uint64_t numbers[] = {database->applied, database->recents.forgotten};
  digester_begin(digester);
  digester_add(digester, numbers, sizeof numbers);
  digester_add(digester, database->chain.at, DIGEST_BYTES);
  bool is_done = sum_rows(database, place, digester);
  digester_add(digester, watches.at, watches.length);
  sum_recents(database, after, digester);
  return digester_end(digester, sum) && is_done;
}

bool database_sum(struct database *database, const struct bytes *watches, struct digest *sum) {
  return sum_all(database, ALL_TABLES, 0, (struct text){watches->at, watches->length}, sum);
}

bool database_sum_part(struct database *database, size_t place, uint64_t after, struct digest *sum) {
  return sum_all(database, place, after, (struct text){NULL, 0}, sum);
}
