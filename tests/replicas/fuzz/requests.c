/*
 * What requests contain: scripts, questions, headers and sums. The first byte of an input says which.
 *
 * A script that is accepted leaves no transaction open, and a question that is accepted changes nothing.
 */
#include "connect.h"
#include "entry.h"
#include "harness.h"
#include "script.h"
#include "sums.h"

enum { MOST_TEXT = 512 };

static void fill(struct database *database) {
  static const char *const lines[] = {"TABLE t (id INT KEY, name TEXT)", "TABLE u (id INT KEY, t INT REF t)",
                                      "INSERT t (1, 'a'), (2, 'b')",     "INSERT u (1, 1)",
                                      "INDEX i ON t (name) TREE",        "WATCH w SELECT t.id FROM t t"};
  struct bytes watches = {NULL, 0, 0};
  for (size_t i = 0; i < sizeof lines / sizeof *lines; i++)
    MUST(database_restore(database, (struct text){(const uint8_t *)lines[i], strlen(lines[i])}, &watches));
  bytes_free(&watches);
}

static void check_scripts(struct database *database, struct text script) {
  struct bytes why = {NULL, 0, 0};
  if (check_script(&database->db, script, &why) == VERDICT_GOOD) {
    struct bytes body = {NULL, 0, 0};
    struct entry entry = {.id = "id", .since = 0, .flags = FLAG_ROWS, .script = script};
    struct message message = {.number = 1, .format = "2", .checked = "0 00000000000000000000000000000000"};
    MUST(add_entry(&body, &entry));
    message.body = (struct text){body.at, body.length};
    MUST(is_body(message.body) && database_apply(database, &message) == APPLIED);
    MUST(recents_find(&database->recents, "id") && recents_find(&database->recents, "id")->outcome != OUTCOME_INVALID);
    bytes_free(&body);
  }
  MUST(!mmdb_in_transaction(&database->db));
  bytes_free(&why);
}

static void check_questions(struct database *database, struct text question) {
  struct bytes why = {NULL, 0, 0};
  struct digest before, after;
  struct text line;
  char columns[COLUMNS_BYTES];
  if (check_question(&database->db, question, &why) == VERDICT_GOOD && next_line(&question, &line)) {
    MUST(snapshot_sum(database, &before));
    enum answer answer = database_ask(database, line, &(struct limits){1024 * 1024, 3}, columns);
    MUST(answer != ANSWER_MEMORY);
    if (answer == ANSWER_LONG) MUST(database_ask(database, line, &(struct limits){1024 * 1024, ANY_READS}, columns) < ANSWER_LONG);
    MUST(snapshot_sum(database, &after) && is_same_digest(&before, &after));
  }
  bytes_free(&why);
}

/* Headers, as libnats passes them on. */
static void check_headers(const char *text) {
  uint64_t number;
  struct digest chain;
  natsMsg *message = NULL;
  MUST(natsMsg_Create(&message, "s", NULL, text, (int)strlen(text)) == NATS_OK);
  if (natsMsgHeader_Set(message, AT_LEAST_HEADER, text) == NATS_OK && number_in_header(message, AT_LEAST_HEADER, &number)) {
    char again[24];
    snprintf(again, sizeof again, "%llu", (unsigned long long)number);
    MUST(strspn(text, "0123456789") == strlen(text) || !*text);
  }
  if (read_checked(text, &number, &chain)) MUST(strlen(text) >= 2 + DIGEST_DIGITS);
  if (is_id(text)) MUST(strlen(text) <= MOST_ID_BYTES);
  if (is_plain_name(text)) MUST(strlen(text) <= MOST_LOG_NAME_BYTES);
  natsMsg_Destroy(message);
}

/* libnats frees messages by a collector, which it makes when it is opened. */
int LLVMFuzzerInitialize(int *count, char ***words);
int LLVMFuzzerInitialize(int *count, char ***words) {
  (void)count, (void)words;
  MUST(nats_Open(-1) == NATS_OK);
  return 0;
}

int LLVMFuzzerTestOneInput(const uint8_t *data, size_t size) {
  char text[MOST_TEXT + 1];
  struct sum sum;
  struct database database;
  if (!size) return 0;
  struct text rest = {data + 1, size - 1};
  size_t length = rest.length < MOST_TEXT ? rest.length : MOST_TEXT;
  memcpy(text, rest.at, length);
  text[length] = 0;
  if (data[0] % 4 == 2) check_headers(text);
  else if (data[0] % 4 == 3) (void)read_sum(rest, &sum);
  if (data[0] % 4 > 1) return 0;
  MUST(database_open(&database, FUZZ_IDENTITY));
  fill(&database);
  if (data[0] % 4) check_questions(&database, rest);
  else check_scripts(&database, rest);
  database_close(&database);
  return 0;
}
