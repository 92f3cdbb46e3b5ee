/*
 * Tests the parts of a replica that need no network: scripts, entries, ids, messages of the log, the chain hash, snapshots, sums, the
 * queue, what looks at the log found, and login files, good ones and broken ones.
 *
 *   parts FOLDER
 *
 * FOLDER is empty, and gets files. A check that fails writes a line. The status is 0 only if all passed.
 */
#include "child.h"
#include "connect.h"
#include "entry.h"
#include "load.h"
#include "log.h"
#include "queue.h"
#include "script.h"
#include "snapshot.h"
#include "sums.h"
#include <dirent.h>
#include <signal.h>
#include <stdio.h>
#include <stdlib.h>
#include <string.h>
#include <sys/stat.h>
#include <unistd.h>

static bool has_failed;

static void check(bool holds, const char *what, int number) {
  if (holds) return;
  has_failed = true;
  printf("line %d: %s\n", number, what);
}

#define MUST(holds) check(holds, #holds, __LINE__)

static struct text text_of(const char *words) { return (struct text){(const uint8_t *)words, strlen(words)}; }

/* Scripts. */

/* What is wrong with a script, or "". */
static const char *wrong_with(mmdb *db, struct text script) {
  static char told[256];
  struct bytes why = {NULL, 0, 0};
  enum verdict verdict = check_script(db, script, &why);
  MUST(verdict != VERDICT_MEMORY && (verdict == VERDICT_BAD) == (why.length > 0));
  snprintf(told, sizeof told, "%.*s", (int)why.length, why.length ? (const char *)why.at : "");
  bytes_free(&why);
  return told;
}

static void scripts(void) {
  static const struct {
    const char *script, *wrong;
  } cases[] = {
      {"INSERT t (1, 'a')", ""},
      {"INSERT t (1, 'a')\r\n", ""},
      {"-- words\n\n \t\nDELETE t\n-- words", ""},
      {"TABLE t (id INT KEY)\n", ""},
      {"UNWATCH w", ""},
      {"BEGIN\nCOMMIT\n", ""},
      {"BEGIN\r\nUPDATE t SET k = 1\r\nSAVEPOINT s\nROLLBACK TO s\n\nROLLBACK\n-- end\n", ""},
      {" BEGIN \n\tDELETE t\nCOMMIT\t", ""},
      {"", "line 1: a script has a command\n"},
      {"-- words\n\n", "line 3: a script has a command\n"},
      {"COMMIT", "line 1: no transaction is open\n"},
      {"SAVEPOINT s", "line 1: no transaction is open\n"},
      {"BEGIN", "line 2: a script that begins with BEGIN ends with COMMIT or ROLLBACK\n"},
      {"BEGIN\nDELETE t\nROLLBACK TO s\n", "line 4: a script that begins with BEGIN ends with COMMIT or ROLLBACK\n"},
      {"BEGIN\nBEGIN\nCOMMIT", "line 2: a transaction is open\n"},
      {"BEGIN\nCOMMIT\nDELETE t", "line 3: a script ends with its COMMIT or ROLLBACK\n"},
      {"DELETE t\nDELETE t", "line 2: a script of several lines begins with BEGIN\n"},
      {"DELETE t\nCOMMIT", "line 2: a script of several lines begins with BEGIN\n"},
      {"BEGIN\nINDEX i ON t (k) TREE\nCOMMIT", "line 2: a definition is a script of its own\n"},
      {"BEGIN\nSHOW w\nCOMMIT", "line 2: a script asks no questions\n"},
      {"TABLES", "line 1: a script asks no questions\n"},
      {"INSERT t (?)", "line 1: error 11 syntax\n"},
      {"INSERT t (1", "line 1: error 11 syntax\n"},
      {"BEGIN\nBEGINS\nCOMMIT", "line 2: error 11 syntax\n"},
      {"COMMITS", "line 1: error 11 syntax\n"},
      {"BEGIN now\nCOMMIT", "line 1: error 11 syntax\n"},
      {"INSERT t (9223372036854775808)", "line 1: error 12 number out of range\n"},
      {"INSERT t ('12345678901234567890123456789012345678901234567890123456789012345')", "line 1: error 13 text too long\n"},
  };
  mmdb db = MMDB_CLOSED;
  MUST(mmdb_open(&db) == MMDB_DONE);
  for (size_t i = 0; i < sizeof cases / sizeof *cases; i++)
    check(!strcmp(wrong_with(&db, text_of(cases[i].script)), cases[i].wrong), cases[i].script, __LINE__);
  static uint8_t room[MOST_SCRIPT_BYTES + 1];
  memset(room, '-', sizeof room);
  MUST(!strcmp(wrong_with(&db, (struct text){room, MOST_LINE_BYTES + 1}), "line 1: error 10 line too long\n"));
  MUST(!strcmp(wrong_with(&db, (struct text){room, sizeof room}), "line 1: a script has at most 524288 bytes\n"));
  MUST(!mmdb_in_transaction(&db));
  mmdb_close(&db);
}

static void questions(void) {
  static const char *const good[] = {"TABLES", "SCAN t\n", "SCAN INDEX i\r\n", "SELECT", "EXPLAIN SELECT a.x FROM t a", " SHOW w"};
  static const char *const bad[] = {"", "\n", "-- words", "BEGIN", "INSERT t (1)", "SCAN t\nSCAN t", "TABLE t (id INT KEY)"};
  struct bytes why = {NULL, 0, 0};
  mmdb db = MMDB_CLOSED;
  MUST(mmdb_open(&db) == MMDB_DONE);
  for (size_t i = 0; i < sizeof good / sizeof *good; i++)
    check(check_question(&db, text_of(good[i]), &why) == VERDICT_GOOD, good[i], __LINE__);
  for (size_t i = 0; i < sizeof bad / sizeof *bad; i++) check(check_question(&db, text_of(bad[i]), &why) == VERDICT_BAD, bad[i], __LINE__);
  bytes_free(&why);
  mmdb_close(&db);
}

/* Digests. */

static void digests(void) {
  struct digester digester;
  struct digest digest, again;
  char text[DIGEST_TEXT_BYTES];
  uint8_t key[KEY_BYTES], bytes[15];
  MUST(digester_open(&digester));
  for (int i = 0; i < 2; i++) {
    digester_begin(&digester);
    digester_add(&digester, "a", 1);
    digester_add(&digester, "bc", 2);
    MUST(digester_end(&digester, &digest));
    write_digest(text, &digest);
    MUST(!strcmp(text, "ba7816bf8f01cfea414140de5dae2223")); /* of SHA-256("abc") */
  }
  MUST(read_digest(text, &again) && is_same_digest(&digest, &again));
  text[31] = 'G';
  MUST(!read_digest(text, &again) && !read_digest("ab", &again) && is_same_digest(&digest, &again));
  digester_close(&digester);
  for (uint8_t i = 0; i < KEY_BYTES; i++) key[i] = i;
  for (uint8_t i = 0; i < sizeof bytes; i++) bytes[i] = i;
  MUST(keyed_hash(key, bytes, sizeof bytes) == 0xa129ca6149be45e5u); /* the test vector of the paper on SipHash */
}

/* Entries. */

static bool is_one_body(const char *text) { return is_body(text_of(text)); }

static void entries(void) {
  static const char *const bad[] = {"",
                                    "a",
                                    "a 1 0 3\nabc",
                                    "a 1 0 3\nab\n",
                                    "a 1 0 3\nabcd\n",
                                    "a 01 0 3\nabc\n",
                                    "a 1 2 3\nabc\n",
                                    " 1 0 3\nabc\n",
                                    "a 1 0\nabc\n",
                                    "a  1 0 3\nabc\n",
                                    "a 1 0 -1\nabc\n",
                                    "a 18446744073709551616 0 0\n\n",
                                    "a 1 0 3\nabc\nb",
                                    "a 1 0 524289\nabc\n"};
  struct bytes body = {NULL, 0, 0};
  struct entry entry = {.id = "!~", .since = UINT64_MAX, .flags = FLAG_ROWS, .script = text_of("DELETE t\n")}, read;
  for (size_t i = 0; i < sizeof bad / sizeof *bad; i++) check(!is_one_body(bad[i]), bad[i], __LINE__);
  MUST(is_one_body("a 1 0 3\nabc\n") && is_one_body("a 0 1 0\n\nb 1 0 1\n\n\n"));
  MUST(add_entry(&body, &entry) && add_entry(&body, &(struct entry){.id = "b", .script = text_of("")}));
  struct text rest = {body.at, body.length};
  MUST(is_body(rest) && next_entry(&rest, &read) && !strcmp(read.id, "!~") && read.since == UINT64_MAX && read.flags == FLAG_ROWS);
  MUST(read.script.length == 9 && !memcmp(read.script.at, "DELETE t\n", 9));
  MUST(next_entry(&rest, &read) && !strcmp(read.id, "b") && !read.since && !read.script.length && !rest.length &&
       !next_entry(&rest, &read));
  for (size_t cut = 0; cut + 1 < body.length; cut++) MUST(cut == 38 || !is_body((struct text){body.at, cut}));
  bytes_free(&body);
}

/* Ids. */

static bool add_id(struct recents *recents, uint64_t number, struct text replies) {
  char id[24];
  snprintf(id, sizeof id, "id-%llu", (unsigned long long)number);
  return recents_add(recents, (struct recent){.id = id, .sequence = number, .replies = replies});
}

static bool has_id(const struct recents *recents, uint64_t number) {
  char id[24];
  snprintf(id, sizeof id, "id-%llu", (unsigned long long)number);
  const struct recent *recent = recents_find(recents, id);
  return recent && recent->sequence == number && !strcmp(recent->id, id);
}

static void ids(void) {
  struct recents recents, other;
  static uint8_t room[MOST_RECENT_BYTES / 8];
  MUST(recents_open(&recents) && recents_open(&other) && memcmp(recents.key, other.key, KEY_BYTES)); /* nobody knows the key */
  recents_close(&other);
  for (uint64_t number = 0; number < MOST_RECENT; number++) MUST(add_id(&recents, number, text_of("ok\n")));
  MUST(recents.count == MOST_RECENT && !recents.forgotten);
  for (uint64_t number = MOST_RECENT; number < MOST_RECENT + 1000; number++) MUST(add_id(&recents, number, text_of("ok\n")));
  MUST(recents.count == MOST_RECENT && !has_id(&recents, 999) && has_id(&recents, 1000) && has_id(&recents, MOST_RECENT + 999));
  MUST(recents_at(&recents, 0)->sequence == 1000 && recents.forgotten == 999);
  for (uint64_t number = 1; number <= 8; number++) MUST(add_id(&recents, number, (struct text){room, sizeof room}));
  MUST(recents.count == 7 && recents.bytes <= MOST_RECENT_BYTES && !has_id(&recents, 1) && has_id(&recents, 2) && has_id(&recents, 8));
  MUST(recents.forgotten == MOST_RECENT + 999);
  recents_close(&recents);
  MUST(is_id("a") && is_id("!~") && !is_id("") && !is_id("a b") && !is_id("\xc3\xa9"));
  MUST(is_id("1234567890123456789012345678901234567890123456789012345678901234"));
  MUST(!is_id("12345678901234567890123456789012345678901234567890123456789012345"));
}

/* Messages. */

static const char identity[] = "0123456789abcdef";

/* Applies a message with a body, as a publisher that had applied a number would send it. */
static enum applied apply_body(struct database *database, uint64_t checked, struct text body) {
  char header[DIGEST_TEXT_BYTES + 24], chain[DIGEST_TEXT_BYTES];
  const struct digest *own = database_chain_at(database, checked);
  write_digest(chain, own ? own : &database->chain);
  snprintf(header, sizeof header, "%llu %s", (unsigned long long)checked, chain);
  struct message message = {.number = database->applied + 1, .format = "2", .checked = header, .body = body};
  return database_apply(database, &message);
}

static bool apply_entry_of(struct database *database, struct entry entry, const char *id) {
  struct bytes body = {NULL, 0, 0};
  snprintf(entry.id, sizeof entry.id, "%s", id);
  uint64_t number = database->applied;
  bool is_done = add_entry(&body, &entry) && apply_body(database, number, (struct text){body.at, body.length}) == APPLIED;
  bytes_free(&body);
  return is_done && database->applied == number + 1 && !mmdb_in_transaction(&database->db) && !database_is_between(database);
}

static bool has_outcome(struct database *database, const char *id, enum outcome outcome, const char *replies) {
  const struct recent *recent = recents_find(&database->recents, id);
  struct text wanted = text_of(replies);
  return recent && recent->outcome == outcome && recent->replies.length == wanted.length &&
         !memcmp(recent->replies.at, wanted.at, wanted.length);
}

static bool applies(struct database *database, const char *id, const char *script, enum outcome outcome, const char *replies) {
  struct entry entry = {.since = UINT64_MAX, .script = text_of(script)};
  return apply_entry_of(database, entry, id) && has_outcome(database, id, outcome, replies) &&
         recents_find(&database->recents, id)->sequence == database->applied;
}

static enum answer asks(struct database *database, const char *question, size_t bytes, uint64_t reads, char columns[COLUMNS_BYTES]) {
  return database_ask(database, text_of(question), &(struct limits){bytes, reads}, columns);
}

static bool answers(struct database *database, const char *question, const char *reply) {
  struct text wanted = text_of(reply);
  char columns[COLUMNS_BYTES];
  enum answer answer = asks(database, question, 1 << 20, ANY_READS, columns);
  return (answer == ANSWER_DONE || answer == ANSWER_REFUSED) && database->replies.length == wanted.length &&
         !memcmp(database->replies.at, wanted.at, wanted.length);
}

/* Applies a message as it is, which changes nothing but the place in the log. */
static bool skips(struct database *database, const char *format, const char *checked, const char *body) {
  uint64_t number = database->applied;
  size_t count = database->recents.count;
  struct message message = {.number = number + 1, .format = format, .checked = checked, .body = text_of(body)};
  return database_apply(database, &message) == APPLIED && database->applied == number + 1 && database->recents.count == count;
}

/* A database after some messages, good ones and others. */
static void fill(struct database *database) {
  static const char zero[] = "0 00000000000000000000000000000000";
  MUST(database_open(database, identity));
  MUST(applies(database, "a1", "TABLE t (id INT KEY, s TEXT)", OUTCOME_DONE, "ok\n"));
  MUST(applies(database, "a2", "TABLE u (s TEXT KEY, t INT REF t CASCADE)\n", OUTCOME_DONE, "ok\n"));
  MUST(applies(database, "a3", "BEGIN\nINSERT t (1, 'it''s'), (-2, '-- id x'), (3, '')\nINSERT u ('\t\r', 3)\nCOMMIT", OUTCOME_DONE,
               "ok\nok 3\nok 1\nok\n"));
  MUST(applies(database, "a4", "INDEX i ON t (s) HASH", OUTCOME_DONE, "ok\n"));
  MUST(applies(database, "a5", "INDEX j ON t (s) TREE", OUTCOME_DONE, "ok\n"));
  MUST(applies(database, "a6", "WATCH gone SELECT a.id FROM t a", OUTCOME_DONE, "ok\n"));
  MUST(applies(database, "a7", "WATCH w SELECT a.id FROM t a WHERE a.s = '-- end'", OUTCOME_DONE, "ok\n"));
  MUST(applies(database, "a8", "UNWATCH gone", OUTCOME_DONE, "ok\n"));
  MUST(applies(database, "a9", "BEGIN\nDELETE t\nINSERT u ('x', 1)\nCOMMIT\n", OUTCOME_REFUSED, "ok\nok 3\nerror 41 no target row\n"));
  MUST(applies(database, "a10", "BEGIN\nDELETE t", OUTCOME_INVALID,
               "line 3: a script that begins with BEGIN ends with COMMIT or ROLLBACK\n"));
  MUST(applies(database, "a11", "BEGIN\nDELETE t\nROLLBACK\n", OUTCOME_DONE, "ok\nok 3\nok\n"));
  MUST(applies(database, "a12", "DELETE nope", OUTCOME_REFUSED, "error 20 no such table\n"));
  MUST(apply_entry_of(database, (struct entry){.script = text_of("DELETE t")}, "a1"));
  MUST(skips(database, NULL, zero, "x 0 0 8\nDELETE t\n") && skips(database, "2", NULL, "x 0 0 8\nDELETE t\n"));
  MUST(database->applied == 15);
}

static void applied(void) {
  struct database database;
  char columns[COLUMNS_BYTES];
  fill(&database);
  MUST(answers(&database, "SCAN t", "(-2, '-- id x')\n(1, 'it''s')\n(3, '')\nrows 3\n"));
  MUST(answers(&database, "SCAN u", "('\t\r', 3)\nrows 1\n"));
  MUST(answers(&database, "SHOW gone", "error 23 no such standing query\n"));
  MUST(answers(&database, "SELECT", "error 11 syntax\n") && answers(&database, "SELECT a.id FROM t a WHERE a.id = ?", "error 11 syntax\n"));
  MUST(asks(&database, "SCAN t", 43, ANY_READS, columns) == ANSWER_TOO_LARGE);
  MUST(asks(&database, "SCAN t", 44, ANY_READS, columns) == ANSWER_DONE && !strcmp(columns, "id INT, s TEXT"));
  MUST(asks(&database, "TABLES", 1000, ANY_READS, columns) == ANSWER_DONE && !*columns);
  database_close(&database);
}

/* Messages that are malformed change nothing, and one of a newer format is not passed. */
static void malformed(void) {
  static const char good[] = "x 0 0 8\nDELETE t\n", zero[] = "0 00000000000000000000000000000000";
  struct database database;
  fill(&database);
  MUST(skips(&database, "1", zero, good) && skips(&database, "2 ", zero, good) && skips(&database, "", zero, good));
  MUST(skips(&database, "2", "0", good) && skips(&database, "2", "0 0000000000000000000000000000000", good));
  MUST(skips(&database, "2", "0 0000000000000000000000000000000g", good) && skips(&database, "2", "x", good) &&
       skips(&database, "2", "", good));
  MUST(skips(&database, "2", zero, "") && skips(&database, "2", zero, "x 0 0 9\nDELETE t\n"));
  MUST(skips(&database, "2", zero, "x 0 0 8\nDELETE t\ny") && skips(&database, "2", "27 00000000000000000000000000000000", good));
  struct message newer = {.number = database.applied + 1, .format = "3", .checked = zero, .body = text_of(good)};
  struct digest before = database.chain;
  MUST(database_apply(&database, &newer) == APPLY_NEWER && database.applied + 1 == newer.number &&
       is_same_digest(&before, &database.chain));
  MUST(answers(&database, "SCAN u", "('\t\r', 3)\nrows 1\n"));
  MUST(skips(&database, "2", zero, "a1 0 0 8\nDELETE t\n")); /* a well-formed message whose id is known */
  MUST(apply_body(&database, 0, text_of(good)) == APPLIED && has_outcome(&database, "x", OUTCOME_DONE, "ok 3\n"));
  database_close(&database);
}

/* Several scripts in a message; conditions; the same id twice in a message. */
static void batches(void) {
  struct database database;
  fill(&database);
  size_t count = database.recents.count;
  MUST(apply_body(&database, 15,
                  text_of("b1 0 0 16\nINSERT t (7, '')\nb2 0 0 16\nINSERT t (7, '')\nb1 0 0 8\nDELETE u\nb3 0 0 5\nwords\n")) == APPLIED);
  MUST(database.recents.count == count + 3 && has_outcome(&database, "b1", OUTCOME_DONE, "ok 1\n"));
  MUST(has_outcome(&database, "b2", OUTCOME_REFUSED, "error 40 duplicate key\n") &&
       has_outcome(&database, "b3", OUTCOME_INVALID, "line 1: error 11 syntax\n"));
  MUST(recents_find(&database.recents, "b1")->sequence == 16 && recents_find(&database.recents, "b3")->sequence == 16);
  struct entry both = {.flags = FLAG_ROWS, .script = text_of("BEGIN\nUPDATE t SET s = 'x' WHERE id = 7\nDELETE t WHERE id = 99\nCOMMIT\n")};
  MUST(apply_entry_of(&database, both, "c1") && has_outcome(&database, "c1", OUTCOME_UNMET, "ok\nok 1\nok 0\n"));
  MUST(answers(&database, "SELECT a.s FROM t a WHERE a.id = 7", "('')\nrows 1\n"));
  both.flags = 0;
  MUST(apply_entry_of(&database, both, "c2") && has_outcome(&database, "c2", OUTCOME_DONE, "ok\nok 1\nok 0\nok\n"));
  database_close(&database);
}

/* What a question is expected to read, and one that may not read that much. */
static void reads(void) {
  static const struct {
    const char *plan;
    uint64_t largest, reads;
  } cases[] = {
      {"a tree #key =\nsteps 1\n", 5000000, 1},
      {"a hash i\nsteps 1\n", 5000000, 1000},
      {"a tree i =\nsteps 1\n", 30, 30},
      {"a tree i range\nsteps 1\n", 5000000, 100000},
      {"a scan\nsteps 1\n", 5000000, 5000000},
      {"a scan\nb precomputed a.d\nsteps 2\n", 500, 1000},
      {"a scan\nb tree join #key\nsteps 2\n", 500, 1000},
      {"a scan\nb tree merge #key i\nsteps 2\n", 2000, 2000 + 2000 * 1000 + 2000},
      {"a scan\nb tree merge i #key\nsteps 2\n", 2000, 6000},
      {"a scan\nb hash join i\nsteps 2\n", 100, 10100},
      {"a tree #key =\nb built hash k\nsteps 2\n", 5000, 1 + 1000 + 5000},
      {"a scan\nb nested loops\nc nested loops\nsteps 3\n", 100, 100 + 10000 + 1000000},
      {"a scan\nb nested loops\nc nested loops\nsteps 3\n", UINT64_MAX / 2, UINT64_MAX},
      {"steps\nsteps 1\n", 100, 0},
  };
  struct database database;
  char columns[COLUMNS_BYTES];
  for (size_t i = 0; i < sizeof cases / sizeof *cases; i++)
    check(reads_of_plan(text_of(cases[i].plan), cases[i].largest) == cases[i].reads, cases[i].plan, __LINE__);
  fill(&database);
  MUST(database_largest(&database) == 3);
  MUST(asks(&database, "SCAN t", 1000, 2, columns) == ANSWER_LONG && asks(&database, "SCAN t", 1000, 3, columns) == ANSWER_DONE);
  MUST(asks(&database, "SHOW w", 1000, 2, columns) == ANSWER_LONG && asks(&database, "SCAN INDEX j", 1000, 2, columns) == ANSWER_LONG);
  MUST(asks(&database, "SELECT a.s FROM t a WHERE a.id = 3", 1000, 1, columns) == ANSWER_DONE && !strcmp(columns, "s TEXT"));
  MUST(asks(&database, "SELECT a.s FROM t a, u b WHERE a.id < b.t", 1000, 11, columns) == ANSWER_LONG);
  MUST(asks(&database, "SELECT a.s FROM t a, u b WHERE a.id < b.t", 1000, 12, columns) == ANSWER_DONE);
  MUST(asks(&database, "SELECT a.x FROM t a, t b", 1000, 0, columns) == ANSWER_REFUSED &&
       asks(&database, "TABLES", 1000, 0, columns) == ANSWER_DONE);
  MUST(asks(&database, "EXPLAIN SELECT a.s FROM t a, t b", 1000, 0, columns) == ANSWER_DONE);
  MUST(applies(&database, "r1", "INSERT t (4, 'x'), (5, 'y')\n", OUTCOME_DONE, "ok 2\n") && database_largest(&database) == 5);
  MUST(asks(&database, "SCAN t", 1000, 4, columns) == ANSWER_LONG && asks(&database, "SCAN t", 1000, 5, columns) == ANSWER_DONE);
  database_close(&database);
}

/* An entry is skipped if its id may have been used and forgotten since it was checked. */
static void stale(void) {
  struct database database;
  char id[24];
  struct bytes body = {NULL, 0, 0};
  MUST(database_open(&database, identity));
  MUST(applies(&database, "t", "TABLE t (id INT KEY, k INT)", OUTCOME_DONE, "ok\n") &&
       applies(&database, "i", "INSERT t (1, 0)", OUTCOME_DONE, "ok 1\n"));
  struct entry pay = {.since = UINT64_MAX, .script = text_of("UPDATE t SET k = k + 1 WHERE id = 1")};
  MUST(apply_entry_of(&database, pay, "pay"));
  uint64_t checked = database.applied - 1;
  for (int number = 0; number < MOST_RECENT; number++) {
    snprintf(id, sizeof id, "o-%d", number);
    struct entry other = {.since = UINT64_MAX, .script = text_of("DELETE t WHERE id = 9")};
    memcpy(other.id, id, sizeof id);
    MUST(add_entry(&body, &other));
    if (number % 1024 != 1023) continue;
    MUST(apply_body(&database, database.applied, (struct text){body.at, body.length}) == APPLIED);
    body.length = 0;
  }
  MUST(!recents_find(&database.recents, "pay") && database.recents.forgotten == 3);
  /* The message was delayed since it was checked. */
  snprintf(pay.id, sizeof pay.id, "pay");
  MUST(add_entry(&body, &pay) && apply_body(&database, checked, (struct text){body.at, body.length}) == APPLIED);
  MUST(!recents_find(&database.recents, "pay") && answers(&database, "SCAN t", "(1, 1)\nrows 1\n"));
  /* A client sends it again that knows since when. */
  pay.since = checked;
  MUST(apply_entry_of(&database, pay, "pay") && !recents_find(&database.recents, "pay") &&
       answers(&database, "SCAN t", "(1, 1)\nrows 1\n"));
  pay.since = 3;
  MUST(apply_entry_of(&database, pay, "new") && answers(&database, "SCAN t", "(1, 2)\nrows 1\n"));
  bytes_free(&body);
  database_close(&database);
}

/* The chain hash follows from the bytes of all messages before, and from the identity. */
static void chains(void) {
  struct database one, other;
  char text[DIGEST_TEXT_BYTES];
  MUST(database_open(&one, identity) && database_open(&other, "0123456789abcdee"));
  write_digest(text, &one.chain);
  MUST(!strcmp(text, "a646e988c226177ef17a716139f83db3") && !is_same_digest(&one.chain, &other.chain));
  MUST(skips(&one, "2", "x", "body"));
  write_digest(text, &one.chain);
  MUST(!strcmp(text, "42767917a60850976ba900399783b20b"));
  for (int i = 0; i < CHAINS; i++) MUST(skips(&one, NULL, NULL, ""));
  MUST(!database_chain_at(&one, 1) && database_chain_at(&one, 2) && database_chain_at(&one, one.applied));
  MUST(is_same_digest(database_chain_at(&one, one.applied), &one.chain) &&
       is_same_digest(database_chain_at(&one, one.applied - 1), &one.before));
  MUST(!database_chain_at(&one, one.applied + 1));
  database_close(&one);
  database_close(&other);
}

/* Snapshots. */

static size_t files_in(const char *folder) {
  size_t count = 0;
  DIR *opened = opendir(folder);
  MUST(opened != NULL);
  while (opened && readdir(opened)) count++;
  if (opened) closedir(opened);
  return count - 2;
}

static struct extent extent_of(const char *log, uint64_t first, uint64_t last) {
  struct extent extent = {.first = first, .last = last};
  memcpy(extent.identity, log, sizeof extent.identity);
  return extent;
}

/* What the log says of each snapshot. */
static bool has_history = true;
static bool says_history(void *closure, const struct head *head) {
  (void)closure, (void)head;
  return has_history;
}

static enum loaded load(const struct snapshots *snapshots, struct database *database, struct extent extent, uint64_t least) {
  struct wanted wanted = {.extent = &extent, .least = least, .agrees = says_history};
  return snapshot_load(snapshots, database, &wanted);
}

/* Whether a database is loaded at a number: 0 if no snapshot serves. */
static bool loads_at(const struct snapshots *snapshots, struct extent extent, uint64_t number) {
  struct database database;
  enum loaded loaded = load(snapshots, &database, extent, 0);
  bool holds = loaded == LOADED && database.applied == number;
  if (loaded == LOADED) database_close(&database);
  return holds;
}

static void write_back(const char *path, const char *bytes, size_t length) {
  FILE *file = fopen(path, "w");
  MUST(file && fwrite(bytes, 1, length, file) == length);
  if (file) fclose(file);
}

/* Changes single bytes of a snapshot, and cuts it off: none of that serves, and none of that is whole. */
static void broken_snapshots(const struct snapshots *snapshots, const char *path) {
  static char bytes[1 << 16];
  struct head head;
  struct extent extent = extent_of(identity, 1, 1000);
  FILE *file = fopen(path, "r");
  size_t length = file ? fread(bytes, 1, sizeof bytes, file) : 0;
  if (file) fclose(file);
  MUST(length > 500 && length < sizeof bytes);
  for (size_t at = 0; at < length; at += 7) {
    bytes[at] ^= 1;
    write_back(path, bytes, length);
    bytes[at] ^= 1;
    MUST(loads_at(snapshots, extent, 0) && snapshot_verify(path, snapshots, identity, &head));
  }
  for (size_t cut = 0; cut < length; cut += 41) {
    write_back(path, bytes, cut);
    MUST(loads_at(snapshots, extent, 0) && snapshot_verify(path, snapshots, identity, &head));
  }
  bytes[length] = '\n';
  write_back(path, bytes, length + 1);
  MUST(loads_at(snapshots, extent, 0) && snapshot_verify(path, snapshots, identity, &head));
  write_back(path, bytes, length);
  MUST(loads_at(snapshots, extent, 15) && !snapshot_verify(path, snapshots, identity, &head) && head.number == 15);
  MUST(snapshot_verify(path, snapshots, "0123456789abcdee", &head) != NULL);
}

/* Files of others are left alone, the newest two that are whole are kept, and the older one of them is that up to which a log may be cut.
 */
static void kept_snapshots(const struct snapshots *snapshots, struct database *database) {
  struct head older;
  struct stat status;
  char path[PATH_MAX];
  const char *folder = snapshots->folder;
  MUST(!snapshots_older_of_two(snapshots, identity, &older));
  for (database->applied = 16; database->applied < 19; database->applied++) {
    MUST(snapshot_write(snapshots, database, identity, false));
    snapshots_remove_old(snapshots, identity);
  }
  MUST(files_in(folder) == 2 && loads_at(snapshots, extent_of(identity, 1, 20), 18) && loads_at(snapshots, extent_of(identity, 1, 17), 17));
  MUST(snapshots_older_of_two(snapshots, identity, &older) && older.number == 17);
  MUST(snapshots_newest_past(snapshots, identity, 16, &older) == 18 && !snapshots_newest_past(snapshots, identity, 18, &older));
  MUST(snapshot_path(snapshots, identity, 18, path) && !stat(path, &status) && (status.st_mode & 0777) == 0600);
  /* A log made again under the same name has lower numbers. */
  database->applied = 5;
  MUST(snapshot_write(snapshots, database, "fedcba9876543210", false));
  snapshots_remove_old(snapshots, "fedcba9876543210");
  MUST(files_in(folder) == 3 && loads_at(snapshots, extent_of("fedcba9876543210", 1, 20), 5) &&
       loads_at(snapshots, extent_of(identity, 1, 20), 18));
  /* The newest one breaks: it counts for nothing. */
  write_back(path, "-- mmdb snapshot 2\n", 19);
  MUST(!snapshots_older_of_two(snapshots, identity, &older) && loads_at(snapshots, extent_of(identity, 1, 20), 17));
  database->applied = 19;
  MUST(snapshot_write(snapshots, database, identity, false) && snapshots_older_of_two(snapshots, identity, &older) && older.number == 17);
  /* A state that the log does not have is written, and not loaded. */
  database->applied = 30;
  MUST(snapshot_write(snapshots, database, identity, true) && files_in(folder) == 5 && loads_at(snapshots, extent_of(identity, 1, 40), 19));
}

/* Finds the only other file of a folder, if its name has an ending. */
static bool find_file(const char *folder, const char *ending, const char *other, char path[PATH_MAX]) {
  size_t count = 0;
  DIR *opened = opendir(folder);
  for (struct dirent *entry = opened ? readdir(opened) : NULL; entry; entry = readdir(opened)) {
    const char *end = strstr(entry->d_name, ending);
    if (!end || end[strlen(ending)] || strstr(other, entry->d_name)) continue;
    snprintf(path, PATH_MAX, "%s/%s", folder, entry->d_name);
    count++;
  }
  if (opened) closedir(opened);
  return count == 1;
}

static bool has_line(const char *path, const char *line) {
  char read[256];
  bool has_it = false;
  FILE *file = fopen(path, "r");
  while (file && fgets(read, sizeof read, file)) has_it = has_it || !strcmp(read, line);
  if (file) fclose(file);
  return has_it;
}

/*
 * What the log lost is written in the midst of a message too, and does not hide another history that ended at the same number. The replies
 * of an entry whose id is not kept yet stay.
 */
static void lost_parts(const char *folder) {
  const struct snapshots snapshots = {.folder = folder, .log = "log", .replica = "r"};
  struct database database;
  struct head head;
  char path[PATH_MAX], other[PATH_MAX], as_snapshot[PATH_MAX];
  fill(&database);
  database.progress = (struct progress){.entries = 2, .has_run = true, .chain = database.chain};
  database.replies.length = 0;
  MUST(bytes_add(&database.replies, "ok 7\n", 5) && snapshot_write(&snapshots, &database, identity, true));
  MUST(database.replies.length == 5 && !memcmp(database.replies.at, "ok 7\n", 5));
  MUST(find_file(folder, ".lost", "", path) && has_line(path, "-- part 3\n") && has_line(path, "-- sequence 15\n"));
  MUST(!snapshot_verify(path, &snapshots, identity, &head) && head.number == 15);
  MUST(apply_body(&database, 15, text_of("x 0 0 8\nDELETE t\n")) == APPLY_OTHER && database_part(&database) == 3);
  database.progress = (struct progress){.entries = 0};
  database.chain.at[0] ^= 1;
  MUST(snapshot_write(&snapshots, &database, identity, true) && find_file(folder, ".lost", path, other) && files_in(folder) == 2);
  MUST(!has_line(other, "-- part 3\n") && !unlink(other));
  MUST(snapshot_path(&snapshots, identity, 15, as_snapshot) && !rename(path, as_snapshot));
  MUST(loads_at(&snapshots, extent_of(identity, 1, 20), 0) && !unlink(as_snapshot));
  database_close(&database);
}

/* Whether a snapshot is given out whole, by a file or through a pipe, and goes on after its first line. */
static bool is_given(const char *path, bool by_pipe) {
  char line[256], command[PATH_MAX + 8];
  const char *wrong = NULL;
  snprintf(command, sizeof command, "cat %s", path);
  FILE *input = by_pipe ? popen(command, "r") : fopen(path, "r");
  bool has_first = input && fgets(line, sizeof line, input);
  FILE *whole = has_first ? open_whole(input, text_of(line), &wrong) : NULL;
  MUST(!has_first || (whole == NULL) == (wrong != NULL));
  bool goes_on = whole && fgets(line, sizeof line, whole) && !strcmp(line, "-- log log 0123456789abcdef\n");
  if (whole && whole != input) fclose(whole);
  if (input && by_pipe) pclose(input);
  else if (input) fclose(input);
  return goes_on;
}

/* A snapshot is loaded by mmdb-ask only if it is whole. */
static void loaded_snapshots(const char *folder) {
  const struct snapshots snapshots = {.folder = folder, .log = "log", .replica = "r"};
  static char bytes[1 << 16];
  struct database database;
  char path[PATH_MAX];
  fill(&database);
  MUST(snapshot_path(&snapshots, identity, 15, path) && snapshot_write(&snapshots, &database, identity, false));
  database_close(&database);
  FILE *file = fopen(path, "r");
  size_t length = file ? fread(bytes, 1, sizeof bytes - 1, file) : 0;
  if (file) fclose(file);
  MUST(is_given(path, false) && is_given(path, true));
  for (size_t cut = 1; cut < length; cut += 97) {
    write_back(path, bytes, length - cut);
    MUST(!is_given(path, false) && (cut % 5 || !is_given(path, true)));
  }
  bytes[length] = '\n';
  write_back(path, bytes, length + 1);
  MUST(!is_given(path, false) && !is_given(path, true) && !unlink(path));
  MUST(begins_snapshot(text_of("-- mmdb snapshot 2\n")) && begins_snapshot(text_of("-- mmdb snapshot 1")));
  MUST(begins_snapshot(text_of("-- mmdb")) && !begins_snapshot(text_of("-- mmdb\n")) && !begins_snapshot(text_of("-- mmdx")));
  MUST(!begins_snapshot(text_of("")) && !begins_snapshot(text_of("TABLES\n")));
}

static void snapshots_of(const char *folder) {
  const struct snapshots snapshots = {.folder = folder, .log = "log", .replica = "r"};
  struct database database, again;
  char path[PATH_MAX];
  struct digest sum, sum_again;
  MUST(snapshot_path(&snapshots, identity, 15, path));
  fill(&database);
  database.recents.forgotten = 3;
  MUST(loads_at(&snapshots, extent_of(identity, 1, 20), 0));
  MUST(snapshot_write(&snapshots, &database, identity, false) && files_in(folder) == 1);
  MUST(loads_at(&snapshots, extent_of(identity, 1, 14), 0) && loads_at(&snapshots, extent_of("fedcba9876543210", 1, 20), 0));
  MUST(load(&snapshots, &again, extent_of(identity, 17, 20), 0) == LOADED_NONE &&
       load(&snapshots, &again, extent_of(identity, 1, 20), 16) == LOADED_NONE);
  has_history = false;
  MUST(loads_at(&snapshots, extent_of(identity, 1, 20), 0));
  has_history = true;
  MUST(load(&snapshots, &again, extent_of(identity, 16, 15), 15) == LOADED && snapshot_sum(&again, &sum_again));
  MUST(snapshot_sum(&database, &sum) && is_same_digest(&sum, &sum_again) && again.recents.forgotten == 3);
  MUST(is_same_digest(&again.chain, &database.chain) && is_same_digest(&again.before, &database.before));
  MUST(!database_chain_at(&again, 14) && database_chain_at(&again, 15));
  MUST(answers(&again, "TABLES",
               "TABLE t (id INT KEY, s TEXT) rows 3\nINDEX i ON t (s) HASH\nINDEX j ON t (s) TREE\nTABLE u (s TEXT KEY, t INT REF t "
               "CASCADE) rows 1\n"
               "WATCH w rows 0\ntables 2\n"));
  MUST(apply_entry_of(&again, (struct entry){.since = 15, .script = text_of("DELETE t")}, "a3") &&
       answers(&again, "SCAN u", "('\t\r', 3)\nrows 1\n"));
  MUST(applies(&again, "b", "UNWATCH w", OUTCOME_DONE, "ok\n"));
  broken_snapshots(&snapshots, path);
  MUST(!unlink(path));
  kept_snapshots(&snapshots, &database);
  database_close(&again);
  database_close(&database);
}

/* Standing queries in snapshots. */

/* Makes standing queries by lines that are not those of a dump. */
static void fill_standing(struct database *database) {
  MUST(database_open(database, identity));
  MUST(applies(database, "s1", "TABLE t (id INT KEY, s TEXT)", OUTCOME_DONE, "ok\n"));
  MUST(applies(database, "s2", "TABLE u (id INT KEY, t INT REF t)", OUTCOME_DONE, "ok\n"));
  MUST(applies(database, "s3", "BEGIN\nINSERT t (1, 'it''s'), (2, ''), (3, 'WATCH')\nINSERT u (7, 1), (8, 3)\nCOMMIT", OUTCOME_DONE,
               "ok\nok 3\nok 2\nok\n"));
  MUST(applies(database, "s4", "INDEX i ON t (s) TREE", OUTCOME_DONE, "ok\n"));
  MUST(applies(database, "s5", "WATCH w SELECT a.id FROM u a", OUTCOME_DONE, "ok\n"));
  MUST(applies(database, "s6",
               "-- comment\n\n\t WATCH  n SELECT a_long_alias . s , b.id FROM  t a_long_alias,u b\tWHERE b.t=a_long_alias.id AND "
               "a_long_alias.id <b.id + 007 AND a_long_alias.s > '-- WATCH ''x'' ---------------------------------------------------' "
               "ORDER 02 \r\n",
               OUTCOME_DONE, "ok\n"));
  MUST(applies(database, "s7", "UNWATCH w", OUTCOME_DONE, "ok\n"));
  MUST(applies(database, "s8", "WATCH w SELECT DISTINCT a.s FROM t a WHERE a.id >= -0000", OUTCOME_DONE, "ok\n"));
}

/* The snapshot of this database that earlier versions wrote: rows and indexes follow their table, and WATCH lines are those of the log. */
static const char older_snapshot[] =
    "-- mmdb snapshot 2\n"
    "-- log log 0123456789abcdef\n"
    "-- sequence 8\n"
    "-- before 8a622cd5a260b1354c274bc3d75149de\n"
    "-- chain c81a7244e66b0d022d4ad963ea673c52\n"
    "-- forgotten 0\n"
    "-- replica r\n"
    "-- sum 6767387c8a0411d5a65be93c15ed0f92\n"
    "-- id s1 1 c3b17f7b1394835a94235d8e405d4e11 0 1\n"
    "-- > ok\n"
    "-- id s2 2 0daad6e37c8383d043669301f3061e7a 0 1\n"
    "-- > ok\n"
    "-- id s3 3 e0d4c762a0cd4c7cae3d3e0db86d368e 0 4\n"
    "-- > ok\n"
    "-- > ok 3\n"
    "-- > ok 2\n"
    "-- > ok\n"
    "-- id s4 4 f7b13c5e61a84e96955d380e504389d8 0 1\n"
    "-- > ok\n"
    "-- id s5 5 c9a6318a9916b29aeb34236e7f7bb378 0 1\n"
    "-- > ok\n"
    "-- id s6 6 01bb62fc87f90025f44ba8d70fae7b33 0 1\n"
    "-- > ok\n"
    "-- id s7 7 db2732251fca099cce16abcbdac797f0 0 1\n"
    "-- > ok\n"
    "-- id s8 8 f01d7fac5d3b31b838a2fdd07cd7171e 0 1\n"
    "-- > ok\n"
    "TABLE t (id INT KEY, s TEXT)\n"
    "INSERT t (1, 'it''s'), (2, ''), (3, 'WATCH')\n"
    "INDEX i ON t (s) TREE\n"
    "TABLE u (id INT KEY, t INT REF t)\n"
    "INSERT u (7, 1), (8, 3)\n"
    "\t WATCH  n SELECT a_long_alias . s , b.id FROM  t a_long_alias,u b\tWHERE b.t=a_long_alias.id AND a_long_alias.id <b.id + "
    "007 AND a_long_alias.s > '-- WATCH ''x'' ---------------------------------------------------' ORDER 02 \n"
    "WATCH w SELECT DISTINCT a.s FROM t a WHERE a.id >= -0000\n"
    "-- end 906379dc4a1e9ed924cb1371b668c43b\n";

/* Whether two databases answer each question alike. */
static bool are_alike(struct database *one, struct database *other) {
  static const char *const questions[] = {"TABLES", "SCAN t", "SCAN u", "SCAN INDEX i", "SHOW n", "SHOW w"};
  char columns[COLUMNS_BYTES];
  bool is_same = true;
  for (size_t i = 0; i < sizeof questions / sizeof *questions; i++) {
    MUST(asks(one, questions[i], 1 << 20, ANY_READS, columns) == ANSWER_DONE);
    MUST(asks(other, questions[i], 1 << 20, ANY_READS, columns) == ANSWER_DONE);
    is_same = is_same && one->replies.length == other->replies.length && !memcmp(one->replies.at, other->replies.at, one->replies.length);
  }
  return is_same;
}

/* Whether two databases have the same sums, and no two of the sums of single tables and standing queries are the same. */
static bool have_same_sums(struct database *one, struct database *other) {
  enum { LISTS = 4 };
  struct digest sum, sums[2 * LISTS];
  bool is_same = snapshot_sum(one, &sum) && snapshot_sum(other, sums) && is_same_digest(&sum, sums);
  for (size_t i = 0; i < 2 * LISTS; i++) {
    MUST(database_sum_part(one, i, 0, &sum) && database_sum_part(other, i, 0, &sums[i]));
    is_same = is_same && is_same_digest(&sum, &sums[i]);
    for (size_t j = 0; j < i; j++) is_same = is_same && is_same_digest(&sums[i], &sums[j]) == (i == j + LISTS);
  }
  return is_same;
}

static void changed_alike(struct database *one, struct database *other) {
  struct database *both[] = {one, other};
  for (size_t i = 0; i < 2; i++) {
    MUST(applies(both[i], "c1", "INSERT u (9, 3), (-9, 3)", OUTCOME_DONE, "ok 2\n"));
    MUST(applies(both[i], "c2", "UPDATE t SET s = 'x' WHERE id = 2", OUTCOME_DONE, "ok 1\n"));
    MUST(applies(both[i], "c3", "DROP TABLE u", OUTCOME_REFUSED, "error 43 in use\n"));
  }
  MUST(are_alike(one, other) && have_same_sums(one, other));
}

/* A snapshot leads to the same standing queries, in the order of a dump and in that of older ones. */
static void standing_queries(const char *folder) {
  const struct snapshots snapshots = {.folder = folder, .log = "log", .replica = "r"};
  struct database database, again;
  char path[PATH_MAX];
  fill_standing(&database);
  MUST(snapshot_path(&snapshots, identity, 8, path) && snapshot_write(&snapshots, &database, identity, false));
  MUST(has_line(path, "WATCH w SELECT DISTINCT a.s FROM t a WHERE a.id>=0\n"));
  MUST(load(&snapshots, &again, extent_of(identity, 1, 8), 8) == LOADED);
  MUST(answers(&again, "SHOW n", "('it''s', 7)\n('WATCH', 8)\nrows 2\n"));
  MUST(are_alike(&again, &database) && have_same_sums(&again, &database));
  database_close(&again);
  write_back(path, older_snapshot, sizeof older_snapshot - 1);
  MUST(load(&snapshots, &again, extent_of(identity, 1, 8), 8) == LOADED);
  MUST(are_alike(&again, &database) && have_same_sums(&again, &database));
  MUST(snapshot_write(&snapshots, &again, identity, false) && loads_at(&snapshots, extent_of(identity, 1, 8), 8) && !unlink(path));
  changed_alike(&again, &database);
  database_close(&again);
  database_close(&database);
}

/* Sums. */

static struct sum sum_of(const char *replica, uint64_t number, uint8_t value) {
  struct sum sum = {.number = number, .sum = {{value}}};
  snprintf(sum.replica, sizeof sum.replica, "%s", replica);
  memcpy(sum.identity, identity, sizeof sum.identity);
  return sum;
}

static void add_sum(struct sums *sums, const char *replica, uint64_t number, uint8_t value) {
  struct sum sum = sum_of(replica, number, value);
  sums_add(sums, &sum, !strcmp(replica, "own"));
}

static void compared_sums(void) {
  static struct sums sums;
  struct sum sum = sum_of("other", 100, 7), read;
  char text[MOST_SUM_BYTES];
  write_sum(text, &sum);
  MUST(!strcmp(text, "other 0123456789abcdef 100 07000000000000000000000000000000"));
  MUST(read_sum(text_of(text), &read) && !strcmp(read.replica, "other") && read.number == 100 && is_same_digest(&read.sum, &sum.sum));
  MUST(!read_sum(text_of("other 100"), &read) && !read_sum(text_of(""), &read) &&
       !read_sum(text_of("other 0123456789abcdef 100 07"), &read));
  for (uint64_t number = 1; number <= 200; number++) {
    add_sum(&sums, "own", number, 1);
    MUST(sums_judge(&sums, number) == SUMS_ALONE);
    add_sum(&sums, "a", number, number == 100 ? 2 : 1);
    MUST(sums_judge(&sums, number) == (number == 100 ? SUMS_TIE : SUMS_AGREE));
  }
  add_sum(&sums, "b", 201, 2);
  MUST(sums_judge(&sums, 201) == SUMS_ALONE);
  add_sum(&sums, "own", 201, 1);
  MUST(sums_judge(&sums, 201) == SUMS_TIE);
  add_sum(&sums, "b", 201, 2);
  MUST(sums_judge(&sums, 201) == SUMS_TIE); /* one replica has one voice */
  add_sum(&sums, "c", 201, 1);
  MUST(sums_judge(&sums, 201) == SUMS_RIGHT);
  add_sum(&sums, "a", 201, 2);
  MUST(sums_judge(&sums, 201) == SUMS_TIE);
  add_sum(&sums, "c", 201, 2);
  MUST(sums_judge(&sums, 201) == SUMS_WRONG);
  sum = sum_of("d", 202, 2);
  sum.identity[0] = 'f';
  sums_add(&sums, &sum, false);
  add_sum(&sums, "own", 202, 1);
  MUST(sums_judge(&sums, 202) == SUMS_ALONE); /* a sum of another log says nothing */
}

static void add_chained(struct sums *sums, const char *replica, uint8_t value, uint8_t chain) {
  struct sum sum = sum_of(replica, 100, value);
  sum.has_chain = true;
  sum.chain.at[0] = chain;
  sums_add(sums, &sum, !strcmp(replica, "own"));
}

/* Replicas of another history have no say, however many they are, but they are noticed. */
static void sums_of_histories(void) {
  static struct sums sums;
  add_chained(&sums, "a", 2, 9);
  MUST(!sums_of_other_history(&sums, 100));
  add_chained(&sums, "own", 1, 8);
  add_chained(&sums, "b", 2, 9);
  MUST(sums_judge(&sums, 100) == SUMS_ALONE && !strcmp(sums_of_other_history(&sums, 100)->replica, "a"));
  add_chained(&sums, "c", 1, 8);
  MUST(sums_judge(&sums, 100) == SUMS_AGREE && !sums_of_other_history(&sums, 101));
  add_chained(&sums, "a", 2, 8);
  MUST(sums_judge(&sums, 100) == SUMS_RIGHT);
  add_chained(&sums, "b", 2, 8);
  MUST(sums_judge(&sums, 100) == SUMS_TIE && !sums_of_other_history(&sums, 100));
  add_sum(&sums, "d", 100, 2); /* it does not say of which history it is */
  MUST(sums_judge(&sums, 100) == SUMS_WRONG && !sums_of_other_history(&sums, 100));
}

/* The queue. */

static natsMsg *message_of(size_t length) {
  natsMsg *message = NULL;
  char *bytes = calloc(1, length + 1);
  MUST(bytes && natsMsg_Create(&message, "s", "r", bytes, (int)length) == NATS_OK);
  free(bytes);
  return message;
}

/* Requests count until they are released; messages of the log can be held back. */
static void queued(void) {
  struct queue queue;
  struct event event;
  MUST(nats_Open(-1) == NATS_OK);
  natsMsg *large = message_of(MOST_REQUEST_BYTES / 2), *other = message_of(MOST_REQUEST_BYTES / 2), *one = message_of(1),
          *two = message_of(2);
  MUST(queue_open(&queue));
  MUST(queue_add(&queue, (struct event){.kind = EVENT_CHANGE, .message = large}) &&
       !queue_add(&queue, (struct event){.kind = EVENT_QUESTION, .message = other}));
  MUST(queue_take(&queue, 0, &event) && event.message == large &&
       !queue_add(&queue, (struct event){.kind = EVENT_CHANGE, .message = other}));
  queue_release(&queue, large);
  MUST(queue_load(&queue).requests == 0 && queue_load(&queue).bytes == 0 &&
       queue_add(&queue, (struct event){.kind = EVENT_CHANGE, .message = other}));
  MUST(queue_take(&queue, 0, &event) && !queue_take(&queue, 0, &event));
  MUST(!queue_add(&queue, (struct event){.kind = EVENT_MESSAGE, .message = one}));
  queue_set_takes_messages(&queue, true);
  MUST(queue_add(&queue, (struct event){.kind = EVENT_MESSAGE, .message = one}) &&
       queue_add(&queue, (struct event){.kind = EVENT_SUM, .message = two}));
  queue_hold_messages(&queue, true);
  MUST(queue_take(&queue, 0, &event) && event.kind == EVENT_SUM && !queue_take(&queue, 0, &event));
  queue_hold_messages(&queue, false);
  MUST(queue_add(&queue, (struct event){.kind = EVENT_STOP}) && queue_take(&queue, 0, &event) && event.message == one);
  MUST(queue_take(&queue, 0, &event) && event.kind == EVENT_STOP && !queue_take(&queue, 0, &event));
  natsMsg *each[] = {large, other, one, two};
  for (size_t i = 0; i < 4; i++) natsMsg_Destroy(each[i]);
  queue_close(&queue);
  nats_Close();
}

/* Children. */

/* Writes as many bytes as the closure says; and waits for ever if it says 7, or fails if it says 9. */
static bool child_work(void *closure, struct bytes *bytes) {
  size_t count = *(size_t *)closure;
  while (count == 7) pause();
  for (size_t i = 0; i < count && count != 9; i++)
    if (!bytes_add(bytes, "x", 1)) return false;
  return count != 9;
}

/* Runs a child to its end, which is told by an event. Returns how it ended. */
static enum child_end run_child(struct queue *queue, struct child *child, size_t count, int64_t most, bool stops) {
  struct event event;
  int64_t began = clock_now();
  MUST(child_start(child, queue, 3, began + most, child_work, &count));
  if (stops) child_stop(child);
  MUST(queue_take(queue, began + 20000, &event) && event.kind == EVENT_CHILD && event.number == 3);
  child_join(child);
  MUST(kill(child->process, 0)); /* it is no zombie either */
  return child->end;
}

static void children(void) {
  struct queue queue;
  struct child child;
  MUST(nats_Open(-1) == NATS_OK && queue_open(&queue));
  MUST(run_child(&queue, &child, 1000000, 20000, false) == CHILD_DONE && child.bytes.length == 1000000 && child.bytes.at[999999] == 'x');
  bytes_free(&child.bytes);
  MUST(run_child(&queue, &child, 0, 20000, false) == CHILD_DONE && !child.bytes.length);
  bytes_free(&child.bytes);
  MUST(run_child(&queue, &child, 9, 20000, false) == CHILD_FAILED);
  bytes_free(&child.bytes);
  MUST(run_child(&queue, &child, 7, 300, false) == CHILD_LATE);
  MUST(run_child(&queue, &child, 7, 20000, true) == CHILD_LATE);
  queue_close(&queue);
  nats_Close();
}

/* Looks. */

enum { LOOKS = 8000000 };

/* What a thread notes: every second number, each as the last one and as the time that belongs to it. */
struct looker {
  struct log *log;
  pthread_barrier_t *begin;
  pthread_t thread;
  uint64_t first;
};

static void *look_often(void *closure) {
  struct looker *looker = closure;
  pthread_barrier_wait(looker->begin);
  for (uint64_t number = looker->first; number <= LOOKS; number += 2) log_note(looker->log, number, (int64_t)number);
  return NULL;
}

/* Two threads look at the log. Whoever reads the time and then the number finds a number of that time or later, and neither ever falls. */
static void noted(void) {
  static struct log log;
  pthread_barrier_t begin;
  struct looker lookers[] = {{.log = &log, .begin = &begin, .first = 1}, {.log = &log, .begin = &begin, .first = 2}};
  int64_t before = 0;
  bool is_right = true;
  MUST(!pthread_barrier_init(&begin, NULL, 3));
  for (int i = 0; i < 2; i++) MUST(!pthread_create(&lookers[i].thread, NULL, look_often, &lookers[i]));
  pthread_barrier_wait(&begin);
  while (before < LOOKS && is_right) {
    int64_t heard = atomic_load(&log.heard);
    is_right = heard >= before && atomic_load(&log.last) >= (uint64_t)heard;
    before = heard;
  }
  for (int i = 0; i < 2; i++) MUST(!pthread_join(lookers[i].thread, NULL));
  MUST(!pthread_barrier_destroy(&begin));
  MUST(is_right && atomic_load(&log.last) == LOOKS && atomic_load(&log.heard) == LOOKS);
}

/* Logins. */

static void write_login(const char *path, const char *text, mode_t mode) {
  write_back(path, text, strlen(text));
  MUST(!chmod(path, mode));
}

static void logins(const char *folder) {
  struct login login;
  char path[PATH_MAX], servers[] = "u:pw@d:4,nats://u:secret@a:1,nats://b:2,c:d@e:3";
  snprintf(path, sizeof path, "%s/login", folder);
  write_login(path, "# words\nuser alice\npassword a b\n\n", 0600);
  MUST(!read_login(path, &login) && !strcmp(login.user, "alice") && !strcmp(login.password, "a b") && !login.is_encrypted);
  write_login(path, "ca FILE\nnkey KEY SEED\n", 0400);
  MUST(!read_login(path, &login) && login.is_encrypted && !strcmp(login.nkey, "KEY") && !strcmp(login.seed, "SEED") && !*login.user);
  MUST(!unlink(path));
  write_login(path, "certificate FILE\n", 0600);
  MUST(read_login(path, &login) != NULL);
  write_login(path, "secret\n", 0600);
  MUST(read_login(path, &login) != NULL);
  write_login(path, "user alice\n", 0640);
  MUST(read_login(path, &login) != NULL);
  MUST(!unlink(path) && read_login(path, &login) != NULL);
  hide_passwords(servers);
  MUST(!strcmp(servers, "xxxx@d:4,nats://xxxxxxxx@a:1,nats://b:2,xxx@e:3"));
}

int main(int words, char **word) {
  if (words != 2) return 2;
  scripts();
  questions();
  digests();
  entries();
  ids();
  applied();
  malformed();
  batches();
  reads();
  stale();
  chains();
  lost_parts(word[1]);
  loaded_snapshots(word[1]);
  snapshots_of(word[1]);
  standing_queries(word[1]);
  logins(word[1]);
  compared_sums();
  sums_of_histories();
  noted();
  queued();
  children();
  return has_failed;
}
