/*
 * Fails each allocation in turn while messages are applied, snapshots are written and loaded, and changes are gathered: a call that reports
 * want of memory succeeds when it is made again, and the rows are those of a run without failures. In the midst of a message, the state can
 * be written.
 *
 *   memory FOLDER
 *
 * FOLDER is empty, and gets snapshots. A check that fails writes a line. The status is 0 only if all passed. Link it dynamically: its
 * malloc stands in place of that of all libraries.
 */
#include "entry.h"
#include "snapshot.h"
#include <errno.h>
#include <stdio.h>
#include <stdlib.h>
#include <string.h>
#include <unistd.h>

void *__libc_malloc(size_t size);
void *__libc_calloc(size_t count, size_t size);
void *__libc_realloc(void *block, size_t size);

/* How many allocations succeed before one fails; none fails while it is below 0. has_failed tells whether one did. */
static long left = -1;
static bool was_refused, has_failed;

static bool is_refused(void) {
  if (left < 0 || left-- > 0) return false;
  was_refused = true;
  errno = ENOMEM;
  return true;
}

void *malloc(size_t size) { return is_refused() ? NULL : __libc_malloc(size); }
void *calloc(size_t count, size_t size) { return is_refused() ? NULL : __libc_calloc(count, size); }
void *realloc(void *block, size_t size) { return is_refused() ? NULL : __libc_realloc(block, size); }

static void check(bool holds, const char *what, int number) {
  if (holds) return;
  left = -1;
  has_failed = true;
  printf("line %d: %s\n", number, what);
}

#define MUST(holds) check(holds, #holds, __LINE__)

static const char *folder;
static size_t parts; /* how often memory was refused in the midst of a message */
static const char identity[] = "0123456789abcdef";
static const char checked[] = "0 00000000000000000000000000000000";
static const char *const scripts[][2] = {
    {"TABLE t (id INT KEY, s TEXT)", "TABLE u (id INT KEY, t INT REF t)"},
    {"INDEX i ON t (s) TREE", "WATCH w SELECT a.id FROM t a WHERE a.s = 'x'"},
    {"BEGIN\nINSERT t (1, 'x'), (2, 'y')\nINSERT u (1, 1)\nUPDATE t SET s = 'a text of more than sixteen bytes' WHERE id = 2\nCOMMIT",
     "DELETE t WHERE id = 1"},
    {"BEGIN\nINSERT t (3, 'z')\nSAVEPOINT s\nDELETE u\nROLLBACK TO s\nINSERT t (3, 'again')\nCOMMIT", "words"},
    {"BEGIN\nDELETE u\nDELETE t\nROLLBACK", "UNWATCH w"},
};
enum { MESSAGES = sizeof scripts / sizeof *scripts };

static bool make_body(struct bytes *body, size_t place) {
  body->length = 0;
  for (size_t i = 0; i < 2; i++) {
    struct entry entry = {.script = {(const uint8_t *)scripts[place][i], strlen(scripts[place][i])}};
    snprintf(entry.id, sizeof entry.id, "%zu-%zu", place, i);
    if (!add_entry(body, &entry)) return false;
  }
  return true;
}

/*
 * In the midst of a message, the state can be written, and another message with its number is noticed. Neither changes what the rest of the
 * message leads to.
 */
static void keep_part(struct database *database, const struct message *message) {
  const struct snapshots snapshots = {.folder = folder, .log = "log", .replica = "r"};
  struct message other = *message;
  other.body.length--;
  if (!database_is_between(database)) return;
  parts++;
  MUST(snapshot_write(&snapshots, database, identity, true));
  MUST(database_apply(database, &other) == APPLY_OTHER && database_is_between(database));
}

/* Applies a message. Every time that an allocation fails, the next call goes on. */
static void apply(struct database *database, size_t place, const struct bytes *body) {
  struct message message = {.number = place + 1, .format = "2", .checked = checked, .body = {body->at, body->length}};
  enum applied applied = database_apply(database, &message);
  MUST(applied == APPLIED || (applied == APPLY_MEMORY && was_refused));
  if (applied == APPLY_MEMORY) {
    left = -1;
    MUST(!mmdb_in_transaction(&database->db) && database->applied == place);
    keep_part(database, &message);
    MUST(database_apply(database, &message) == APPLIED);
  }
  left = -1;
  MUST(database->applied == place + 1 && !database_is_between(database) && !mmdb_in_transaction(&database->db));
}

/* Applies all messages, and fails an allocation of one of them. Returns whether one failed. */
static bool apply_all(size_t failing, long count, struct digest *sum) {
  struct bytes body = {NULL, 0, 0};
  struct database database;
  was_refused = false;
  left = -1;
  MUST(database_open(&database, identity));
  for (size_t place = 0; place < MESSAGES; place++) {
    MUST(make_body(&body, place));
    if (place == failing) left = count;
    apply(&database, place, &body);
  }
  MUST(snapshot_sum(&database, sum));
  database_close(&database);
  bytes_free(&body);
  return was_refused;
}

static void messages(struct digest *sum) {
  struct digest other;
  size_t tries = 0;
  MUST(!apply_all(MESSAGES, 0, sum));
  for (size_t failing = 0; failing < MESSAGES; failing++)
    for (long count = 0; apply_all(failing, count, &other) && !has_failed; count++, tries++) MUST(is_same_digest(sum, &other));
  MUST(tries > MESSAGES && parts > MESSAGES);
}

static void openings(void) {
  struct database database;
  struct digester digester;
  /* libcrypto initializes itself at its first use, and never again if an allocation fails then. mmdb-replica ends in that case. */
  MUST(digester_open(&digester));
  digester_close(&digester);
  was_refused = true;
  for (long count = 0; was_refused && !has_failed; count++) {
    left = count;
    was_refused = false;
    bool is_open = database_open(&database, identity);
    left = -1;
    MUST(is_open || was_refused);
    if (is_open) database_close(&database);
  }
}

static bool says_yes(void *closure, const struct head *head) {
  (void)closure, (void)head;
  return true;
}

/* Writes and loads a snapshot, and fails an allocation. What is loaded has the rows; what is not written leaves no file. */
static void snapshots_of(const struct digest *sum) {
  const struct snapshots snapshots = {.folder = folder, .log = "log", .replica = "r"};
  struct extent extent = {.identity = "0123456789abcdef", .first = 1, .last = MESSAGES};
  struct wanted wanted = {.extent = &extent, .least = 1, .agrees = says_yes};
  struct bytes body = {NULL, 0, 0};
  struct database database, again;
  struct digest other;
  char path[PATH_MAX];
  MUST(database_open(&database, identity) && snapshot_path(&snapshots, identity, MESSAGES, path));
  for (size_t place = 0; place < MESSAGES; place++) {
    MUST(make_body(&body, place));
    apply(&database, place, &body);
  }
  was_refused = true;
  for (long count = 0; was_refused && !has_failed; count++) {
    left = count;
    was_refused = false;
    bool is_done = snapshot_write(&snapshots, &database, identity, false);
    left = -1;
    MUST((is_done || was_refused) && (access(path, F_OK) == 0) == is_done);
    MUST(snapshot_sum(&database, &other) && is_same_digest(sum, &other));
    if (was_refused && is_done) MUST(!unlink(path));
  }
  was_refused = true;
  for (long count = 0; was_refused && !has_failed; count++) {
    left = count;
    was_refused = false;
    bool is_done = snapshot_load(&snapshots, &again, &wanted) == LOADED;
    left = -1;
    MUST(is_done || was_refused);
    if (!is_done) continue;
    MUST(snapshot_sum(&again, &other) && is_same_digest(sum, &other));
    database_close(&again);
  }
  database_close(&database);
  bytes_free(&body);
}

int main(int words, char **word) {
  struct digest sum;
  if (words != 2) return 2;
  folder = word[1];
  openings();
  messages(&sum);
  snapshots_of(&sum);
  return has_failed;
}
