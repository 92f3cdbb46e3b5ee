/* Questions and changes: each is answered at once, or waits for the log or for a number. */
#include "replica.h"
#include "script.h"
#include <inttypes.h>
#include <stdio.h>
#include <stdlib.h>
#include <string.h>

static const char *const outcomes[OUTCOMES] = {
    [OUTCOME_DONE] = "done", [OUTCOME_REFUSED] = "refused", [OUTCOME_INVALID] = "invalid", [OUTCOME_UNMET] = "unmet"};

/* Answers. */

/* Sends an answer, and frees the request. */
static void finish(struct replica *replica, natsMsg *request, struct reply *reply) {
  const struct database *database = &replica->database;
  if (replica->has_rows) {
    reply->log = replica->log.identity;
    reply->chain = &database->chain;
    reply->chain_number = database->applied;
  }
  answers_send(&replica->answers, request, reply);
  queue_release(&replica->queue, request);
  natsMsg_Destroy(request);
}

void reply_text(struct replica *replica, natsMsg *request, const char *status, struct text body) {
  struct reply reply = {.status = status, .number = replica->has_rows ? replica->database.applied : 0, .body = body};
  finish(replica, request, &reply);
}

void reply_bare(struct replica *replica, natsMsg *request, const char *status) {
  reply_text(replica, request, status, (struct text){(const uint8_t *)"", 0});
}

static void reply_invalid(struct replica *replica, natsMsg *request, const char *why) {
  reply_text(replica, request, "invalid", (struct text){(const uint8_t *)why, strlen(why)});
}

static void drop_request(struct replica *replica, natsMsg *request) {
  queue_release(&replica->queue, request);
  natsMsg_Destroy(request);
}

/* Waiters. */

void waiters_open(struct waiters *waiters) { waiters->first.next = waiters->first.before = &waiters->first; }

static struct waiter *first_of(struct waiters *waiters) { return waiters->first.next == &waiters->first ? NULL : waiters->first.next; }

static void take_out(struct waiter *waiter) {
  waiter->before->next = waiter->next;
  waiter->next->before = waiter->before;
}

/* Puts a waiter after all whose number is no greater. Numbers mostly come in ascending order, so the place is near the end. */
static void put_in(struct waiters *waiters, struct waiter *waiter) {
  struct waiter *before = waiters->first.before;
  while (before != &waiters->first && before->number > waiter->number) before = before->before;
  waiter->before = before;
  waiter->next = before->next;
  before->next->before = waiter;
  before->next = waiter;
}

/* Returns false if an allocation fails, and then the request stays the caller's. */
static bool add_waiter(struct replica *replica, struct waiters *waiters, struct waiter waiter) {
  struct waiter *added = malloc(sizeof *added);
  if (!added) return false;
  *added = waiter;
  put_in(waiters, added);
  replica->changes += waiter.is_change;
  return true;
}

static void free_waiter(struct replica *replica, struct waiter *waiter) {
  replica->changes -= waiter->is_change;
  free(waiter);
}

/* Questions. */

const char *status_of_answer(enum answer answer, bool is_orphaned) {
  static const char *const words[] = {[ANSWER_DONE] = "done",
                                      [ANSWER_REFUSED] = "refused",
                                      [ANSWER_TOO_LARGE] = "too-large",
                                      [ANSWER_LONG] = "too-long",
                                      [ANSWER_MEMORY] = "memory"};
  return is_orphaned && (answer == ANSWER_DONE || answer == ANSWER_REFUSED) ? "orphaned" : words[answer];
}

static void answer_question(struct replica *replica, natsMsg *request, int64_t until) {
  struct database *database = &replica->database;
  struct text script = body_of(request), line;
  struct limits limits = {answers_payload(&replica->answers), MOST_READS};
  char columns[COLUMNS_BYTES];
  if (!next_line(&script, &line)) line = script;
  enum answer answer = database_ask(database, line, &limits, columns);
  if (answer == ANSWER_LONG) {
    start_question(replica, request, line, until);
    return;
  }
  struct reply reply = {.status = status_of_answer(answer, replica->state == STATE_ORPHANED), .number = database->applied};
  if (answer == ANSWER_DONE || answer == ANSWER_REFUSED) reply.body = (struct text){database->replies.at, database->replies.length};
  if (answer == ANSWER_DONE && columns[0]) reply.columns = columns;
  finish(replica, request, &reply);
}

/* Whether the log and the chain hash that a request demands are those of this replica. */
static bool is_of_log(struct replica *replica, natsMsg *request, uint64_t number) {
  const char *log = header_of(request, LOG_HEADER), *chain = header_of(request, CHAIN_HEADER);
  struct digest demanded;
  if (log && strcmp(log, replica->log.identity)) return false;
  if (!chain) return true;
  if (strlen(chain) != DIGEST_DIGITS || !read_digest(chain, &demanded)) return false;
  const struct digest *own = database_chain_at(&replica->database, number);
  return !own || is_same_digest(own, &demanded);
}

static void on_good_question(struct replica *replica, const struct event *event, uint64_t number) {
  int64_t until = clock_now() + ANSWER_WAIT;
  struct waiter waiter = {.request = event->message, .number = number, .until = until < event->until ? until : event->until};
  waiter.asker_until = event->until;
  if (!is_of_log(replica, event->message, number)) reply_bare(replica, event->message, "other-log");
  else if (number <= replica->database.applied) answer_question(replica, event->message, event->until);
  else if (replica->state == STATE_ORPHANED) reply_bare(replica, event->message, "behind");
  else if (!add_waiter(replica, &replica->waiting, waiter)) reply_bare(replica, event->message, "memory");
}

void on_question(struct replica *replica, const struct event *event) {
  uint64_t number;
  struct bytes why = {NULL, 0, 0};
  if (event->until < clock_now()) {
    drop_request(replica, event->message);
    return;
  }
  if ((replica->state != STATE_READY && replica->state != STATE_ORPHANED) || database_is_between(&replica->database)) {
    reply_bare(replica, event->message, "unready");
    return;
  }
  enum verdict verdict = check_question(&replica->database.db, body_of(event->message), &why);
  if (verdict == VERDICT_MEMORY) reply_bare(replica, event->message, "memory");
  else if (verdict == VERDICT_BAD) reply_text(replica, event->message, "invalid", (struct text){why.at, why.length});
  else if (!number_in_header(event->message, AT_LEAST_HEADER, &number))
    reply_invalid(replica, event->message, AT_LEAST_HEADER " is no number\n");
  else on_good_question(replica, event, number);
  bytes_free(&why);
}

/* Changes. */

/* Reads what a request for a change says of it. Returns what is wrong, or NULL. */
static const char *read_change(natsMsg *request, struct entry *entry) {
  const char *id = header_of(request, ID_HEADER), *condition = header_of(request, CONDITION_HEADER);
  *entry = (struct entry){.since = UINT64_MAX, .script = body_of(request)};
  if (!id || !is_id(id)) return "a change has an id of 1 to 64 bytes in the header " ID_HEADER "\n";
  if (condition && strcmp(condition, "rows")) return CONDITION_HEADER " is not rows\n";
  memcpy(entry->id, id, strlen(id) + 1);
  entry->flags = condition ? FLAG_ROWS : 0;
  if (header_of(request, SINCE_HEADER) && !number_in_header(request, SINCE_HEADER, &entry->since)) return SINCE_HEADER " is no number\n";
  return NULL;
}

/* Returns what became of an entry, as far as its id is kept: an answer without its log and chain. */
static struct reply fate_of(struct replica *replica, const struct entry *entry, uint64_t number) {
  static const char other[] = "the id was given to another script before\n";
  struct digest digest;
  const struct recent *recent = recents_find(&replica->database.recents, entry->id);
  if (!recent) return (struct reply){.status = "forgotten", .number = number, .body = {(const uint8_t *)"", 0}};
  if (!database_digest(&replica->database, entry->script, entry->flags, &digest)) return (struct reply){.status = "memory"};
  if (!is_same_digest(&recent->digest, &digest))
    return (struct reply){.status = "invalid", .number = number, .body = {(const uint8_t *)other, sizeof other - 1}};
  return (struct reply){.status = outcomes[recent->outcome], .number = recent->sequence, .body = recent->replies};
}

/* Whether the body of a request is entries, as a message of the log has them. */
static bool has_entries(natsMsg *request) { return header_of(request, FORMAT_HEADER); }

/* Appends what became of an entry to an answer. why is for the verdict on a script that was not published. */
static bool add_fate(struct replica *replica, struct bytes *answer, const struct entry *entry, uint64_t number, struct bytes *why) {
  struct reply fate = fate_of(replica, entry, number);
  why->length = 0;
  if (!strcmp(fate.status, "memory")) return false;
  if (!strcmp(fate.status, "forgotten")) {
    enum verdict verdict = check_script(&replica->database.db, entry->script, why);
    if (verdict == VERDICT_MEMORY) return false;
    if (verdict == VERDICT_BAD) fate = (struct reply){.status = "invalid", .number = number, .body = {why->at, why->length}};
  }
  return bytes_print(answer, "%s %s %" PRIu64 " %zu\n", entry->id, fate.status, fate.number, fate.body.length) &&
         bytes_add(answer, fate.body.at, fate.body.length) && bytes_add(answer, "\n", 1);
}

/* Answers a request with several entries. */
static void answer_entries(struct replica *replica, natsMsg *request, uint64_t number) {
  struct bytes answer = {NULL, 0, 0}, why = {NULL, 0, 0};
  struct text rest = body_of(request);
  struct entry entry;
  bool is_done = true;
  while (is_done && next_entry(&rest, &entry)) is_done = add_fate(replica, &answer, &entry, number, &why);
  struct reply reply = {.status = "done", .number = number, .body = {answer.at, answer.length}};
  if (!is_done) reply_bare(replica, request, "memory");
  else if (answer.length > answers_payload(&replica->answers)) reply_bare(replica, request, "too-large");
  else finish(replica, request, &reply);
  bytes_free(&answer);
  bytes_free(&why);
}

/* Answers with the replies that the scripts had when they were applied. */
static void answer_change(struct replica *replica, natsMsg *request, uint64_t number) {
  struct entry entry;
  if (has_entries(request)) {
    answer_entries(replica, request, number);
  } else if (read_change(request, &entry)) {
    reply_bare(replica, request, "invalid");
  } else {
    struct reply reply = fate_of(replica, &entry, number);
    if (!strcmp(reply.status, "memory")) reply_bare(replica, request, "memory");
    else finish(replica, request, &reply);
  }
}

static struct batch *open_batch(struct replica *replica) {
  struct batch *batch = calloc(1, sizeof *batch);
  if (!batch) return NULL;
  waiters_open(&batch->waiters);
  batch->checked = replica->database.applied;
  batch->chain = replica->database.chain;
  batch->since = clock_now();
  return batch;
}

static void free_batch(struct batch *batch) {
  bytes_free(&batch->body);
  free(batch);
}

static void answer_waiters(struct replica *replica, struct waiters *waiters, int64_t now, const char *to_question, const char *to_change) {
  for (struct waiter *waiter = waiters->first.next, *next; waiter != &waiters->first; waiter = next) {
    next = waiter->next;
    if (waiter->until > now) continue;
    take_out(waiter);
    reply_bare(replica, waiter->request, waiter->is_change ? to_change : to_question);
    free_waiter(replica, waiter);
  }
}

/* Publishes the batch that gathers. Whether the log has it is known at EVENT_PUBLISHED. */
static void publish_open(struct replica *replica) {
  struct batch *batch = replica->open;
  size_t less = replica->usual ? replica->usual - 1 : 0;
  replica->open = NULL;
  replica->usual = replica->changes > less ? replica->changes : less;
  struct text body = {batch->body.at, batch->body.length};
  if (!body.length || log_publish(&replica->log, body, batch->checked, &batch->chain, &batch->published) != NATS_OK) {
    answer_waiters(replica, &batch->waiters, INT64_MAX, "unavailable", "unavailable");
    free_batch(batch);
    return;
  }
  bytes_free(&batch->body);
  batch->next = replica->published;
  replica->published = batch;
  replica->published_count++;
}

/* Adds the entries of a request to the batch that gathers. Returns false if an allocation fails, and then the request stays the caller's.
 */
static bool gather(struct replica *replica, const struct event *event) {
  int64_t until = clock_now() + CHANGE_WAIT;
  const struct bytes *entries = &replica->entries;
  size_t payload = answers_payload(&replica->answers), most = payload < GATHERED_BYTES ? payload : GATHERED_BYTES;
  struct waiter waiter = {.request = event->message, .until = until < event->until ? until : event->until, .is_change = true};
  if (replica->open && replica->open->body.length + entries->length > most) publish_open(replica);
  if (!replica->open) replica->open = open_batch(replica);
  if (!replica->open) return false;
  size_t before = replica->open->body.length;
  bool is_done = bytes_add(&replica->open->body, entries->at, entries->length) && add_waiter(replica, &replica->open->waiters, waiter);
  if (is_done) replica->open->count++;
  else replica->open->body.length = before;
  return is_done;
}

/* Puts an entry to those of the request at hand. */
static bool take_entry(struct replica *replica, struct entry *entry) {
  if (entry->since > replica->database.applied) entry->since = replica->database.applied;
  return add_entry(&replica->entries, entry);
}

/* Publishes the entries of a request, soon. */
static void on_good_change(struct replica *replica, const struct event *event) {
  size_t most = answers_payload(&replica->answers);
  if (replica->entries.length > most) reply_invalid(replica, event->message, "the script exceeds the messages that the servers take\n");
  else if (replica->published_count >= MOST_BATCHES) reply_bare(replica, event->message, "unavailable");
  else if (!gather(replica, event)) reply_bare(replica, event->message, "memory");
  bytes_trim(&replica->entries);
  flush_changes(replica);
}

/* Takes the entries of a request whose ids are new and that are scripts. Returns false if an allocation fails. */
static bool take_entries(struct replica *replica, natsMsg *request) {
  struct bytes why = {NULL, 0, 0};
  struct text rest = body_of(request);
  struct entry entry;
  bool is_done = true;
  while (is_done && next_entry(&rest, &entry)) {
    if (recents_find(&replica->database.recents, entry.id)) continue;
    why.length = 0;
    enum verdict verdict = check_script(&replica->database.db, entry.script, &why);
    is_done = verdict != VERDICT_MEMORY && (verdict == VERDICT_BAD || take_entry(replica, &entry));
  }
  bytes_free(&why);
  return is_done;
}

/* A request with several entries: what is new of it is published as one. */
static void on_entries(struct replica *replica, const struct event *event) {
  uint64_t format;
  if (!number_in_header(event->message, FORMAT_HEADER, &format) || format != LOG_FORMAT)
    reply_invalid(replica, event->message, FORMAT_HEADER " is not the format of the log\n");
  else if (count_entries(body_of(event->message)) > MOST_ENTRIES || !is_body(body_of(event->message)))
    reply_invalid(replica, event->message, "the body is not a sequence of 1 to 4096 entries\n");
  else if (!take_entries(replica, event->message)) reply_bare(replica, event->message, "memory");
  else if (!replica->entries.length) answer_change(replica, event->message, replica->database.applied);
  else on_good_change(replica, event);
}

static void on_one_change(struct replica *replica, const struct event *event, struct entry *entry) {
  struct bytes why = {NULL, 0, 0};
  enum verdict verdict = check_script(&replica->database.db, entry->script, &why);
  if (verdict == VERDICT_BAD) reply_text(replica, event->message, "invalid", (struct text){why.at, why.length});
  else if (verdict == VERDICT_MEMORY || !take_entry(replica, entry)) reply_bare(replica, event->message, "memory");
  else on_good_change(replica, event);
  bytes_free(&why);
}

void on_change(struct replica *replica, const struct event *event) {
  struct entry entry;
  replica->entries.length = 0;
  if (event->until < clock_now()) {
    drop_request(replica, event->message);
    return;
  }
  if (replica->state != STATE_READY || database_is_between(&replica->database)) {
    reply_bare(replica, event->message, "unready");
    return;
  }
  const char *wrong = has_entries(event->message) ? NULL : read_change(event->message, &entry);
  if (wrong) reply_invalid(replica, event->message, wrong);
  else if (!is_of_log(replica, event->message, UINT64_MAX)) reply_bare(replica, event->message, "other-log");
  else if (has_entries(event->message)) on_entries(replica, event);
  else if (recents_find(&replica->database.recents, entry.id)) answer_change(replica, event->message, replica->database.applied);
  else on_one_change(replica, event, &entry);
}

/* Batches that are on their way. */

/* Whether changes outside the batch that gathers wait for their answers. Those who get an answer send their next change soon. */
static bool has_changes_out(const struct replica *replica) { return replica->changes > replica->open->count; }

int64_t flush_time(const struct replica *replica) {
  const struct batch *batch = replica->open;
  if (!batch) return INT64_MAX;
  int64_t last = batch->since + GATHER_WAIT, soon = (batch->since > replica->answered ? batch->since : replica->answered) + SHORT_WAIT;
  return has_changes_out(replica) || soon > last ? last : soon;
}

void flush_changes(struct replica *replica) {
  const struct batch *batch = replica->open;
  if (!batch) return;
  bool has_usual = !has_changes_out(replica) && batch->count >= replica->usual;
  if (has_usual || batch->body.length >= GATHERED_BYTES || clock_now() >= flush_time(replica)) publish_open(replica);
}

/* Takes the batch out whose message this is. Returns NULL if there is none: the connection was made again meanwhile. */
static struct batch *take_batch(struct replica *replica, const natsMsg *message) {
  for (struct batch **place = &replica->published; *place; place = &(*place)->next) {
    struct batch *batch = *place;
    if (batch->published != message) continue;
    *place = batch->next;
    replica->published_count--;
    return batch;
  }
  return NULL;
}

void on_published(struct replica *replica, const struct event *event) {
  struct batch *batch = take_batch(replica, event->message);
  natsMsg_Destroy(event->message);
  if (!batch) return;
  if (replica->changes > replica->usual) replica->usual = replica->changes;
  /* A number that this replica had applied before it published shows that the log lost what was there. */
  bool is_lost = !event->has_failed && event->number <= batch->checked;
  if (event->has_failed || is_lost) answer_waiters(replica, &batch->waiters, INT64_MAX, "unavailable", "unavailable");
  for (struct waiter *waiter; (waiter = first_of(&batch->waiters));) {
    take_out(waiter);
    waiter->number = event->number;
    put_in(&replica->waiting, waiter);
  }
  free_batch(batch);
  if (is_lost && replica->has_rows && replica->log.is_followed) on_missing(replica, MISSING_HISTORY);
  answer_applied(replica);
  flush_changes(replica);
}

/* Those who waited. */

void answer_applied(struct replica *replica) {
  if (!replica->has_rows) return;
  for (struct waiter *waiter; (waiter = first_of(&replica->waiting)) && waiter->number <= replica->database.applied;) {
    take_out(waiter);
    if (waiter->is_change) replica->answered = clock_now();
    if (waiter->is_change) answer_change(replica, waiter->request, waiter->number);
    else answer_question(replica, waiter->request, waiter->asker_until);
    free_waiter(replica, waiter);
  }
}

void answer_late(struct replica *replica, int64_t now) {
  if (replica->open) answer_waiters(replica, &replica->open->waiters, now, "behind", "unavailable");
  for (struct batch **place = &replica->published; *place;) {
    struct batch *batch = *place;
    bool is_dead = batch->since < now - LONGEST_PUBLISHED;
    answer_waiters(replica, &batch->waiters, is_dead ? INT64_MAX : now, "behind", "unavailable");
    if (is_dead) free_batch(take_batch(replica, batch->published));
    else place = &batch->next;
  }
  answer_waiters(replica, &replica->waiting, now, "behind", "unavailable");
}

void answer_all(struct replica *replica, const char *status) {
  if (replica->open) {
    answer_waiters(replica, &replica->open->waiters, INT64_MAX, status, status);
    free_batch(replica->open);
    replica->open = NULL;
  }
  for (struct batch *batch = replica->published, *next; batch; batch = next) {
    next = batch->next;
    answer_waiters(replica, &batch->waiters, INT64_MAX, status, status);
    free_batch(batch);
  }
  replica->published = NULL;
  replica->published_count = 0;
  answer_waiters(replica, &replica->waiting, INT64_MAX, status, status);
}
