/*
 * Work that takes long is done by children, so that the replica goes on applying messages and answering other questions: questions that are
 * expected to read many rows, and sums of large tables.
 */
#include "replica.h"
#include <inttypes.h>
#include <stdio.h>
#include <string.h>

/* In the child. */

/* A question, with what has to be known of the connection before the child is made: its threads may hold locks. */
struct question {
  struct database *database;
  struct text line;
  struct limits limits;
};

/* The result is a byte that says which answer it is, the columns with a terminating 0, and the replies. */
static bool answer_in_child(void *closure, struct bytes *result) {
  const struct question *question = closure;
  char columns[COLUMNS_BYTES];
  uint8_t answer = (uint8_t)database_ask(question->database, question->line, &question->limits, columns);
  const struct bytes *replies = &question->database->replies;
  bool is_done = bytes_add(result, &answer, 1) && bytes_add(result, columns, strlen(columns) + 1);
  bool has_replies = answer == ANSWER_DONE || answer == ANSWER_REFUSED;
  return is_done && (!has_replies || bytes_add(result, replies->at, replies->length));
}

static bool sum_in_child(void *closure, struct bytes *result) {
  const struct summing *summing = closure;
  struct digest sum;
  return make_sum(summing, &sum) && bytes_add(result, sum.at, DIGEST_BYTES);
}

/* Starting. */

static bool start_task(struct replica *replica, struct task *task, int64_t until, work *work, void *closure) {
  uint64_t place = (uint64_t)(task - replica->tasks);
  task->number = replica->database.applied;
  task->chain = replica->database.chain;
  task->life = replica->lives;
  task->is_orphaned = replica->state == STATE_ORPHANED;
  memcpy(task->identity, replica->log.identity, sizeof task->identity);
  task->is_running = child_start(&task->child, &replica->queue, place, until, work, closure);
  return task->is_running;
}

void start_question(struct replica *replica, natsMsg *request, struct text line, int64_t until) {
  int64_t now = clock_now(), most = now + replica->options.question_time;
  /* An asker who waits for less than that hears in time that the question takes longer. */
  int64_t heard = until - (until - now) / 8;
  struct question question = {&replica->database, line, {answers_payload(&replica->answers), ANY_READS}};
  struct task *task = &replica->tasks[SUM_TASK + 1], *end = &replica->tasks[MOST_TASKS];
  while (task < end && task->is_running) task++;
  if (task == end) {
    reply_bare(replica, request, "unready");
  } else if (start_task(replica, task, heard < most ? heard : most, answer_in_child, &question)) {
    task->request = request;
    task->began = now;
  } else {
    reply_bare(replica, request, "memory");
  }
}

bool start_sum(struct replica *replica, struct summing *summing) {
  struct task *task = &replica->tasks[SUM_TASK];
  return !task->is_running && start_task(replica, task, clock_now() + LONGEST_SUM, sum_in_child, summing);
}

/* Ending. */

/* Fills in what the child answered. Returns false if it has no result. */
static bool read_result(const struct task *task, struct reply *reply) {
  const struct bytes *bytes = &task->child.bytes;
  const char *columns = (const char *)bytes->at + 1;
  const uint8_t *end = bytes->length ? memchr(columns, 0, bytes->length - 1) : NULL;
  if (task->child.end != CHILD_DONE || !end || *bytes->at > ANSWER_MEMORY) return false;
  reply->status = status_of_answer((enum answer) * bytes->at, task->is_orphaned);
  reply->columns = *columns ? columns : NULL;
  reply->body = (struct text){end + 1, bytes->length - (size_t)(end + 1 - bytes->at)};
  return true;
}

static void answer_task(struct replica *replica, struct task *task) {
  char why[64] = "";
  struct reply reply = {.log = task->identity, .number = task->number, .chain = &task->chain, .chain_number = task->number};
  if (atomic_load(&task->child.is_unwanted)) {
    reply.status = "unready";
  } else if (task->child.end == CHILD_LATE) {
    snprintf(why, sizeof why, "the question took longer than %" PRId64 " ms\n", task->child.until - task->began);
    reply.status = "too-long";
    reply.body = (struct text){(const uint8_t *)why, strlen(why)};
  } else if (!read_result(task, &reply)) {
    reply.status = "memory";
  }
  answers_send(&replica->answers, task->request, &reply);
  queue_release(&replica->queue, task->request);
  natsMsg_Destroy(task->request);
}

static void end_sum(struct replica *replica, const struct task *task) {
  const struct bytes *bytes = &task->child.bytes;
  struct digest sum;
  bool is_done = task->child.end == CHILD_DONE && bytes->length == DIGEST_BYTES;
  if (is_done) memcpy(sum.at, bytes->at, DIGEST_BYTES);
  /* Rows that were dropped since then have no say. */
  if (is_done && replica->has_rows && task->life == replica->lives) publish_own_sum(replica, task->number, &sum, &task->chain);
  else if (!is_done && !atomic_load(&task->child.is_unwanted))
    tell(replica, "no sum at number %" PRIu64 ": it was not finished", task->number);
}

static void end_task(struct replica *replica, struct task *task) {
  child_join(&task->child);
  task->is_running = false;
  if (task == &replica->tasks[SUM_TASK]) end_sum(replica, task);
  else answer_task(replica, task);
  bytes_free(&task->child.bytes);
}

void on_child(struct replica *replica, uint64_t place) {
  if (replica->tasks[place].is_running) end_task(replica, &replica->tasks[place]);
}

void stop_tasks(struct replica *replica) {
  for (size_t i = 0; i < MOST_TASKS; i++)
    if (replica->tasks[i].is_running) child_stop(&replica->tasks[i].child);
}

void end_tasks(struct replica *replica) {
  stop_tasks(replica);
  for (size_t i = 0; i < MOST_TASKS; i++)
    if (replica->tasks[i].is_running) end_task(replica, &replica->tasks[i]);
}

size_t count_tasks(const struct replica *replica) {
  size_t count = 0;
  for (size_t i = 0; i < MOST_TASKS; i++) count += replica->tasks[i].is_running;
  return count;
}
