/* The connection for requests: what comes is checked, counted and added to the queue; and answers are sent. */
#include "replica.h"
#include <inttypes.h>
#include <stdio.h>
#include <string.h>

/* What a message may take beside its body: its headers and subjects, and what libnats and malloc add to them. */
enum { MOST_HEAD_BYTES = 16384 };

static natsStatus set_headers(natsMsg *message, const struct answers *answers, const struct reply *reply) {
  char number[24], chain[DIGEST_TEXT_BYTES];
  natsStatus status = natsMsgHeader_Set(message, STATUS_HEADER, reply->status);
  if (status == NATS_OK) status = natsMsgHeader_Set(message, REPLICA_HEADER, answers->replica);
  if (!reply->log || status != NATS_OK) return status;
  snprintf(number, sizeof number, "%" PRIu64, reply->number);
  status = natsMsgHeader_Set(message, LOG_HEADER, reply->log);
  if (status == NATS_OK) status = natsMsgHeader_Set(message, SEQUENCE_HEADER, number);
  snprintf(number, sizeof number, "%" PRIu64, reply->chain_number);
  write_digest(chain, reply->chain);
  if (status == NATS_OK) status = natsMsgHeader_Set(message, CHAIN_HEADER, chain);
  if (status == NATS_OK) status = natsMsgHeader_Set(message, CHAIN_SEQUENCE_HEADER, number);
  if (status == NATS_OK && reply->columns) status = natsMsgHeader_Set(message, COLUMNS_HEADER, reply->columns);
  return status;
}

/* Sends an answer on a connection that the caller keeps open. */
static void send_on(natsConnection *connection, struct answers *answers, natsMsg *request, const struct reply *reply) {
  natsMsg *message = NULL;
  const char *subject = natsMsg_GetReply(request);
  /* Without a server, libnats would keep the answer and send it long after its asker has gone. */
  if (!subject || atomic_load(&answers->is_stuck) || !is_connected(connection)) return;
  natsStatus status = natsMsg_Create(&message, subject, NULL, (const char *)reply->body.at, (int)reply->body.length);
  if (status == NATS_OK) status = set_headers(message, answers, reply);
  if (status == NATS_OK) status = natsConnection_PublishMsg(connection, message);
  natsMsg_Destroy(message);
  if (status == NATS_TIMEOUT || status == NATS_IO_ERROR || status == NATS_SSL_ERROR) atomic_store(&answers->is_stuck, true);
}

/* Whether an answer may be sent to a subject: below the prefix of inboxes, and never to a subject of the servers or of the log. */
static bool is_inbox(const struct answers *answers, const char *subject) {
  size_t prefix = strlen(answers->inbox), length = subject ? strlen(subject) : 0;
  if (length <= prefix + 1 || length > MOST_INBOX_BYTES || strncmp(subject, answers->inbox, prefix) || subject[prefix] != '.') return false;
  for (const char *at = subject + prefix + 1; *at; at++)
    if (*at <= ' ' || *at > '~' || *at == '*' || *at == '>') return false;
  return true;
}

/* Whether a line of a text is longer than a line may be. */
static bool has_long_line(struct text text) {
  struct text line;
  while (next_line(&text, &line))
    if (line.length > MOST_LINE_BYTES) return true;
  return false;
}

/* Returns what is wrong with a request, as far as its size tells, or NULL. It reads no header. */
static const char *refuse_size(enum event_kind kind, natsMsg *message) {
  struct text body = body_of(message);
  if (size_of_message(message) > body.length + MOST_HEAD_BYTES) return "a request has at most 8192 bytes of headers\n";
  if (kind == EVENT_CHANGE && body.length > MOST_SCRIPT_BYTES) return "a script has at most 524288 bytes\n";
  if (kind == EVENT_QUESTION && body.length > MOST_LINE_BYTES + 2) return "error 10 line too long\n";
  return has_long_line(body) ? "error 10 line too long\n" : NULL;
}

/* Returns until when the asker waits. */
static int64_t end_of_wait(natsMsg *message) {
  uint64_t wait = CLIENT_WAIT;
  bool is_number = number_in_header(message, WAIT_HEADER, &wait);
  if (!is_number || !wait) wait = CLIENT_WAIT;
  return clock_now() + (int64_t)(wait < MOST_CLIENT_WAIT ? wait : MOST_CLIENT_WAIT);
}

/* On a thread of libnats. What nobody can be answered about is dropped here, before it takes room. */
static void take_request(const struct intake *intake, natsConnection *connection, natsMsg *message) {
  struct answers *answers = intake->answers;
  enum event_kind kind = intake->kind;
  const char *wrong = NULL;
  struct reply reply = {.status = "unready"};
  bool is_taken = false;
  if (is_inbox(answers, natsMsg_GetReply(message))) {
    wrong = refuse_size(kind, message);
    is_taken = !wrong && queue_add(answers->queue, (struct event){.kind = kind, .message = message, .until = end_of_wait(message)});
    if (wrong) reply = (struct reply){.status = "invalid", .body = {(const uint8_t *)wrong, strlen(wrong)}};
    if (!is_taken) send_on(connection, answers, message, &reply);
  }
  if (!is_taken) natsMsg_Destroy(message);
}

static void on_request(natsConnection *connection, natsSubscription *subscription, natsMsg *message, void *closure) {
  (void)subscription;
  take_request(closure, connection, message);
}

static void on_sum_message(natsConnection *connection, natsSubscription *subscription, natsMsg *message, void *closure) {
  struct answers *answers = closure;
  (void)connection, (void)subscription;
  bool is_short = natsMsg_GetDataLength(message) < MOST_SUM_BYTES && size_of_message(message) < MOST_HEAD_BYTES;
  bool is_taken = is_short && queue_add(answers->queue, (struct event){.kind = EVENT_SUM, .message = message});
  if (!is_taken) natsMsg_Destroy(message);
}

natsStatus answers_open(struct answers *answers, const struct connecting *connecting) {
  atomic_store(&answers->is_stuck, false);
  return connect_to(&answers->connection, connecting);
}

/* Returns the closure for the subscription to requests of a kind. */
static struct intake *intake_of(struct answers *answers, enum event_kind kind) {
  struct intake *intake = &answers->intakes[kind];
  *intake = (struct intake){.answers = answers, .kind = kind};
  return intake;
}

bool answers_subscribe(struct answers *answers) {
  const struct {
    natsSubscription **subscription;
    const char *word, *last;
    enum event_kind kind;
  } each[] = {
      {&answers->named, "ask", answers->replica, EVENT_QUESTION},
      {&answers->status, "status", NULL, EVENT_STATUS},
      {&answers->backup, "backup", answers->replica, EVENT_BACKUP},
      {&answers->snapshot, "snapshot", answers->replica, EVENT_SNAPSHOT},
  };
  char subject[MOST_SUBJECT_BYTES];
  write_subject(subject, answers->name, "sum", NULL);
  natsStatus status = natsConnection_Subscribe(&answers->sums, answers->connection, subject, on_sum_message, answers);
  for (size_t i = 0; i < sizeof each / sizeof *each && status == NATS_OK; i++) {
    write_subject(subject, answers->name, each[i].word, each[i].last);
    struct intake *intake = intake_of(answers, each[i].kind);
    status = natsConnection_Subscribe(each[i].subscription, answers->connection, subject, on_request, intake);
  }
  intake_of(answers, EVENT_CHANGE);
  return status == NATS_OK;
}

natsStatus answers_subscribe_group(struct answers *answers, natsSubscription **subscription, bool is_for_changes) {
  char subject[MOST_SUBJECT_BYTES];
  write_subject(subject, answers->name, is_for_changes ? "change" : "ask", NULL);
  struct intake *intake = &answers->intakes[is_for_changes ? EVENT_CHANGE : EVENT_QUESTION];
  return natsConnection_QueueSubscribe(subscription, answers->connection, subject, "replicas", on_request, intake);
}

void answers_close(struct answers *answers) {
  natsSubscription **each[] = {&answers->named, &answers->status, &answers->backup, &answers->snapshot, &answers->sums};
  destroy_connection(answers->connection, &answers->ended);
  answers->connection = NULL;
  for (size_t i = 0; i < sizeof each / sizeof *each; i++) {
    natsSubscription_Destroy(*each[i]);
    *each[i] = NULL;
  }
}

size_t answers_payload(const struct answers *answers) {
  int64_t most = natsConnection_GetMaxPayload(answers->connection);
  return most < LEAST_PAYLOAD ? 0 : (size_t)most - REPLY_HEAD_BYTES;
}

void answers_send(struct answers *answers, natsMsg *request, const struct reply *reply) {
  send_on(answers->connection, answers, request, reply);
}
