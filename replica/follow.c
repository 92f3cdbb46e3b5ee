#include "log.h"
#include <string.h>

/* How often a later message may come in place of the next one, until the leader is asked for the next one. */
enum { MOST_GAPS = 3 };

/* The work of the follower's thread. */
struct follower {
  struct log *log;
  natsSubscription *subscription;
  int64_t looked, moved; /* when it last looked at the end of the log; when it last got a message, or subscribed */
  uint64_t next_then;    /* the number that was next when it last looked */
  int64_t short_since;   /* since when the log ends before that; 0 if it does not */
  bool has_last;         /* whether a message came; then last_hash is that of the last one */
  uint64_t last_hash;
  int gaps;
  bool is_over; /* it reported that the log does not lead on */
};

static void unsubscribe(struct follower *follower) {
  end_subscription(follower->log->connection, &follower->log->ended, &follower->subscription);
}

static void subscribe(struct follower *follower) {
  struct log *log = follower->log;
  char subject[MOST_SUBJECT_BYTES];
  jsSubOptions options;
  write_subject(subject, log->name, "log", NULL);
  if (jsSubOptions_Init(&options) != NATS_OK) return;
  options.Stream = log->name;
  options.Config.DeliverPolicy = js_DeliverByStartSequence;
  options.Config.OptStartSeq = log->next;
  options.Config.AckPolicy = js_AckNone;
  options.Config.FlowControl = true;
  options.Config.Heartbeat = (int64_t)LOOK_EVERY * 1000000;
  options.Config.MemoryStorage = true;
  if (js_SubscribeSync(&follower->subscription, log->jetstream, subject, NULL, &options, NULL) != NATS_OK) follower->subscription = NULL;
  follower->moved = clock_now();
}

static bool is_ending(const struct follower *follower) { return follower->is_over || atomic_load(&follower->log->is_ending); }

/* Reports how the log does not lead on, and ends. */
static void tell_missing(struct follower *follower, enum missing why) {
  struct event event = {.kind = EVENT_MISSING, .number = follower->log->next, .why = why};
  while (!is_ending(follower) && !(follower->is_over = queue_add(follower->log->queue, event))) nats_Sleep(NEXT_WAIT);
}

static uint64_t hash_of_message(natsMsg *message) {
  static const uint8_t key[KEY_BYTES] = {0};
  const char *checked = header_of(message, CHECKED_HEADER);
  struct text body = body_of(message);
  return keyed_hash(key, checked ? checked : "", checked ? strlen(checked) : 0) ^ keyed_hash(key, body.at, body.length);
}

/* Whether the leader has another message than came under the last number. It has, where a log was cut off and has grown again. */
static bool has_other_last(struct follower *follower) {
  natsMsg *message = NULL;
  struct log *log = follower->log;
  if (!follower->has_last || js_GetMsg(&message, log->jetstream, log->name, log->next - 1, NULL, NULL) != NATS_OK) return false;
  bool is_other = hash_of_message(message) != follower->last_hash;
  natsMsg_Destroy(message);
  return is_other;
}

/*
 * Whether the log ends before what came until the last look, and has done so for a time. A server that leads from now on may for a moment
 * not count messages that it has, and one that does not lead may pass a message on before the leader counts it.
 */
static bool is_shorter(struct follower *follower, uint64_t last) {
  if (last + 1 >= follower->next_then) follower->short_since = 0;
  else if (!follower->short_since) follower->short_since = clock_now();
  return follower->short_since && clock_now() - follower->short_since > LONGEST_SHORT;
}

/* Looks where the log ends. It is followed again if it has more than came, and nothing has come for a time. */
static void look(struct follower *follower) {
  struct log *log = follower->log;
  struct extent extent;
  follower->looked = clock_now();
  if (log_look(log, &extent) != NATS_OK) return;
  bool has_more = extent.last >= log->next, is_other = strcmp(extent.identity, log->identity);
  if (is_other) {
    tell_missing(follower, MISSING_OTHER_LOG);
    return;
  }
  bool has_other = is_shorter(follower, extent.last) || (extent.last + 1 >= log->next && has_other_last(follower));
  if (!follower->short_since) follower->next_then = log->next;
  if (has_other) tell_missing(follower, MISSING_HISTORY);
  else if (has_more && extent.first > log->next) tell_missing(follower, MISSING_OLD);
  else if (has_more && clock_now() - follower->moved > LONGEST_QUIET) unsubscribe(follower);
}

static bool number_of(natsMsg *message, uint64_t *number) {
  jsMsgMetaData *data = NULL;
  if (natsMsg_GetMetaData(&data, message) != NATS_OK) return false;
  *number = data->Sequence.Stream;
  jsMsgMetaData_Destroy(data);
  return true;
}

/* After later messages came in place of the next one: asks the leader whether it has the next one. */
static void look_into_gap(struct follower *follower) {
  struct log *log = follower->log;
  natsMsg *message = NULL;
  struct extent extent;
  follower->gaps = 0;
  if (log_look(log, &extent) != NATS_OK || strcmp(extent.identity, log->identity) || extent.last <= log->next) return;
  natsStatus status = js_GetMsg(&message, log->jetstream, log->name, log->next, NULL, NULL);
  natsMsg_Destroy(message);
  if (extent.first > log->next) tell_missing(follower, MISSING_OLD);
  else if (status == NATS_NOT_FOUND) tell_missing(follower, MISSING_HOLE);
}

/* Passes a message on if it is the next one. One that was passed on before is dropped; after a gap, the log is followed again. */
static void pass_on(struct follower *follower, natsMsg *message) {
  struct log *log = follower->log;
  uint64_t number = 0;
  bool is_known = number_of(message, &number);
  bool is_next = is_known && number == log->next;
  uint64_t hash = is_next ? hash_of_message(message) : 0;
  is_next = is_next && queue_add(log->queue, (struct event){.kind = EVENT_MESSAGE, .message = message, .number = number});
  follower->moved = clock_now(); /* after the wait for room */
  if (is_next) {
    log->next++;
    follower->last_hash = hash;
    follower->has_last = true;
    follower->gaps = 0;
    return;
  }
  natsMsg_Destroy(message);
  if (!is_known || number < log->next) return;
  unsubscribe(follower);
  if (number > log->next && ++follower->gaps == MOST_GAPS) look_into_gap(follower);
}

static void *follow(void *closure) {
  struct follower follower = {.log = closure, .looked = INT64_MIN / 2};
  int64_t look_every = follower.log->look_every, next_wait = look_every < NEXT_WAIT ? look_every : NEXT_WAIT;
  follower.next_then = follower.log->next;
  while (!is_ending(&follower)) {
    natsMsg *message = NULL;
    if (clock_now() - follower.looked >= look_every) look(&follower);
    if (!follower.subscription && !is_ending(&follower)) {
      subscribe(&follower);
      /* If the log was made again before that, no message of the new one is passed on. */
      if (follower.subscription) look(&follower);
    }
    if (!follower.subscription) {
      nats_Sleep(NEXT_WAIT); /* it may have failed at once, and nothing says when it would not */
      continue;
    }
    natsStatus status = natsSubscription_NextMsg(&message, follower.subscription, next_wait);
    if (status == NATS_OK) pass_on(&follower, message);
    else if (status != NATS_TIMEOUT) unsubscribe(&follower);
  }
  unsubscribe(&follower);
  return NULL;
}

bool log_follow(struct log *log, uint64_t next, const char *identity) {
  log->next = next;
  memmove(log->identity, identity, strlen(identity) + 1);
  atomic_store(&log->last, 0);
  atomic_store(&log->heard, 0);
  atomic_store(&log->is_ending, false);
  queue_set_takes_messages(log->queue, true);
  log->is_followed = !pthread_create(&log->follower, NULL, follow, log);
  return log->is_followed;
}

void log_unfollow(struct log *log) {
  atomic_store(&log->is_ending, true);
  queue_set_takes_messages(log->queue, false);
  if (log->is_followed) pthread_join(log->follower, NULL);
  log->is_followed = false;
  queue_set_takes_messages(log->queue, false);
}
