#include "log.h"
#include <inttypes.h>
#include <stdio.h>
#include <string.h>

/* How many messages may be published at a time and not yet taken. It is never reached, so that a call never waits. */
enum { MOST_PUBLISHED = 65536 };

/* On a thread of libnats: what the log said to a message. */
static void on_published(jsCtx *jetstream, natsMsg *message, jsPubAck *taken, jsPubAckErr *refused, void *closure) {
  struct log *log = closure;
  (void)jetstream, (void)refused;
  bool is_taken = taken && taken->Stream && !strcmp(taken->Stream, log->name) && taken->Sequence;
  struct event event = {.kind = EVENT_PUBLISHED, .message = message, .number = is_taken ? taken->Sequence : 0, .has_failed = !is_taken};
  if (!queue_add(log->queue, event)) natsMsg_Destroy(message);
}

natsStatus log_open(struct log *log, const struct connecting *connecting, const char *name, const char *replica, struct queue *queue) {
  *log = (struct log){.name = name, .replica = replica, .queue = queue};
  jsOptions options;
  natsStatus status = jsOptions_Init(&options);
  options.Wait = CALL_WAIT;
  options.PublishAsync.MaxPending = MOST_PUBLISHED;
  options.PublishAsync.AckHandler = on_published;
  options.PublishAsync.AckHandlerClosure = log;
  if (status == NATS_OK) status = connect_to(&log->connection, connecting);
  if (status == NATS_OK) status = natsConnection_JetStream(&log->jetstream, log->connection, &options);
  if (status != NATS_OK) log_close(log);
  return status;
}

void log_close(struct log *log) {
  jsCtx_Destroy(log->jetstream);
  destroy_connection(log->connection, &log->ended);
  log->jetstream = NULL;
  log->connection = NULL;
}

/*
 * For how many milliseconds a leader has not heard from a majority, itself counted. A leader that is cut off from the others goes on
 * answering for some time, while they may have chosen another. A server that was never heard from is reported as active 0 ns ago.
 */
static int64_t silence_of(const jsClusterInfo *cluster) {
  int count = cluster ? cluster->ReplicasLen : 0, wanted = (count + 1) / 2;
  int64_t least = wanted ? INT64_MAX : 0;
  for (int i = 0; i < count; i++) {
    int64_t active = cluster->Replicas[i]->Active;
    int as_active = 0;
    for (int j = 0; j < count; j++) as_active += cluster->Replicas[j]->Active > 0 && cluster->Replicas[j]->Active <= active;
    if (as_active >= wanted && active < least) least = active;
  }
  return least / 1000000;
}

/* Reads the description "mmdb log FORMAT IDENTITY". */
static void read_identity(const char *description, char identity[IDENTITY_BYTES]) {
  char read[IDENTITY_BYTES] = "";
  int format = 0, end = 0;
  if (description) sscanf(description, "mmdb log %3d %16[0-9a-f]%n", &format, read, &end);
  bool is_one = end && !description[end] && format == LOG_FORMAT && strlen(read) == IDENTITY_DIGITS;
  memcpy(identity, is_one ? read : "", is_one ? IDENTITY_BYTES : 1);
}

void log_note(struct log *log, uint64_t last, int64_t heard) {
  unsigned long long last_before = atomic_load(&log->last);
  long long heard_before = atomic_load(&log->heard);
  /* A failed exchange loads the number again. */
  while (last_before < last && !atomic_compare_exchange_weak(&log->last, &last_before, last)) continue;
  while (heard_before < heard && !atomic_compare_exchange_weak(&log->heard, &heard_before, heard)) continue;
}

natsStatus log_look(struct log *log, struct extent *extent) {
  jsStreamInfo *info = NULL;
  int64_t asked = clock_now();
  natsStatus status = js_GetStreamInfo(&info, log->jetstream, log->name, NULL, NULL);
  if (status != NATS_OK) return status;
  *extent = (struct extent){.first = info->State.FirstSeq, .last = info->State.LastSeq};
  read_identity(info->Config ? info->Config->Description : NULL, extent->identity);
  int64_t silence = silence_of(info->Cluster), heard = silence < asked ? asked - silence : 0;
  jsStreamInfo_Destroy(info);
  /* A new leader may for a moment not count its newest messages. The number stays then. */
  if (!strcmp(extent->identity, log->identity)) log_note(log, extent->last, heard);
  return NATS_OK;
}

struct message log_message(natsMsg *message, uint64_t number) {
  struct message read = {.number = number, .body = body_of(message)};
  read.format = header_of(message, FORMAT_HEADER);
  read.checked = header_of(message, CHECKED_HEADER);
  return read;
}

enum said log_leads_to(struct log *log, struct digester *digester, uint64_t number, const struct digest *before,
                       const struct digest *chain) {
  natsMsg *message = NULL;
  struct digest after;
  if (js_GetMsg(&message, log->jetstream, log->name, number, NULL, NULL) != NATS_OK) return SAID_NOTHING;
  struct message read = log_message(message, number);
  bool is_done = chain_on(digester, before, &read, &after);
  natsMsg_Destroy(message);
  if (!is_done) return SAID_NOTHING;
  return is_same_digest(&after, chain) ? SAID_YES : SAID_NO;
}

natsStatus log_publish(struct log *log, struct text body, uint64_t checked, const struct digest *chain, natsMsg **published) {
  char subject[MOST_SUBJECT_BYTES], format[8], value[DIGEST_TEXT_BYTES + 24], digits[DIGEST_TEXT_BYTES];
  natsMsg *message = NULL;
  jsPubOptions options;
  *published = NULL;
  if (!is_connected(log->connection)) return NATS_CONNECTION_DISCONNECTED;
  write_subject(subject, log->name, "log", NULL);
  write_digest(digits, chain);
  snprintf(format, sizeof format, "%d", LOG_FORMAT);
  snprintf(value, sizeof value, "%" PRIu64 " %s", checked, digits);
  natsStatus status = jsPubOptions_Init(&options);
  options.MaxWait = CALL_WAIT;
  if (status == NATS_OK) status = natsMsg_Create(&message, subject, NULL, (const char *)body.at, (int)body.length);
  if (status == NATS_OK) status = natsMsgHeader_Set(message, FORMAT_HEADER, format);
  if (status == NATS_OK) status = natsMsgHeader_Set(message, CHECKED_HEADER, value);
  if (status == NATS_OK) status = natsMsgHeader_Set(message, REPLICA_HEADER, log->replica);
  *published = message;
  if (status == NATS_OK) status = js_PublishMsgAsync(log->jetstream, &message, &options);
  if (status == NATS_TIMEOUT || status == NATS_IO_ERROR || status == NATS_SSL_ERROR) log->is_stuck = true;
  natsMsg_Destroy(message);
  return status;
}

natsStatus log_drop(struct log *log, uint64_t number) {
  jsOptions options;
  natsStatus status = jsOptions_Init(&options);
  options.Wait = CALL_WAIT;
  options.Stream.Purge.Sequence = number;
  return status == NATS_OK ? js_PurgeStream(log->jetstream, log->name, &options, NULL) : status;
}
