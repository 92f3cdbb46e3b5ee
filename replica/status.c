/* What operators ask: the status of a replica, and a copy of its rows. */
#include "replica.h"
#include <inttypes.h>
#include <stdio.h>
#include <stdlib.h>
#include <string.h>

enum { PART_BYTES = 256 * 1024 };

static const char *const states[] = {
    [STATE_UNCONNECTED] = "unconnected", [STATE_LOADING] = "loading",   [STATE_LATE] = "late", [STATE_READY] = "ready",
    [STATE_HALTED] = "halted",           [STATE_ORPHANED] = "orphaned",
};

static bool print_status(struct replica *replica, struct bytes *text) {
  const struct database *database = &replica->database;
  uint64_t last = atomic_load(&replica->log.last), applied = replica->has_rows ? database->applied : 0;
  struct load load = queue_load(&replica->queue);
  char chain[DIGEST_TEXT_BYTES] = "";
  if (replica->has_rows) write_digest(chain, &database->chain);
  int64_t age = replica->fresh ? clock_now() - replica->fresh : -1;
  return bytes_print(text, "{\"replica\": \"%s\", \"state\": \"%s\", \"log\": \"%s\", \"sequence\": %" PRIu64 ", \"chain\": \"%s\", ",
                     replica->options.replica, states[replica->state], replica->log.identity, applied, chain) &&
         bytes_print(text, "\"last\": %" PRIu64 ", \"lag\": %" PRIu64 ", \"age_ms\": %" PRId64 ", \"lives\": %" PRIu64 ", ", last,
                     last > applied ? last - applied : 0, age, replica->lives) &&
         bytes_print(text, "\"queued_messages\": %zu, \"queued_requests\": %zu, \"queued_bytes\": %zu, ", load.messages, load.requests,
                     load.bytes) &&
         bytes_print(text, "\"snapshot\": %" PRIu64 ", \"summed\": %" PRIu64 ", \"agreed\": %" PRIu64 ", \"children\": %zu, ",
                     replica->written, replica->summed, replica->agreed, count_tasks(replica)) &&
         bytes_print(text, "\"doubted\": %s, \"format\": %d, \"library\": %" PRIu32 ", \"uptime_ms\": %" PRId64 "}\n",
                     replica->is_doubted ? "true" : "false", LOG_FORMAT, mmdb_version(), clock_now() - replica->started);
}

void on_status(struct replica *replica, natsMsg *request) {
  struct bytes text = {NULL, 0, 0};
  if (print_status(replica, &text)) reply_text(replica, request, "done", (struct text){text.at, text.length});
  else reply_bare(replica, request, "memory");
  bytes_free(&text);
}

/* Sends a file in messages to the inbox of a request, and adds its bytes to sent. Returns false if it cannot be read or sent. */
static bool send_parts(struct replica *replica, const char *inbox, FILE *file, uint64_t *sent) {
  uint8_t *part = malloc(PART_BYTES);
  bool is_done = part && is_connected(replica->answers.connection);
  for (size_t length; is_done && (length = fread(part, 1, PART_BYTES, file)); *sent += length) {
    natsStatus status = natsConnection_Publish(replica->answers.connection, inbox, part, (int)length);
    /* The next part is sent when the server has this one, so that no server holds a whole snapshot for a slow client. */
    is_done = status == NATS_OK && natsConnection_FlushTimeout(replica->answers.connection, CALL_WAIT) == NATS_OK;
  }
  is_done = is_done && !ferror(file);
  free(part);
  return is_done;
}

void on_backup(struct replica *replica, natsMsg *request) {
  if (!can_back_up(replica)) {
    reply_bare(replica, request, "unready");
    return;
  }
  step_aside(replica);
  FILE *file = tmpfile();
  char number[24];
  uint64_t sent = 0;
  bool is_done = file && snapshot_put(file, &replica->snapshots, &replica->database, replica->log.identity);
  if (is_done) {
    rewind(file);
    is_done = send_parts(replica, natsMsg_GetReply(request), file, &sent);
  }
  if (file) fclose(file);
  /* Servers may lose parts on their way, so the client hears how many bytes there were. */
  int length = snprintf(number, sizeof number, "%" PRIu64, sent);
  if (is_done) reply_text(replica, request, "done", (struct text){(const uint8_t *)number, (size_t)length});
  else reply_bare(replica, request, "unavailable");
  join_if_fresh(replica);
}
