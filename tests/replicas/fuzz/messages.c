/*
 * A log of arbitrary messages. An input has messages with a byte 0x1e between them, and each message has two lines with its headers
 * Mmdb-Format and Mmdb-Checked, and then its body. A line "-" is a missing header.
 *
 * No message may leave a transaction open, or a state that a snapshot does not lead to again.
 */
#include "harness.h"

enum { SEPARATOR = 0x1e, MOST_HEADER_BYTES = 256, SNAPSHOTS_OF = 16 };

/* Takes a header off a message. Returns NULL if it is missing. */
static const char *take_header(struct text *message, char value[MOST_HEADER_BYTES]) {
  struct text line;
  if (!next_line(message, &line) || line.length >= MOST_HEADER_BYTES) return NULL;
  memcpy(value, line.at, line.length);
  value[line.length] = 0;
  return strcmp(value, "-") ? value : NULL;
}

static void apply(struct database *database, struct text rest) {
  char format[MOST_HEADER_BYTES], checked[MOST_HEADER_BYTES];
  uint64_t before = database->applied;
  struct message message = {.number = before + 1};
  message.format = take_header(&rest, format);
  message.checked = take_header(&rest, checked);
  message.body = rest;
  enum applied applied = database_apply(database, &message);
  MUST(applied == APPLIED || applied == APPLY_NEWER);
  MUST(database->applied == before + (applied == APPLIED));
  MUST(!mmdb_in_transaction(&database->db) && !database_is_between(database));
}

int LLVMFuzzerTestOneInput(const uint8_t *data, size_t size) {
  struct database database;
  const uint8_t *end = data + size;
  MUST(database_open(&database, FUZZ_IDENTITY));
  for (const uint8_t *at = data, *next; at < end; at = next) {
    const uint8_t *separator = memchr(at, SEPARATOR, (size_t)(end - at));
    next = separator ? separator + 1 : end;
    apply(&database, (struct text){at, (size_t)((separator ? separator : end) - at)});
  }
  if (size % SNAPSHOTS_OF == 0 && database.applied) fuzz_through_snapshot(&database);
  database_close(&database);
  return 0;
}
