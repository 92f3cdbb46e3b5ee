#include "entry.h"
#include <inttypes.h>
#include <string.h>

enum { MOST_HEAD_BYTES = MOST_ID_BYTES + 48 };

bool take_number(struct text *text, uint64_t *number) {
  size_t length = 0;
  uint64_t value = 0;
  for (; length < text->length && text->at[length] >= '0' && text->at[length] <= '9'; length++) {
    uint64_t digit = text->at[length] - '0';
    if (value > (UINT64_MAX - digit) / 10) return false;
    value = 10 * value + digit;
  }
  if (!length || (length > 1 && text->at[0] == '0')) return false;
  *number = value;
  *text = (struct text){text->at + length, text->length - length};
  return true;
}

static bool take_byte(struct text *text, char byte) {
  if (!text->length || text->at[0] != byte) return false;
  *text = (struct text){text->at + 1, text->length - 1};
  return true;
}

static bool take_id(struct text *text, char id[MOST_ID_BYTES + 1]) {
  size_t length = 0;
  while (length < text->length && length < MOST_ID_BYTES && text->at[length] >= '!' && text->at[length] <= '~') length++;
  if (!length) return false;
  memcpy(id, text->at, length);
  id[length] = 0;
  *text = (struct text){text->at + length, text->length - length};
  return true;
}

bool next_entry(struct text *body, struct entry *entry) {
  uint64_t flags, length;
  struct text rest = *body;
  bool has_head = take_id(&rest, entry->id) && take_byte(&rest, ' ') && take_number(&rest, &entry->since) && take_byte(&rest, ' ') &&
                  take_number(&rest, &flags) && take_byte(&rest, ' ') && take_number(&rest, &length) && take_byte(&rest, '\n');
  if (!has_head || flags > ALL_FLAGS || length > MOST_SCRIPT_BYTES || length >= rest.length) return false;
  entry->flags = (unsigned)flags;
  entry->script = (struct text){rest.at, (size_t)length};
  rest = (struct text){rest.at + length, rest.length - (size_t)length};
  if (!take_byte(&rest, '\n')) return false;
  *body = rest;
  return true;
}

bool is_body(struct text body) {
  struct entry entry;
  if (!body.length) return false;
  while (next_entry(&body, &entry)) continue;
  return !body.length;
}

size_t count_entries(struct text body) {
  struct entry entry;
  size_t count = 0;
  while (next_entry(&body, &entry)) count++;
  return count;
}

bool add_entry(struct bytes *body, const struct entry *entry) {
  if (!bytes_reserve(body, entry->script.length + MOST_HEAD_BYTES)) return false;
  bool is_done = bytes_print(body, "%s %" PRIu64 " %u %zu\n", entry->id, entry->since, entry->flags, entry->script.length);
  return is_done && bytes_add(body, entry->script.at, entry->script.length) && bytes_add(body, "\n", 1);
}
