#include "recent.h"
#include <stdlib.h>
#include <string.h>
#include <sys/random.h>

enum { BUCKETS = 2 * MOST_RECENT };
#define NONE UINT32_MAX

bool recents_open(struct recents *recents) {
  *recents = (struct recents){.ring = calloc(MOST_RECENT, sizeof *recents->ring), .buckets = malloc(BUCKETS * sizeof *recents->buckets)};
  bool has_key = getrandom(recents->key, sizeof recents->key, 0) == sizeof recents->key;
  if (!has_key || !recents->ring || !recents->buckets) {
    recents_close(recents);
    return false;
  }
  memset(recents->buckets, 0xff, BUCKETS * sizeof *recents->buckets);
  return true;
}

void recents_close(struct recents *recents) {
  for (size_t i = 0; i < recents->count; i++) free(recents_at(recents, i)->block);
  free(recents->ring);
  free(recents->buckets);
  *recents = (struct recents){.ring = NULL};
}

static uint32_t *bucket_of(const struct recents *recents, const char *id) {
  return &recents->buckets[keyed_hash(recents->key, id, strlen(id)) % BUCKETS];
}

const struct recent *recents_find(const struct recents *recents, const char *id) {
  for (uint32_t at = *bucket_of(recents, id); at != NONE; at = recents->ring[at].next)
    if (!strcmp(recents->ring[at].id, id)) return &recents->ring[at];
  return NULL;
}

static size_t bytes_of(const struct recent *recent) { return strlen(recent->id) + 1 + recent->replies.length; }

static void drop_oldest(struct recents *recents) {
  struct recent *oldest = &recents->ring[recents->first];
  uint32_t *link = bucket_of(recents, oldest->id);
  while (*link != recents->first) link = &recents->ring[*link].next;
  *link = oldest->next;
  recents->bytes -= bytes_of(oldest);
  if (oldest->sequence > recents->forgotten) recents->forgotten = oldest->sequence;
  recents->first = (recents->first + 1) % MOST_RECENT;
  recents->count--;
  free(oldest->block);
}

bool recents_add(struct recents *recents, struct recent recent) {
  size_t id_bytes = strlen(recent.id) + 1;
  uint8_t *block = malloc(id_bytes + recent.replies.length);
  if (!block) return false;
  memcpy(block, recent.id, id_bytes);
  if (recent.replies.length) memcpy(block + id_bytes, recent.replies.at, recent.replies.length);
  recent.block = block;
  recent.id = (const char *)block;
  recent.replies.at = block + id_bytes;
  while (recents->count && (recents->count == MOST_RECENT || recents->bytes + bytes_of(&recent) > MOST_RECENT_BYTES)) drop_oldest(recents);
  uint32_t place = (uint32_t)((recents->first + recents->count++) % MOST_RECENT);
  uint32_t *bucket = bucket_of(recents, recent.id);
  recent.next = *bucket;
  *bucket = place;
  recents->ring[place] = recent;
  recents->bytes += bytes_of(&recent);
  return true;
}

const struct recent *recents_at(const struct recents *recents, size_t place) {
  return &recents->ring[(recents->first + place) % MOST_RECENT];
}
