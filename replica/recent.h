/*
 * The newest ids of the log, with what became of their scripts.
 *
 * What the table keeps follows from the log alone, so its limits are part of what replicas agree on. Everything that changes it is in the
 * order of the log.
 */
#ifndef RECENT_H
#define RECENT_H

#include "digest.h"
#include "words.h"

enum { MOST_RECENT = 65536, MOST_RECENT_BYTES = 64 * 1024 * 1024 };

enum outcome {
  OUTCOME_DONE,
  OUTCOME_REFUSED, /* a line was refused, so the script changed nothing */
  OUTCOME_INVALID, /* the bytes are no script, so they were skipped */
  OUTCOME_UNMET    /* a line matched no row and had to, so the script changed nothing */
};
enum { OUTCOMES = OUTCOME_UNMET + 1 };

/* A script: its id, the number of its message, the digest of its bytes, its outcome and its replies (of no script: what is wrong). */
struct recent {
  const char *id;
  uint64_t sequence;
  struct digest digest;
  enum outcome outcome;
  struct text replies;
  void *block;   /* of a script that is kept: its id and its replies */
  uint32_t next; /* of a script that is kept: the place of the next one of its bucket */
};

struct recents {
  struct recent *ring; /* MOST_RECENT of them */
  uint32_t *buckets;
  uint8_t key[KEY_BYTES];
  size_t first, count, bytes;
  uint64_t forgotten; /* the greatest number of an id that was dropped, or 0 */
};

/* Returns false if an allocation fails, or if the system has no random bytes. */
bool recents_open(struct recents *recents);
void recents_close(struct recents *recents);

/* Returns what is kept under an id, or NULL. */
const struct recent *recents_find(const struct recents *recents, const char *id);

/* Keeps a copy, and drops the oldest ones past the limits. The id must not be there. Returns false if an allocation fails, and then
 * nothing changed. */
bool recents_add(struct recents *recents, struct recent recent);

/* Returns one of those that are kept, the oldest first. */
const struct recent *recents_at(const struct recents *recents, size_t place);

#endif
