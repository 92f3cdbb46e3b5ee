/*
 * Snapshots: files from which a database can be made again, with its place in the log.
 *
 * A snapshot is a script of the language. Its comments contain what the script does not: the log, the place in it, the sum of the database
 * and the ids that are kept. Its last line contains the digest of all bytes before it. PROTOCOL.md defines the form.
 */
#ifndef SNAPSHOT_H
#define SNAPSHOT_H

#include "database.h"
#include <limits.h>
#include <stdio.h>

enum { KEPT_SNAPSHOTS = 2 };

/* Where snapshots are, and of what. */
struct snapshots {
  const char *folder, *log, *replica;
};

/* The extent of a log: its identity, and the numbers of its first and last message. */
struct extent {
  char identity[IDENTITY_BYTES];
  uint64_t first, last;
};

/* The comments at the start of a snapshot. */
struct head {
  char identity[IDENTITY_BYTES], replica[MOST_NAME_BYTES + 1];
  uint64_t number, forgotten;
  struct digest before, chain, sum;
};

/* The snapshots of one log in a folder, by their numbers, the newest first. */
struct numbers {
  uint64_t *at;
  size_t count;
};

/* Computes the sum of a database, which its snapshot contains. Returns false if an allocation fails. */
bool snapshot_sum(struct database *database, struct digest *sum);

/* Writes a snapshot to a file. Returns false and sets errno if it cannot. */
bool snapshot_put(FILE *file, const struct snapshots *snapshots, struct database *database, const char *identity);

/*
 * Writes a snapshot under another name, flushes it, renames it into place, and reads it back. A snapshot of a state that the log does not
 * have (is_lost) is named NAME-IDENTITY-NUMBER-REPLICA-CHAIN.lost, which no replica loads. In the midst of a message it has a line
 * "-- part ENTRIES". Returns false, and says so on standard error, if any of this fails.
 */
bool snapshot_write(const struct snapshots *snapshots, struct database *database, const char *identity, bool is_lost);

/* Reads a file from its first byte to its last. Returns why it is not a whole snapshot of a log with this identity, or NULL and its head.
 */
const char *snapshot_verify(const char *path, const struct snapshots *snapshots, const char *identity, struct head *head);

/* Reads the head of the older one of the two newest snapshots that are whole, both read back now. Returns false if there are fewer. */
bool snapshots_older_of_two(const struct snapshots *snapshots, const char *identity, struct head *older);

/* Returns the number of the newest snapshot that is whole and past a number, and reads its head. Returns 0 if there is none. */
uint64_t snapshots_newest_past(const struct snapshots *snapshots, const char *identity, uint64_t number, struct head *head);

/* Removes the snapshots of the log that are older than the newest two that are whole, and files that were never finished. */
void snapshots_remove_old(const struct snapshots *snapshots, const char *identity);

/* Lists the snapshots of the log with this identity. Returns false if an allocation fails or the folder cannot be read. */
bool snapshots_list(const struct snapshots *snapshots, const char *identity, struct numbers *numbers);
void numbers_free(struct numbers *numbers);

bool snapshot_path(const struct snapshots *snapshots, const char *identity, uint64_t number, char path[PATH_MAX]);

enum loaded {
  LOADED,
  LOADED_NONE,  /* the database is closed: no snapshot serves */
  LOADED_MEMORY /* the database is closed: an allocation failed */
};

/* Returns whether the log leads to a snapshot, as far as it still has the message before it. */
typedef bool agrees(void *closure, const struct head *head);

/* Which snapshots may be loaded: those at a number of least or more, unless the log disagrees with them. */
struct wanted {
  const struct extent *extent;
  uint64_t least;
  agrees *agrees;
  void *closure;
};

/*
 * Opens a database from the newest snapshot that serves; or with nothing in it, if least is 0 and the log has its first message. Says on
 * standard error which it was, and why a snapshot was passed over.
 */
enum loaded snapshot_load(const struct snapshots *snapshots, struct database *database, const struct wanted *wanted);

#endif
