/* The sums that replicas publish at agreed numbers, and who is right where they differ. */
#ifndef SUMS_H
#define SUMS_H

#include "database.h"

enum { MOST_SUMS = 64, MOST_SUM_BYTES = 256 };

/* A sum that a replica had at a number of a log, and the chain hash there, if it says one. */
struct sum {
  char replica[MOST_NAME_BYTES + 1], identity[IDENTITY_BYTES];
  uint64_t number;
  struct digest sum, chain;
  bool has_chain;
};

/* The newest sums of this replica and of others, each kind in a ring. */
struct sums {
  struct sum own[MOST_SUMS], others[MOST_SUMS];
  size_t own_count, other_count; /* how many there ever were */
};

/* What the sums at a number say of this replica. Those of another history say nothing of its rows. */
enum agreement {
  SUMS_ALONE, /* nobody else has one, or this replica has none */
  SUMS_AGREE, /* all are equal */
  SUMS_RIGHT, /* they differ, and more replicas have the own one than any other one */
  SUMS_TIE,   /* they differ, and nobody knows which is right */
  SUMS_WRONG  /* they differ, and at least two replicas have another one, more than have the own one */
};

/*
 * Reads and writes a sum as replicas publish it: REPLICA IDENTITY NUMBER SUM. Reading returns false if the text is anything else. The chain
 * hash is in a header.
 */
bool read_sum(struct text text, struct sum *sum);
void write_sum(char text[MOST_SUM_BYTES], const struct sum *sum);

/* Keeps a sum. Another one of the same replica at the same number is replaced. */
void sums_add(struct sums *sums, const struct sum *sum, bool is_own);

/* Returns what the sums that are kept say at a number. */
enum agreement sums_judge(const struct sums *sums, uint64_t number);

/* Returns a sum at a number that is of another history than the own one, or NULL. */
const struct sum *sums_of_other_history(const struct sums *sums, uint64_t number);

#endif
