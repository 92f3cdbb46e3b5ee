/* The state of a replica after a number of messages of the log: the tables, the standing queries, the newest ids and the chain hash. */
#ifndef DATABASE_H
#define DATABASE_H

#include "bytes.h"
#include "recent.h"
#include <mmdb.h>

/* The format of a log. It has to become greater whenever messages change, or what libmmdb replies to a line: then two versions never apply
 * the same log. */
enum { LOG_FORMAT = 2, CHAINS = 8192, IDENTITY_DIGITS = 16, IDENTITY_BYTES = IDENTITY_DIGITS + 1 };
enum { COLUMNS_BYTES = 2048 };

/* A message of the log. format and checked are the values of its headers, or NULL. */
struct message {
  uint64_t number;
  const char *format, *checked;
  struct text body;
};

/* How far a message was applied when memory was short: the next call goes on from there. */
struct progress {
  size_t entries;     /* how many of its entries are behind it */
  uint64_t forgotten; /* recents.forgotten before the message */
  bool has_run;
  struct digest chain;  /* the chain hash that the message leads to, by which it is told from another one */
  enum outcome outcome; /* of the entry that has run and whose id is not kept yet */
};

struct database {
  mmdb db;
  size_t rollback;             /* a statement that takes an open transaction back without memory */
  uint64_t applied;            /* the number of the last message that was applied */
  struct digest before, chain; /* the chain hashes at applied - 1 and at applied */
  struct digest *chains;       /* the newest CHAINS chain hashes, each at its number modulo CHAINS */
  uint64_t chains_from;        /* the least number of which a chain hash is kept, unless newer ones replaced it */
  struct recents recents;
  struct bytes replies; /* of the script or question at hand */
  struct digester digester;
  struct progress progress;
  uint64_t largest, largest_at; /* the rows of the largest table or standing query, and applied when they were counted */
  bool has_largest;
};

/* What became of a message. */
enum applied {
  APPLIED,
  APPLY_NEWER,  /* its format is greater than LOG_FORMAT. Nothing changed */
  APPLY_OTHER,  /* another message with its number was applied in part. Nothing changed */
  APPLY_MEMORY, /* an allocation failed. A later call with the same message goes on where this one stopped */
  APPLY_BROKEN  /* half a script is applied. The database serves only to be closed */
};

/* What became of a question. */
enum answer {
  ANSWER_DONE,
  ANSWER_REFUSED,   /* the reply is an error of the language */
  ANSWER_TOO_LARGE, /* the reply exceeds the bytes that it may have */
  ANSWER_LONG,      /* it is expected to read more rows than it may. It was not run */
  ANSWER_MEMORY     /* an allocation failed */
};

/* What a question may take: bytes of its reply, and rows that it is expected to read. */
struct limits {
  size_t bytes;
  uint64_t reads;
};

/* No limit of the rows that a question reads. */
#define ANY_READS UINT64_MAX

/* Opens an empty database, at number 0 of a log. Returns false if an allocation fails, and then it is closed. */
bool database_open(struct database *database, const char *identity);
void database_close(struct database *database);

/* Applies the next message of the log, as PROTOCOL.md says. */
enum applied database_apply(struct database *database, const struct message *message);

/* Returns whether a message is applied in part. Then questions and snapshots would see what no message of the log leads to. */
bool database_is_between(const struct database *database);

/* Returns how many entries of the message after the last one are applied: 0 unless a message is applied in part. */
size_t database_part(const struct database *database);

/* Computes the chain hash that a message leads to from another one. Returns false if libcrypto fails. */
bool chain_on(struct digester *digester, const struct digest *before, const struct message *message, struct digest *after);

/* Reads the header Mmdb-Checked. Returns false if it is malformed or NULL. */
bool read_checked(const char *checked, uint64_t *number, struct digest *chain);

/* Returns the chain hash at a number, or NULL if it is not kept. */
const struct digest *database_chain_at(const struct database *database, uint64_t number);

/* Computes the digest of a script and its flags, under which its id is kept. */
bool database_digest(struct database *database, struct text script, unsigned flags, struct digest *digest);

/*
 * Answers a line that asks. The reply is in replies, except in the last three cases. columns gets the columns of its rows, as
 * "name INT, name TEXT", or nothing. Nothing else changes.
 */
enum answer database_ask(struct database *database, struct text line, const struct limits *limits, char columns[COLUMNS_BYTES]);

/* Returns the number of rows of the largest table or standing query; UINT64_MAX if an allocation fails. */
uint64_t database_largest(struct database *database);

/*
 * Returns about how many rows a plan, as EXPLAIN returns it, reads, if no table has more than largest rows. An index is expected to find
 * few rows, so a plan that reads one table by an index may read more than that: all rows of the table, once.
 */
uint64_t reads_of_plan(struct text plan, uint64_t largest);

/* Reads the next piece of the dump, whole lines, or nothing at its end. Returns false if an allocation fails. */
bool database_dump(struct database *database, mmdb_dump_place *place, struct bytes *piece);

/* Runs a line of a snapshot. If it makes a standing query, appends it to watches. Returns false unless all of this is done. */
bool database_restore(struct database *database, struct text line, struct bytes *watches);

/* Sets the place in the log of a database that was restored. */
void database_set_place(struct database *database, uint64_t number, const struct digest *before, const struct digest *chain);

/*
 * Computes the sum of what a snapshot contains: TABLES, each SCAN, the lines of the standing queries as they are in the snapshot, one after
 * another, the ids and the place in the log. Returns false if an allocation fails.
 */
bool database_sum(struct database *database, const struct bytes *watches, struct digest *sum);

/*
 * Computes the sum that replicas compare: TABLES, the ids of messages past a number, the place in the log, and the rows of one table or
 * standing query, that at a place modulo their count. Returns false if an allocation fails.
 */
bool database_sum_part(struct database *database, size_t place, uint64_t after, struct digest *sum);

#endif
