/* The entries of a message of the log: scripts with their ids. PROTOCOL.md defines their form. */
#ifndef ENTRY_H
#define ENTRY_H

#include "bytes.h"
#include "words.h"

/* The flags of an entry. */
enum { FLAG_ROWS = 1, ALL_FLAGS = FLAG_ROWS };

/* The most entries of a request. */
enum { MOST_ENTRIES = 4096 };

/* A script with its id. since is a number of the log before which the id was not sent. */
struct entry {
  char id[MOST_ID_BYTES + 1];
  uint64_t since;
  unsigned flags;
  struct text script;
};

/* Takes the first entry off a body. Returns false if there is none, or if it is malformed. */
bool next_entry(struct text *body, struct entry *entry);

/* Returns whether a body is one or more entries, and nothing else. */
bool is_body(struct text body);

/* Returns the number of entries at the start of a body. */
size_t count_entries(struct text body);

/* Appends an entry to a body. Returns false if an allocation fails, and then nothing changed. */
bool add_entry(struct bytes *body, const struct entry *entry);

/* Reads a decimal number without leading zeros from the start of a text, and moves the text past it. */
bool take_number(struct text *text, uint64_t *number);

#endif
