/* The lines of a snapshot, with the digest of those that were read. Its last line contains the digest of all bytes before that line. */
#ifndef READER_H
#define READER_H

#include "digest.h"
#include <stdio.h>

/* A file that is read, with the digest of the lines before the one at hand. */
struct reader {
  FILE *file;
  char *line;          /* with a terminating 0 in place of its line feed */
  size_t room, length; /* of the line with that 0 */
  struct digester digester;
};

/* Begins to read a file from where it is. The file stays the caller's. Returns false if it is NULL or if an allocation fails. */
bool reader_open(struct reader *reader, FILE *file);
void reader_close(struct reader *reader);

/* Reads a line. Returns false if none is left that has its line feed. */
bool reader_next(struct reader *reader);

/* Returns whether the line at hand is the last one: then wrong says why the bytes before it are not those that were written, or is NULL. */
bool reader_is_end(struct reader *reader, const char **wrong);

/* Reads all lines that are left. Returns why they are not the rest of a whole snapshot, or NULL. */
const char *reader_finish(struct reader *reader);

#endif
