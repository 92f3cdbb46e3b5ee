/* What a line is, what a script is, and what a question is. */
#ifndef SCRIPT_H
#define SCRIPT_H

#include "bytes.h"
#include "words.h"
#include <mmdb.h>

/* What libmmdb says of a line: MMDB_DONE, and then its kind and the number of its holes, or why it has no reading. */
struct reading {
  uint8_t status, kind;
  size_t holes;
};

struct reading read_line(mmdb *db, struct text line);

/* The groups of kinds. */
bool is_definition(uint8_t kind);
bool is_change(uint8_t kind);
bool is_question(uint8_t kind);

enum verdict {
  VERDICT_GOOD,
  VERDICT_BAD,   /* why says what is wrong, in one line with its line feed */
  VERDICT_MEMORY /* an allocation failed, so nothing can be said */
};

/*
 * Returns whether bytes are a script. Each line has a reading and no hole; and the lines that are commands are one change of rows or one
 * definition, or BEGIN, then changes of rows and savepoints, then COMMIT or ROLLBACK. So no script leaves a transaction open. The database
 * only reads the lines: the verdict follows from the bytes.
 */
enum verdict check_script(mmdb *db, struct text script, struct bytes *why);

/* Returns whether bytes are one line that asks, or that has no reading. The database may still refuse it. */
enum verdict check_question(mmdb *db, struct text question, struct bytes *why);

/* Appends the text of a refusal, "error 40 duplicate key" and so on, and a line feed. Returns false if an allocation fails. */
bool add_refusal(struct bytes *text, uint8_t status);

#endif
