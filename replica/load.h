/* The input of mmdb-ask --load. A snapshot is checked to its end before anything of it is sent. */
#ifndef LOAD_H
#define LOAD_H

#include "words.h"
#include <stdio.h>

/* Returns whether bytes are the first line of a snapshot, or what is left of that line where a file was cut off. */
bool begins_snapshot(struct text bytes);

/*
 * Checks the snapshot of which the first line was read from an input. Returns a file that goes on after that line: the input itself, or a
 * copy of the rest if the input cannot be read twice. Returns NULL, and why, if the snapshot is not whole.
 */
FILE *open_whole(FILE *input, struct text first, const char **wrong);

#endif
