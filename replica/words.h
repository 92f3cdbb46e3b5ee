/* Lines of a text, and words of a line. What a line means is for libmmdb to say. */
#ifndef WORDS_H
#define WORDS_H

#include <stdbool.h>
#include <stddef.h>
#include <stdint.h>

enum { MOST_LINE_BYTES = 4096, MOST_SCRIPT_BYTES = 512 * 1024, MOST_ID_BYTES = 64, MOST_NAME_BYTES = 32 };

/* Bytes of a script: a line without its line end, or several lines. */
struct text {
  const uint8_t *at;
  size_t length;
};

/* Takes the first line off a script, without its line feed and the carriage return before that. Returns false if no line is left. */
bool next_line(struct text *script, struct text *line);

/* Returns the word of a line at a place, counted from 0, or one of no bytes. */
struct text word_of_line(struct text line, size_t place);
bool is_word(struct text word, const char *other);

/* Returns whether this can be the id of a change: 1 to 64 bytes from ! to ~. */
bool is_id(const char *id);

#endif
