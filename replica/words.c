#include "words.h"
#include <string.h>

bool next_line(struct text *script, struct text *line) {
  if (!script->length) return false;
  const uint8_t *feed = memchr(script->at, '\n', script->length);
  size_t whole = feed ? (size_t)(feed - script->at) : script->length;
  *line = (struct text){script->at, whole};
  if (whole && line->at[whole - 1] == '\r') line->length--;
  if (feed) whole++;
  script->at += whole;
  script->length -= whole;
  return true;
}

static bool is_blank(uint8_t byte) { return byte == ' ' || byte == '\t'; }

static bool is_of_word(uint8_t byte) {
  return (byte >= 'a' && byte <= 'z') || (byte >= 'A' && byte <= 'Z') || (byte >= '0' && byte <= '9') || byte == '_';
}

struct text word_of_line(struct text line, size_t place) {
  for (size_t at = 0;; place--) {
    while (at < line.length && is_blank(line.at[at])) at++;
    size_t start = at;
    while (at < line.length && is_of_word(line.at[at])) at++;
    if (!place || at == start) return (struct text){line.at + start, place ? 0 : at - start};
  }
}

bool is_word(struct text word, const char *other) { return word.length == strlen(other) && !memcmp(word.at, other, word.length); }

bool is_id(const char *id) {
  size_t length = strlen(id);
  if (!length || length > MOST_ID_BYTES) return false;
  for (size_t i = 0; i < length; i++)
    if (id[i] < '!' || id[i] > '~') return false;
  return true;
}
