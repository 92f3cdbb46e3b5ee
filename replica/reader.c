#include "reader.h"
#include <stdlib.h>
#include <string.h>

bool reader_open(struct reader *reader, FILE *file) {
  *reader = (struct reader){.file = file};
  if (!file || !digester_open(&reader->digester)) return false;
  digester_begin(&reader->digester);
  return true;
}

void reader_close(struct reader *reader) {
  digester_close(&reader->digester);
  free(reader->line);
}

bool reader_next(struct reader *reader) {
  if (reader->line && reader->length) {
    reader->line[reader->length - 1] = '\n';
    digester_add(&reader->digester, reader->line, reader->length);
  }
  ssize_t length = getline(&reader->line, &reader->room, reader->file);
  if (length <= 0 || reader->line[length - 1] != '\n') return false;
  reader->length = (size_t)length;
  reader->line[length - 1] = 0;
  return true;
}

bool reader_is_end(struct reader *reader, const char **wrong) {
  static const char word[] = "-- end ";
  size_t before = sizeof word - 1;
  struct digest written, read;
  if (strncmp(reader->line, word, before)) return false;
  bool has_digest = reader->length == before + DIGEST_DIGITS + 1 && read_digest(reader->line + before, &written);
  if (!has_digest || !digester_end(&reader->digester, &read) || !is_same_digest(&written, &read))
    *wrong = "its bytes do not have their digest";
  else *wrong = fgetc(reader->file) == EOF ? NULL : "it goes on after its end";
  return true;
}

const char *reader_finish(struct reader *reader) {
  const char *wrong;
  while (reader_next(reader))
    if (reader_is_end(reader, &wrong)) return wrong;
  return "it has no end";
}
