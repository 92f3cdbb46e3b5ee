#include "load.h"
#include "reader.h"
#include <errno.h>
#include <string.h>

enum { COPY_BYTES = 64 * 1024 };

static const char head[] = "-- mmdb snapshot ";

bool begins_snapshot(struct text bytes) {
  size_t wanted = sizeof head - 1;
  bool is_cut = bytes.length && bytes.at[bytes.length - 1] != '\n';
  if (is_cut && bytes.length < wanted) wanted = bytes.length;
  return bytes.length >= wanted && !memcmp(bytes.at, head, wanted);
}

/* Returns a file with bytes and with what is left of an input, or NULL and errno. Nobody else can read the file, and it has no name. */
static FILE *copy_of(FILE *input, struct text first) {
  uint8_t bytes[COPY_BYTES];
  FILE *copy = tmpfile();
  if (!copy) return NULL;
  bool is_done = fwrite(first.at, 1, first.length, copy) == first.length;
  for (size_t length; is_done && (length = fread(bytes, 1, sizeof bytes, input));) is_done = fwrite(bytes, 1, length, copy) == length;
  if (is_done && !ferror(input) && !fflush(copy)) return copy;
  int error = errno;
  fclose(copy);
  errno = error;
  return NULL;
}

/* Returns why a file does not go on with a whole snapshot, or NULL. */
static const char *refuse_rest(FILE *file) {
  struct reader reader;
  const char *wrong = reader_open(&reader, file) ? reader_finish(&reader) : "an allocation failed";
  reader_close(&reader);
  return wrong;
}

FILE *open_whole(FILE *input, struct text first, const char **wrong) {
  off_t after = ftello(input), start = after < 0 ? 0 : after - (off_t)first.length;
  FILE *file = after < 0 ? copy_of(input, first) : input;
  *wrong = !file || fseeko(file, start, SEEK_SET) ? strerror(errno) : refuse_rest(file);
  if (!*wrong && fseeko(file, start + (off_t)first.length, SEEK_SET)) *wrong = strerror(errno);
  if (!*wrong) return file;
  if (file && file != input) fclose(file);
  return NULL;
}
