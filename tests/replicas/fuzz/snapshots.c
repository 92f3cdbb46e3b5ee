/*
 * Snapshot files with arbitrary bytes. The first byte of an input says whether the digest at the end of the file is made right again, so
 * that wrong lines with a right digest are reached too.
 *
 * A file is refused, or it leads to a database that another snapshot leads to again.
 */
#include "harness.h"
#include <stdio.h>
#include <unistd.h>

static const char end_words[] = "-- end ";

/* Returns where the last line begins that starts with the words of the end, or size. */
static size_t place_of_end(const uint8_t *data, size_t size) {
  size_t words = sizeof end_words - 1;
  for (size_t at = size; at-- > 0;)
    if (at + words <= size && !memcmp(data + at, end_words, words) && (!at || data[at - 1] == '\n')) return at;
  return size;
}

/* Writes the bytes to a file, and in place of their last line the right one if the digest is to be repaired. */
static void write_file(const char *path, const uint8_t *data, size_t size, bool is_repaired) {
  size_t length = is_repaired ? place_of_end(data, size) : size;
  FILE *file = fopen(path, "w");
  MUST(file && fwrite(data, 1, length, file) == length);
  if (is_repaired) {
    struct digester digester;
    struct digest digest;
    char text[DIGEST_TEXT_BYTES];
    MUST(digester_open(&digester));
    digester_begin(&digester);
    digester_add(&digester, data, length);
    MUST(digester_end(&digester, &digest));
    digester_close(&digester);
    write_digest(text, &digest);
    MUST(fprintf(file, "%s%s\n", end_words, text) > 0);
  }
  MUST(fclose(file) == 0);
}

int LLVMFuzzerTestOneInput(const uint8_t *data, size_t size) {
  enum { NUMBER = 1000 };
  struct snapshots snapshots = {.folder = fuzz_folder(), .log = FUZZ_LOG, .replica = "fuzz"};
  struct database database;
  struct head head;
  char path[PATH_MAX];
  if (!size) return 0;
  MUST(snapshot_path(&snapshots, FUZZ_IDENTITY, NUMBER, path));
  write_file(path, data + 1, size - 1, data[0] & 1);
  bool is_whole = !snapshot_verify(path, &snapshots, FUZZ_IDENTITY, &head);
  enum loaded loaded = fuzz_load(&database, NUMBER, UINT64_MAX - 1);
  MUST(!unlink(path));
  MUST(loaded != LOADED_MEMORY && (is_whole || loaded == LOADED_NONE));
  if (loaded != LOADED) return 0;
  MUST(!mmdb_in_transaction(&database.db));
  fuzz_through_snapshot(&database);
  database_close(&database);
  return 0;
}
