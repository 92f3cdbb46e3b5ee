#include "harness.h"
#include <stdio.h>
#include <unistd.h>

static char folder[] = "/tmp/fuzz-snapshots-XXXXXX";

static void remove_folder(void) { rmdir(folder); }

const char *fuzz_folder(void) {
  static bool is_made;
  if (is_made) return folder;
  MUST(mkdtemp(folder));
  atexit(remove_folder);
  is_made = true;
  return folder;
}

static struct snapshots snapshots_of_folder(void) {
  return (struct snapshots){.folder = fuzz_folder(), .log = FUZZ_LOG, .replica = "fuzz"};
}

static bool agrees_always(void *closure, const struct head *head) {
  (void)closure, (void)head;
  return true;
}

enum loaded fuzz_load(struct database *database, uint64_t number, uint64_t last) {
  struct snapshots snapshots = snapshots_of_folder();
  struct extent extent = {.identity = FUZZ_IDENTITY, .first = 1, .last = last};
  struct wanted wanted = {.extent = &extent, .least = number, .agrees = agrees_always};
  return snapshot_load(&snapshots, database, &wanted);
}

void fuzz_through_snapshot(struct database *database) {
  struct snapshots snapshots = snapshots_of_folder();
  struct database again;
  struct digest before, after;
  char path[PATH_MAX];
  uint64_t number = database->applied;
  MUST(snapshot_sum(database, &before));
  MUST(snapshot_write(&snapshots, database, FUZZ_IDENTITY, false));
  MUST(fuzz_load(&again, number, number) == LOADED);
  MUST(again.applied == number && is_same_digest(&again.chain, &database->chain));
  MUST(snapshot_sum(&again, &after) && is_same_digest(&before, &after));
  database_close(&again);
  MUST(snapshot_path(&snapshots, FUZZ_IDENTITY, number, path) && !unlink(path));
}
