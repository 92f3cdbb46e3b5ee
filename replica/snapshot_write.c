#include "snapshot.h"
#include <dirent.h>
#include <errno.h>
#include <fcntl.h>
#include <inttypes.h>
#include <stdlib.h>
#include <string.h>
#include <sys/stat.h>
#include <time.h>
#include <unistd.h>

/* Seconds after which a file that was never finished is removed. */
enum { OLDEST_PART = 3600 };

static const char part_ending[] = ".part";

/* A file that is written, with the digest of what was written. */
struct writer {
  FILE *file;
  struct digester digester;
  bool has_failed;
};

static void put(struct writer *writer, const void *from, size_t length) {
  digester_add(&writer->digester, from, length);
  if (fwrite(from, 1, length, writer->file) != length) writer->has_failed = true;
}

static void put_words(struct writer *writer, const char *words) { put(writer, words, strlen(words)); }

static void put_line(struct writer *writer, struct text line) {
  put(writer, line.at, line.length);
  put_words(writer, "\n");
}

static void put_head(struct writer *writer, const struct snapshots *snapshots, const struct database *database, const char *identity,
                     const struct digest *sum) {
  char head[512], before[DIGEST_TEXT_BYTES], chain[DIGEST_TEXT_BYTES], rows[DIGEST_TEXT_BYTES];
  write_digest(before, &database->before);
  write_digest(chain, &database->chain);
  write_digest(rows, sum);
  snprintf(head, sizeof head, "-- mmdb snapshot %d\n-- log %s %s\n-- sequence %" PRIu64 "\n", LOG_FORMAT, snapshots->log, identity,
           database->applied);
  put_words(writer, head);
  snprintf(head, sizeof head, "-- before %s\n-- chain %s\n-- forgotten %" PRIu64 "\n-- replica %s\n-- sum %s\n", before, chain,
           database->recents.forgotten, snapshots->replica, rows);
  put_words(writer, head);
  if (!database_is_between(database)) return;
  snprintf(head, sizeof head, "-- part %zu\n", database_part(database));
  put_words(writer, head);
}

static void put_recent(struct writer *writer, const struct recent *recent) {
  char head[MOST_ID_BYTES + 112], digest[DIGEST_TEXT_BYTES];
  struct text rest = recent->replies, line;
  size_t lines = 0;
  while (next_line(&rest, &line)) lines++;
  write_digest(digest, &recent->digest);
  snprintf(head, sizeof head, "-- id %s %" PRIu64 " %s %d %zu\n", recent->id, recent->sequence, digest, (int)recent->outcome, lines);
  put_words(writer, head);
  for (rest = recent->replies; next_line(&rest, &line); put_line(writer, line)) put_words(writer, "-- > ");
}

/* Appends the lines of the standing queries in the dump, which a sum covers, without line feeds. */
static bool read_watches(struct database *database, struct bytes *watches) {
  mmdb_dump_place place = MMDB_DUMP_START;
  struct bytes *piece = &database->replies;
  struct text line;
  while (database_dump(database, &place, piece)) {
    if (!piece->length) return true;
    for (struct text rest = {piece->at, piece->length}; next_line(&rest, &line);)
      if (is_word(word_of_line(line, 0), "WATCH") && !bytes_add(watches, line.at, line.length)) return false;
  }
  return false;
}

bool snapshot_sum(struct database *database, struct digest *sum) {
  struct bytes watches = {NULL, 0, 0};
  bool is_done = read_watches(database, &watches) && database_sum(database, &watches, sum);
  bytes_free(&watches);
  return is_done;
}

static bool put_dump(struct writer *writer, struct database *database) {
  mmdb_dump_place place = MMDB_DUMP_START;
  struct bytes *piece = &database->replies;
  while (database_dump(database, &place, piece)) {
    if (!piece->length) return true;
    put(writer, piece->at, piece->length);
  }
  return false;
}

static bool put_all(struct writer *writer, const struct snapshots *snapshots, struct database *database, const char *identity) {
  struct digest sum, whole;
  char end[DIGEST_TEXT_BYTES];
  if (!snapshot_sum(database, &sum)) return false;
  digester_begin(&writer->digester);
  put_head(writer, snapshots, database, identity, &sum);
  for (size_t i = 0; i < database->recents.count; i++) put_recent(writer, recents_at(&database->recents, i));
  if (!put_dump(writer, database) || !digester_end(&writer->digester, &whole)) return false;
  write_digest(end, &whole);
  return fprintf(writer->file, "-- end %s\n", end) > 0 && !writer->has_failed;
}

bool snapshot_put(FILE *file, const struct snapshots *snapshots, struct database *database, const char *identity) {
  struct writer writer = {.file = file};
  struct bytes replies = database->replies;
  errno = ENOMEM;
  if (!digester_open(&writer.digester)) return false;
  /* Those of an entry that has run stay for its id, which may not be kept yet. */
  database->replies = (struct bytes){NULL, 0, 0};
  bool is_done = put_all(&writer, snapshots, database, identity);
  bytes_free(&database->replies);
  database->replies = replies;
  digester_close(&writer.digester);
  return fflush(file) == 0 && is_done;
}

/* Flushes the folder, so that the new name is on the disk too. */
static bool sync_folder(const char *folder) {
  int descriptor = open(folder, O_RDONLY | O_DIRECTORY | O_CLOEXEC);
  if (descriptor < 0) return false;
  bool is_done = fsync(descriptor) == 0;
  return close(descriptor) == 0 && is_done;
}

/* Writes a file that has no name of a snapshot yet. The name is of this process alone, and only its user may read the file. */
static bool write_part(char path[PATH_MAX], const struct snapshots *snapshots, struct database *database, const char *identity) {
  int length = snprintf(path, PATH_MAX, "%s/%s-%s-XXXXXX%s", snapshots->folder, snapshots->log, identity, part_ending);
  errno = ENAMETOOLONG;
  int descriptor = length > 0 && length < PATH_MAX ? mkostemps(path, sizeof part_ending - 1, O_CLOEXEC) : -1;
  FILE *file = descriptor < 0 ? NULL : fdopen(descriptor, "w");
  if (!file) {
    if (descriptor < 0) return false;
    close(descriptor);
    unlink(path);
    return false;
  }
  bool is_done = snapshot_put(file, snapshots, database, identity) && fsync(descriptor) == 0;
  /* What was written is read back from the disk, not from memory. */
  if (is_done) posix_fadvise(descriptor, 0, 0, POSIX_FADV_DONTNEED);
  is_done = fclose(file) == 0 && is_done;
  if (!is_done) unlink(path);
  return is_done;
}

/* Returns why the file does not have what the database has, or NULL. */
static const char *read_back(const char *path, const struct snapshots *snapshots, const struct database *database, const char *identity) {
  struct head head;
  const char *wrong = snapshot_verify(path, snapshots, identity, &head);
  if (wrong) return wrong;
  bool is_same = head.number == database->applied && is_same_digest(&head.chain, &database->chain);
  return is_same ? NULL : "it has another place in the log than was written";
}

/* The name has the start of the chain hash: a replica may lose two histories that end at one number. */
static bool path_of_lost(const struct snapshots *snapshots, const struct database *database, const char *identity, char path[PATH_MAX]) {
  char chain[DIGEST_TEXT_BYTES];
  write_digest(chain, &database->chain);
  int length = snprintf(path, PATH_MAX, "%s/%s-%s-%020" PRIu64 "-%s-%.8s.lost", snapshots->folder, snapshots->log, identity,
                        database->applied, snapshots->replica, chain);
  return length > 0 && length < PATH_MAX;
}

bool snapshot_write(const struct snapshots *snapshots, struct database *database, const char *identity, bool is_lost) {
  char path[PATH_MAX], part[PATH_MAX];
  uint64_t number = database->applied;
  const char *wrong = NULL;
  bool has_path = is_lost ? path_of_lost(snapshots, database, identity, path) : snapshot_path(snapshots, identity, number, path);
  if (!has_path || !write_part(part, snapshots, database, identity)) {
    wrong = strerror(errno);
  } else {
    wrong = read_back(part, snapshots, database, identity);
    if (!wrong && (rename(part, path) || !sync_folder(snapshots->folder))) wrong = strerror(errno);
    if (wrong) unlink(part);
  }
  if (wrong) fprintf(stderr, "mmdb-replica %s: snapshot %" PRIu64 " was not written: %s\n", snapshots->replica, number, wrong);
  return !wrong;
}

/* What is kept and what goes. */

static void remove_parts(const struct snapshots *snapshots) {
  size_t log = strlen(snapshots->log);
  DIR *folder = opendir(snapshots->folder);
  if (!folder) return;
  for (struct dirent *entry = readdir(folder); entry; entry = readdir(folder)) {
    struct stat status;
    size_t length = strlen(entry->d_name), ending = sizeof part_ending - 1;
    bool is_part = length > log + ending && !strncmp(entry->d_name, snapshots->log, log) && entry->d_name[log] == '-' &&
                   !strcmp(entry->d_name + length - ending, part_ending);
    if (!is_part || fstatat(dirfd(folder), entry->d_name, &status, AT_SYMLINK_NOFOLLOW)) continue;
    if (status.st_mtime < time(NULL) - OLDEST_PART) unlinkat(dirfd(folder), entry->d_name, 0);
  }
  closedir(folder);
}

bool snapshots_older_of_two(const struct snapshots *snapshots, const char *identity, struct head *older) {
  struct numbers numbers;
  char path[PATH_MAX];
  size_t whole = 0;
  if (!snapshots_list(snapshots, identity, &numbers)) return false;
  for (size_t i = 0; i < numbers.count && whole < KEPT_SNAPSHOTS; i++)
    whole += snapshot_path(snapshots, identity, numbers.at[i], path) && !snapshot_verify(path, snapshots, identity, older);
  numbers_free(&numbers);
  return whole == KEPT_SNAPSHOTS;
}

uint64_t snapshots_newest_past(const struct snapshots *snapshots, const char *identity, uint64_t number, struct head *head) {
  struct numbers numbers;
  char path[PATH_MAX];
  uint64_t found = 0;
  if (!snapshots->folder || !snapshots_list(snapshots, identity, &numbers)) return 0;
  for (size_t i = 0; i < numbers.count && !found && numbers.at[i] > number; i++) {
    bool is_whole = snapshot_path(snapshots, identity, numbers.at[i], path) && !snapshot_verify(path, snapshots, identity, head);
    if (is_whole) found = numbers.at[i];
  }
  numbers_free(&numbers);
  return found;
}

void snapshots_remove_old(const struct snapshots *snapshots, const char *identity) {
  struct head older;
  struct numbers numbers;
  char path[PATH_MAX];
  remove_parts(snapshots);
  if (!snapshots_older_of_two(snapshots, identity, &older) || !snapshots_list(snapshots, identity, &numbers)) return;
  for (size_t i = 0; i < numbers.count; i++) {
    bool goes = numbers.at[i] < older.number && snapshot_path(snapshots, identity, numbers.at[i], path);
    if (goes && unlink(path) && errno != ENOENT) perror(path);
  }
  numbers_free(&numbers);
}
