#include "reader.h"
#include "snapshot.h"
#include <dirent.h>
#include <errno.h>
#include <inttypes.h>
#include <stdlib.h>
#include <string.h>

static const char no_memory[] = "an allocation failed";

/* Numbers of snapshots. */

static int newest_first(const void *left, const void *right) {
  uint64_t a = *(const uint64_t *)left, b = *(const uint64_t *)right;
  return (a < b) - (a > b);
}

/* Reads NAME-IDENTITY-NUMBER.snapshot. */
static bool number_of_file(const char *file, const char *log, const char *identity, uint64_t *number) {
  char start[MOST_NAME_BYTES + IDENTITY_BYTES + 4];
  int length = snprintf(start, sizeof start, "%s-%s-", log, identity), end = 0;
  if (length < 0 || (size_t)length >= sizeof start || strncmp(file, start, (size_t)length)) return false;
  return sscanf(file + length, "%20" SCNu64 ".snapshot%n", number, &end) == 1 && end && !file[length + end];
}

static bool add_number(struct numbers *numbers, size_t *room, uint64_t number) {
  if (numbers->count == *room) {
    size_t more = *room ? 2 * *room : 16;
    uint64_t *at = realloc(numbers->at, more * sizeof *at);
    if (!at) return false;
    numbers->at = at;
    *room = more;
  }
  numbers->at[numbers->count++] = number;
  return true;
}

bool snapshots_list(const struct snapshots *snapshots, const char *identity, struct numbers *numbers) {
  size_t room = 0;
  uint64_t number;
  bool is_done = true;
  *numbers = (struct numbers){.at = NULL};
  DIR *folder = opendir(snapshots->folder);
  if (!folder) return false;
  for (struct dirent *entry = readdir(folder); entry && is_done; entry = readdir(folder))
    if (number_of_file(entry->d_name, snapshots->log, identity, &number)) is_done = add_number(numbers, &room, number);
  closedir(folder);
  if (numbers->count) qsort(numbers->at, numbers->count, sizeof *numbers->at, newest_first);
  if (!is_done) numbers_free(numbers);
  return is_done;
}

void numbers_free(struct numbers *numbers) {
  free(numbers->at);
  *numbers = (struct numbers){.at = NULL};
}

bool snapshot_path(const struct snapshots *snapshots, const char *identity, uint64_t number, char path[PATH_MAX]) {
  int length = snprintf(path, PATH_MAX, "%s/%s-%s-%020" PRIu64 ".snapshot", snapshots->folder, snapshots->log, identity, number);
  return length > 0 && length < PATH_MAX;
}

/* Reading. */

static struct text text_of_line(const struct reader *reader) { return (struct text){(const uint8_t *)reader->line, reader->length - 1}; }

/* Reads a line "-- WORD VALUE", and returns the value, or NULL. */
static const char *read_value(struct reader *reader, const char *word) {
  size_t length = strlen(word);
  bool is_it = reader_next(reader) && !strncmp(reader->line, "-- ", 3) && !strncmp(reader->line + 3, word, length) &&
               reader->line[3 + length] == ' ';
  return is_it ? reader->line + 4 + length : NULL;
}

static bool read_number_line(struct reader *reader, const char *word, uint64_t *number) {
  const char *value = read_value(reader, word);
  int end = 0;
  return value && sscanf(value, "%20" SCNu64 "%n", number, &end) == 1 && !value[end];
}

static bool read_digest_line(struct reader *reader, const char *word, struct digest *digest) {
  const char *value = read_value(reader, word);
  return value && strlen(value) == DIGEST_DIGITS && read_digest(value, digest);
}

/* Returns why the first lines are no head of a snapshot of this log, or NULL. */
static const char *read_head(struct reader *reader, const char *log, struct head *head) {
  char form[24], log_of_file[MOST_NAME_BYTES + 1];
  int end = 0;
  snprintf(form, sizeof form, "-- mmdb snapshot %d", LOG_FORMAT);
  if (!reader_next(reader) || strcmp(reader->line, form)) return "it is no snapshot of this format";
  const char *value = read_value(reader, "log");
  if (!value || sscanf(value, "%32s %16s%n", log_of_file, head->identity, &end) != 2 || value[end]) return "it names no log";
  if (strcmp(log_of_file, log)) return "it is of another log";
  if (!read_number_line(reader, "sequence", &head->number)) return "it has no number";
  if (!read_digest_line(reader, "before", &head->before)) return "it has no chain hash";
  if (!read_digest_line(reader, "chain", &head->chain)) return "it has no chain hash";
  if (!read_number_line(reader, "forgotten", &head->forgotten) || head->forgotten > head->number)
    return "it has no number of forgotten ids";
  value = read_value(reader, "replica");
  if (!value || sscanf(value, "%32s", head->replica) != 1) return "it names no replica";
  return read_digest_line(reader, "sum", &head->sum) ? NULL : "it has no sum";
}

/* Reads the replies after the line of an id, and keeps it. */
static bool read_recent(struct reader *reader, struct database *database) {
  char id[MOST_ID_BYTES + 1], digest[DIGEST_TEXT_BYTES];
  struct recent recent = {.id = id};
  struct bytes *replies = &database->replies;
  int outcome, end = 0;
  size_t lines;
  int read = sscanf(reader->line, "-- id %64s %20" SCNu64 " %32s %1d %8zu%n", id, &recent.sequence, digest, &outcome, &lines, &end);
  bool is_id_line = read == 5 && !reader->line[end] && is_id(id) && strlen(digest) == DIGEST_DIGITS && read_digest(digest, &recent.digest);
  if (!is_id_line || outcome < 0 || outcome >= OUTCOMES || recents_find(&database->recents, id)) return false;
  recent.outcome = (enum outcome)outcome;
  replies->length = 0;
  for (; lines; lines--) {
    if (!reader_next(reader) || strncmp(reader->line, "-- > ", 5)) return false;
    if (!bytes_add(replies, reader->line + 5, reader->length - 6) || !bytes_add(replies, "\n", 1)) return false;
  }
  recent.replies = (struct text){replies->at, replies->length};
  return recents_add(&database->recents, recent);
}

/* Returns why the lines after the head do not make the database again, or NULL and the lines of the standing queries. */
static const char *read_body(struct reader *reader, struct database *database, struct bytes *watches) {
  const char *wrong;
  while (reader_next(reader)) {
    if (reader_is_end(reader, &wrong)) return wrong;
    bool is_id = !strncmp(reader->line, "-- id ", 6);
    if (!(is_id ? read_recent(reader, database) : database_restore(database, text_of_line(reader), watches)))
      return "a line of it is refused";
  }
  return "it has no end";
}

static bool open_file(struct reader *reader, const char *path) { return reader_open(reader, fopen(path, "re")); }

static void close_file(struct reader *reader) {
  if (reader->file) fclose(reader->file);
  reader_close(reader);
}

const char *snapshot_verify(const char *path, const struct snapshots *snapshots, const char *identity, struct head *head) {
  struct reader reader;
  const char *wrong = NULL;
  errno = ENOMEM;
  if (!open_file(&reader, path)) wrong = strerror(errno);
  if (!wrong) wrong = read_head(&reader, snapshots->log, head);
  if (!wrong && strcmp(head->identity, identity)) wrong = "it is of another log";
  if (!wrong) wrong = reader_finish(&reader);
  close_file(&reader);
  return wrong;
}

/* Loading. */

/* Returns why a snapshot with this head does not serve, or NULL. */
static const char *refuse_head(const struct head *head, const struct wanted *wanted) {
  const struct extent *extent = wanted->extent;
  if (strcmp(head->identity, extent->identity)) return "it is of another log";
  if (head->number > extent->last) return "the log ends before it";
  if (head->number + 1 < extent->first) return "the log begins after it";
  return wanted->agrees(wanted->closure, head) ? NULL : "the log has another history";
}

/* Returns why the database does not have the sum of a snapshot at its place in the log, or NULL. */
static const char *set_place(struct database *database, const struct head *head, const struct bytes *watches) {
  struct digest sum;
  if (database->recents.forgotten > head->forgotten) return "it has too many ids";
  database->recents.forgotten = head->forgotten;
  database_set_place(database, head->number, &head->before, &head->chain);
  if (!database_sum(database, watches, &sum)) return no_memory;
  return is_same_digest(&sum, &head->sum) ? NULL : "its rows do not have their sum";
}

static const char *read_snapshot(struct reader *reader, struct database *database, const char *log, const struct wanted *wanted) {
  struct head head;
  struct bytes watches = {NULL, 0, 0};
  const char *wrong = read_head(reader, log, &head);
  if (!wrong) wrong = refuse_head(&head, wanted);
  if (!wrong) wrong = read_body(reader, database, &watches);
  if (!wrong) wrong = set_place(database, &head, &watches);
  bytes_free(&watches);
  return wrong;
}

/* Opens the database from a file. */
static const char *load_file(struct database *database, const char *path, const char *log, const struct wanted *wanted) {
  struct reader reader;
  const char *wrong;
  if (!database_open(database, wanted->extent->identity)) return no_memory;
  errno = ENOMEM;
  wrong = open_file(&reader, path) ? read_snapshot(&reader, database, log, wanted) : strerror(errno);
  close_file(&reader);
  if (wrong) database_close(database);
  return wrong;
}

enum loaded snapshot_load(const struct snapshots *snapshots, struct database *database, const struct wanted *wanted) {
  struct numbers numbers = {.at = NULL};
  const char *identity = wanted->extent->identity;
  bool is_loaded = false;
  char path[PATH_MAX];
  if (snapshots->folder && !snapshots_list(snapshots, identity, &numbers)) perror(snapshots->folder);
  for (size_t i = 0; i < numbers.count && !is_loaded && numbers.at[i] >= wanted->least; i++) {
    if (!snapshot_path(snapshots, identity, numbers.at[i], path)) continue;
    const char *wrong = load_file(database, path, snapshots->log, wanted);
    fprintf(stderr, "mmdb-replica %s: %s %s%s\n", snapshots->replica, path, wrong ? "is passed over: " : "is loaded", wrong ? wrong : "");
    is_loaded = !wrong;
  }
  numbers_free(&numbers);
  if (is_loaded) return LOADED;
  if (wanted->least || wanted->extent->first > 1) return LOADED_NONE;
  return database_open(database, identity) ? LOADED : LOADED_MEMORY;
}
