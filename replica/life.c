/*
 * What a replica does with its rows: it begins with them, keeps them while it is late or cut off, and drops them only if they are not what
 * the log leads to.
 */
#include "replica.h"
#include <inttypes.h>
#include <stdio.h>
#include <string.h>

/* Tries. */

static void at_once(struct replica *replica) { replica->next_try = clock_now(); }

static void again_later(struct replica *replica) {
  replica->next_try = clock_now() + replica->pause;
  replica->pause = 2 * replica->pause < LONGEST_PAUSE ? 2 * replica->pause : LONGEST_PAUSE;
}

static void leave_group(struct replica *replica, enum state state) {
  member_leave(&replica->member);
  replica->state = state;
  answer_all(replica, "unready");
}

static void free_pending(struct replica *replica) {
  natsMsg_Destroy(replica->pending);
  replica->pending = NULL;
  queue_hold_messages(&replica->queue, false);
}

/* Connections. */

static void close_connections(struct replica *replica) {
  leave_group(replica, STATE_UNCONNECTED);
  log_unfollow(&replica->log);
  free_pending(replica);
  answers_close(&replica->answers);
  log_close(&replica->log);
}

/* Several looks fit into the time for which a replica answers without knowing the end of the log. */
static int64_t look_every(int64_t lost_after) {
  if (lost_after / 4 < LEAST_LOOK_EVERY) return LEAST_LOOK_EVERY;
  return lost_after / 4 < LOOK_EVERY ? lost_after / 4 : LOOK_EVERY;
}

/* Returns why the connections cannot be used, or NULL. */
static const char *open_connections(struct replica *replica) {
  const struct options *options = &replica->options;
  struct log *log = &replica->log;
  char inbox[MOST_SUBJECT_BYTES], identity[IDENTITY_BYTES];
  snprintf(inbox, sizeof inbox, "_MMDB.%s.%s", options->name, options->replica);
  struct connecting connecting = {.servers = options->servers, .name = options->replica, .inbox = inbox, .login = &options->login};
  memcpy(identity, log->identity, sizeof identity);
  natsStatus status = log_open(log, &connecting, options->name, options->replica, &replica->queue);
  memcpy(log->identity, identity, sizeof identity);
  log->look_every = look_every(options->lost_after);
  if (status != NATS_OK) return natsStatus_GetText(status);
  connecting.inbox = NULL;
  connecting.login = &options->answer_login;
  status = answers_open(&replica->answers, &connecting);
  if (status != NATS_OK) return natsStatus_GetText(status);
  if (!answers_payload(&replica->answers)) return "the servers take messages of less than 8192 bytes";
  return answers_subscribe(&replica->answers) ? NULL : "cannot subscribe";
}

static bool connect_all(struct replica *replica) {
  const char *wrong = open_connections(replica);
  if (!wrong) return true;
  tell_once(replica, "cannot connect: %s", wrong);
  answers_close(&replica->answers);
  log_close(&replica->log);
  return false;
}

/* Returns why the connections have to be made again, or NULL. libnats closes one for good if the servers refuse its login again and again.
 */
static const char *refuse_connections(struct replica *replica) {
  if (natsConnection_IsClosed(replica->log.connection) || natsConnection_IsClosed(replica->answers.connection)) return "is closed";
  return replica->log.is_stuck || atomic_load(&replica->answers.is_stuck) ? "takes no messages" : NULL;
}

/* Makes connections again that are of no more use. The rows stay. */
static void check_connections(struct replica *replica) {
  const char *wrong = replica->state == STATE_UNCONNECTED ? NULL : refuse_connections(replica);
  if (!wrong) return;
  tell(replica, "a connection %s: it connects again", wrong);
  close_connections(replica);
  at_once(replica);
}

/* Dropping rows. */

/* Whether the log led to anything. Of a message that is applied in part, other traces may be gone. */
static bool has_any(const struct replica *replica) { return replica->database.applied || database_is_between(&replica->database); }

/* Writes the state to a file that no replica loads, once. Returns false if there is a folder for it, and it cannot. */
static bool keep_lost(struct replica *replica) {
  const struct snapshots *snapshots = &replica->snapshots;
  if (!snapshots->folder || !has_any(replica) || replica->is_kept) return true;
  if (!snapshot_write(snapshots, &replica->database, replica->log.identity, true)) return false;
  replica->is_kept = true;
  tell(replica, "wrote its rows at number %" PRIu64 " to a file that ends in .lost", replica->database.applied);
  return true;
}

static void close_rows(struct replica *replica) {
  leave_group(replica, STATE_LOADING);
  stop_tasks(replica);
  log_unfollow(&replica->log);
  free_pending(replica);
  if (replica->has_rows) database_close(&replica->database);
  replica->has_rows = false;
}

/* Drops rows that are wrong. */
static void drop_rows(struct replica *replica, const char *why) {
  alarm_all(replica, "%s at number %" PRIu64 ": it drops its rows and begins again", why, replica->database.applied);
  keep_lost(replica);
  close_rows(replica);
  again_later(replica);
}

/* Keeps rows that are not those of the log, and that no folder takes, until the replica is ended. They can be backed up. */
static void keep_apart(struct replica *replica, const char *why) {
  replica->next_try = INT64_MAX;
  replica->is_apart = true;
  alarm_all(replica, "%s at number %" PRIu64 ": it keeps its rows outside the group until it is ended, as it has no folder for them", why,
            replica->database.applied);
}

/* The rows are whole, and not those of the log: they are written to a file first, and stay where that fails or where there is no folder. */
static void lose_rows(struct replica *replica, const char *why) {
  leave_group(replica, STATE_HALTED);
  log_unfollow(&replica->log);
  replica->why_halted = MISSING_HISTORY;
  replica->sums = (struct sums){.own_count = 0}; /* those of the lost history say nothing of the new one */
  if (has_any(replica) && !replica->snapshots.folder) {
    keep_apart(replica, why);
    return;
  }
  if (!keep_lost(replica)) {
    tell_once(replica, "%s, and its rows cannot be written: it keeps them and tries again", why);
    again_later(replica);
    return;
  }
  alarm_all(replica, "%s at number %" PRIu64 ": it drops its rows and begins again", why, replica->database.applied);
  close_rows(replica);
  again_later(replica);
}

static void become_orphan(struct replica *replica) {
  leave_group(replica, STATE_ORPHANED);
  replica->next_try = clock_now() + LONGEST_PAUSE;
  alarm_all(replica, "log %s is gone: it keeps its rows at number %" PRIu64 " until it is ended, and answers questions as orphaned",
            replica->log.identity, replica->database.applied);
  if (replica->cut_below)
    alarm_all(replica, "another log was made while it cut this one off: the new one may lack messages below number %" PRIu64,
              replica->cut_below);
  keep_lost(replica);
  if (!member_join(&replica->member, false)) tell(replica, "cannot listen to questions");
}

/* Following. */

static void start_following(struct replica *replica, const char *identity) {
  replica->state = STATE_LATE;
  replica->fresh = 0;
  replica->is_kept = false;
  replica->why_halted = MISSING_OLD; /* what it was before says nothing of a later stop */
  replica->next_try = INT64_MAX;
  if (log_follow(&replica->log, replica->database.applied + 1, identity)) return;
  tell_once(replica, "cannot start a thread");
  replica->state = STATE_HALTED;
  again_later(replica);
}

/* Whether the log leads to a snapshot, as far as it still has the message, and nobody contradicted it. */
static bool agrees_with(void *closure, const struct head *head) {
  struct replica *replica = closure;
  bool is_own = !strcmp(head->replica, replica->options.replica);
  if (is_own && head->number > replica->distrust_after) return false;
  if (replica->has_distrusted && is_same_digest(&head->chain, &replica->distrusted)) return false;
  struct extent extent;
  if (log_look(&replica->log, &extent) != NATS_OK) return false;
  if (!head->number || head->number < extent.first) return true;
  return log_leads_to(&replica->log, &replica->database.digester, head->number, &head->before, &head->chain) == SAID_YES;
}

static bool cannot_begin(struct replica *replica, const char *why) {
  tell_once(replica, "cannot begin yet: %s", why);
  again_later(replica);
  return false;
}

/* Begins with the rows of a snapshot, or with none. */
static bool begin(struct replica *replica, uint64_t least) {
  struct extent extent;
  natsStatus status = log_look(&replica->log, &extent);
  if (status == NATS_NOT_FOUND) return cannot_begin(replica, "there is no such log");
  if (status != NATS_OK) return cannot_begin(replica, "the log does not answer");
  if (!*extent.identity) return cannot_begin(replica, "the stream is no log of this format");
  struct wanted wanted = {.extent = &extent, .least = least, .agrees = agrees_with, .closure = replica};
  enum loaded loaded = snapshot_load(&replica->snapshots, &replica->database, &wanted);
  if (loaded == LOADED_MEMORY) return cannot_begin(replica, "an allocation failed");
  if (loaded == LOADED_NONE) {
    replica->is_doubted = replica->is_doubted || replica->has_distrusted;
    replica->has_distrusted = false;
    return cannot_begin(replica, "old messages were dropped from the log, and no snapshot leads to its first one");
  }
  replica->has_rows = true;
  replica->lives++;
  replica->begun_at = replica->snapshot_at = replica->database.applied;
  replica->began_with = replica->database.chain;
  replica->is_grounded = !replica->begun_at;
  replica->trouble[0] = 0;
  tell(replica, "begins at number %" PRIu64 ", and the log ends at %" PRIu64, replica->database.applied, extent.last);
  start_following(replica, extent.identity);
  return true;
}

/* The log was cut off after the rows, or has a hole there: a newer snapshot leads on to the first message of the log. */
static bool begin_past(struct replica *replica, uint64_t first) {
  struct head head;
  uint64_t applied = replica->database.applied;
  if (!snapshots_newest_past(&replica->snapshots, replica->log.identity, applied, &head)) return false;
  if (head.number + 1 < first || !agrees_with(replica, &head)) return false;
  tell(replica, "a snapshot leads on from number %" PRIu64, applied);
  close_rows(replica);
  return begin(replica, applied + 1);
}

/* Follows the log again from the rows that it has, if the log leads on from them. */
static void resume(struct replica *replica) {
  struct database *database = &replica->database;
  struct extent extent;
  if (replica->is_apart) {
    replica->next_try = INT64_MAX;
    return;
  }
  natsStatus status = log_look(&replica->log, &extent);
  if (status != NATS_OK) {
    tell_once(replica, "keeps its rows and waits: %s", status == NATS_NOT_FOUND ? "there is no such log" : "the log does not answer");
    again_later(replica);
    return;
  }
  if (strcmp(extent.identity, replica->log.identity)) {
    if (replica->state != STATE_ORPHANED) on_missing(replica, MISSING_OTHER_LOG);
    else replica->next_try = clock_now() + LONGEST_PAUSE;
    return;
  }
  bool has_message = database->applied && database->applied >= extent.first && database->applied <= extent.last;
  enum said said =
      has_message ? log_leads_to(&replica->log, &database->digester, database->applied, &database->before, &database->chain) : SAID_NOTHING;
  if (replica->why_halted == MISSING_HISTORY || said == SAID_NO) {
    lose_rows(replica, "the log has another history than its rows");
    return;
  }
  bool is_cut = extent.first > database->applied + 1;
  if ((is_cut || replica->why_halted == MISSING_HOLE) && begin_past(replica, extent.first)) return;
  if (is_cut) {
    tell_once(replica, "the log begins at %" PRIu64 ", and no snapshot leads on from number %" PRIu64, extent.first, database->applied);
    again_later(replica);
    return;
  }
  if (replica->state == STATE_ORPHANED) leave_group(replica, STATE_HALTED);
  char identity[IDENTITY_BYTES];
  memcpy(identity, replica->log.identity, sizeof identity);
  start_following(replica, identity);
}

void on_missing(struct replica *replica, enum missing why) {
  static const char *const words[] = {[MISSING_OTHER_LOG] = "the log is another one",
                                      [MISSING_OLD] = "the log was cut off after its rows",
                                      [MISSING_HOLE] = "the log has a hole after its rows",
                                      [MISSING_HISTORY] = "the log has another history than its rows"};
  leave_group(replica, STATE_HALTED);
  log_unfollow(&replica->log);
  free_pending(replica);
  replica->why_halted = why;
  bool is_new = !replica->trouble[0];
  tell_once(replica, "%s (number %" PRIu64 ")", words[why], replica->database.applied);
  if (why == MISSING_OTHER_LOG && has_any(replica)) {
    become_orphan(replica);
  } else if (why == MISSING_OTHER_LOG) {
    close_rows(replica);
    again_later(replica);
  } else if (is_new || why == MISSING_HISTORY) {
    /* Another history may be that of another log, which a later look tells. */
    at_once(replica);
  } else {
    again_later(replica);
  }
}

/* The group. */

/* Looks how old the rows are at most. heard is read first: log_note stores it last. */
static void look_at_age(struct replica *replica) {
  int64_t heard = atomic_load(&replica->log.heard);
  uint64_t last = atomic_load(&replica->log.last);
  if (last <= replica->database.applied && heard > replica->fresh) replica->fresh = heard;
}

static void join_group(struct replica *replica) {
  if (!member_join(&replica->member, true)) {
    tell_once(replica, "cannot listen to requests");
    return;
  }
  replica->state = STATE_READY;
  replica->pause = PAUSE;
  replica->trouble[0] = 0;
  if (!replica->is_away) tell(replica, "is ready at number %" PRIu64, replica->database.applied);
  replica->is_away = false;
}

void join_if_fresh(struct replica *replica) {
  look_at_age(replica);
  bool may_join = replica->state == STATE_LATE && !database_is_between(&replica->database) && !replica->pending && replica->fresh;
  if (may_join && replica->fresh >= clock_now() - replica->options.lost_after / 2) join_group(replica);
}

/* Snapshots. */

/* Drops messages that two snapshots make unnecessary, and keeps those that --keep wants. */
static void cut_log(struct replica *replica) {
  uint64_t applied = replica->database.applied, keep = replica->options.keep;
  struct log *log = &replica->log;
  struct extent extent;
  struct head older;
  if (!keep || applied <= keep || !snapshots_older_of_two(&replica->snapshots, log->identity, &older)) return;
  uint64_t last = older.number < applied - keep ? older.number : applied - keep;
  /* The older one has to be of the log as it is now. The newer one was written or followed by this replica. */
  if (log_leads_to(log, &replica->database.digester, older.number, &older.before, &older.chain) != SAID_YES) return;
  if (log_look(log, &extent) != NATS_OK || strcmp(extent.identity, log->identity) || extent.last < applied || extent.first > last) return;
  /* JetStream drops messages of the log that has the name when the request arrives, which may be another one by then. */
  replica->cut_below = last + 1;
  natsStatus status = log_drop(log, last + 1);
  if (status != NATS_OK) tell(replica, "old messages were not dropped: %s", natsStatus_GetText(status));
  else if (log_look(log, &extent) == NATS_OK && !strcmp(extent.identity, log->identity)) replica->cut_below = 0;
}

void step_aside(struct replica *replica) {
  if (replica->state != STATE_READY) return;
  member_leave(&replica->member);
  replica->state = STATE_LATE;
  replica->is_away = true;
}

/* Whether the log is known to have another history than the rows, which are still there because no folder has taken them. */
static bool has_lost_history(const struct replica *replica) {
  return replica->state == STATE_HALTED && replica->why_halted == MISSING_HISTORY;
}

bool can_back_up(const struct replica *replica) {
  bool is_last = has_lost_history(replica) || replica->state == STATE_ORPHANED;
  return replica->has_rows && (is_last || !database_is_between(&replica->database));
}

/* Writes a snapshot. The replica leaves the group for that, so that nobody waits for it. */
static bool write_snapshot(struct replica *replica) {
  const char *identity = replica->log.identity;
  if (!replica->snapshots.folder || replica->is_doubted || database_is_between(&replica->database)) return false;
  if (has_lost_history(replica)) return false;
  step_aside(replica);
  replica->snapshot_at = replica->database.applied;
  if (!snapshot_write(&replica->snapshots, &replica->database, identity, false)) return false;
  replica->written = replica->database.applied;
  snapshots_remove_old(&replica->snapshots, identity);
  cut_log(replica);
  return true;
}

/* Whether another replica wrote a snapshot to the same folder that makes one of this replica unnecessary for now. */
static bool has_others_snapshot(struct replica *replica) {
  struct numbers numbers;
  uint64_t newest = 0, applied = replica->database.applied;
  if (!snapshots_list(&replica->snapshots, replica->log.identity, &numbers)) return false;
  if (numbers.count) newest = numbers.at[0];
  numbers_free(&numbers);
  if (newest <= replica->snapshot_at || newest > applied) return false;
  replica->snapshot_at = newest;
  return applied - newest < replica->options.snapshot_every;
}

static void snapshot_if_due(struct replica *replica) {
  uint64_t every = replica->options.snapshot_every;
  bool is_due = every && replica->state == STATE_READY && replica->database.applied - replica->snapshot_at >= every;
  if (!is_due || has_others_snapshot(replica)) return;
  write_snapshot(replica);
  join_if_fresh(replica);
}

void on_snapshot(struct replica *replica, natsMsg *request) {
  if (!replica->has_rows || replica->state == STATE_ORPHANED) reply_bare(replica, request, "unready");
  else reply_bare(replica, request, write_snapshot(replica) ? "done" : "unavailable");
  join_if_fresh(replica);
}

void end_life(struct replica *replica) {
  bool has_news = replica->has_rows && replica->database.applied > replica->snapshot_at && replica->state != STATE_ORPHANED;
  end_tasks(replica);
  if (has_news && replica->options.snapshot_every) write_snapshot(replica);
  if (replica->has_rows && (has_lost_history(replica) || replica->state == STATE_ORPHANED)) keep_lost(replica);
  close_connections(replica);
  if (replica->has_rows) database_close(&replica->database);
  replica->has_rows = false;
  bytes_free(&replica->entries);
}

/* Messages. */

/* Asks the log whether it has a message that this replica applied. */
static enum said ask_log_at(struct replica *replica, uint64_t number) {
  const struct digest *before = number ? database_chain_at(&replica->database, number - 1) : NULL;
  const struct digest *chain = database_chain_at(&replica->database, number);
  if (!before || !chain) return SAID_NOTHING;
  return log_leads_to(&replica->log, &replica->database.digester, number, before, chain);
}

/*
 * Returns whether the log has another message than this replica applied under a number or shortly before it. What it lost may lie before
 * messages that it has, so it is asked for several, for half a second at most.
 */
static bool contradicts_log(struct replica *replica, uint64_t number) {
  int64_t began = clock_now();
  enum said said = SAID_YES;
  for (uint64_t back = 0; said == SAID_YES && back < number && clock_now() - began < MOST_BUSY; back++)
    said = ask_log_at(replica, number - back);
  return said == SAID_NO;
}

void drop_contradicted(struct replica *replica, uint64_t number) {
  if (replica->is_apart || replica->state == STATE_ORPHANED) return;
  if (contradicts_log(replica, number)) on_missing(replica, MISSING_HISTORY);
  else drop_rows(replica, "most replicas have other rows");
}

bool look_into_history(struct replica *replica, const char *other, uint64_t number) {
  if (clock_now() - replica->asked_log < PAUSE) return false;
  replica->asked_log = clock_now();
  alarm_all(replica, "OTHER HISTORY: replica %s has another one at number %" PRIu64, other, number);
  bool is_lost = contradicts_log(replica, number);
  if (is_lost) on_missing(replica, MISSING_HISTORY);
  return !is_lost;
}

/* The publisher of a message had another history. Where the log bears out what this replica applied, its snapshot may still be wrong. */
static void on_other_history(struct replica *replica, const char *publisher, uint64_t number) {
  bool is_suspect = look_into_history(replica, publisher, number) && !replica->is_grounded && !replica->is_doubted;
  if (!is_suspect) return;
  replica->has_distrusted = true;
  replica->distrusted = replica->began_with;
  lose_rows(replica, "another replica contradicts the snapshot that it began from");
}

/* Compares what the publisher of a message had applied with what this replica has. Returns false if the rows are gone after that. */
static bool check_claim(struct replica *replica, natsMsg *message) {
  uint64_t number;
  struct digest chain;
  const char *publisher = header_of(message, REPLICA_HEADER), *checked = header_of(message, CHECKED_HEADER);
  bool is_claim = read_checked(checked, &number, &chain);
  const struct digest *own = is_claim ? database_chain_at(&replica->database, number) : NULL;
  bool is_named = publisher && is_plain_name(publisher);
  if (!own) return true;
  if (!is_same_digest(own, &chain)) on_other_history(replica, is_named ? publisher : "without a name", number);
  else if (is_named && strcmp(publisher, replica->options.replica) && number >= replica->begun_at) replica->is_grounded = true;
  return replica->has_rows && replica->state != STATE_HALTED;
}

static void halt(struct replica *replica) {
  leave_group(replica, STATE_HALTED);
  log_unfollow(&replica->log);
  replica->next_try = INT64_MAX;
  alarm_all(replica, "the log has a message of a newer format after number %" PRIu64 ": it needs a newer version",
            replica->database.applied);
}

/* Applies a message, which it takes over. */
static void apply(struct replica *replica, natsMsg *message) {
  struct database *database = &replica->database;
  struct message read = log_message(message, database->applied + 1);
  enum applied applied = database_apply(database, &read);
  if (applied == APPLY_MEMORY) {
    replica->pending = message;
    queue_hold_messages(&replica->queue, true);
    if (replica->state == STATE_READY) leave_group(replica, STATE_LATE);
    tell_once(replica, "memory was refused after number %" PRIu64 ": it keeps its rows and tries again", database->applied);
    again_later(replica);
    return;
  }
  bool goes_on = applied == APPLIED && check_claim(replica, message);
  natsMsg_Destroy(message);
  if (applied == APPLY_NEWER) halt(replica);
  if (applied == APPLY_OTHER) on_missing(replica, MISSING_HISTORY);
  if (applied == APPLY_BROKEN) drop_rows(replica, "half a script is applied");
  if (!goes_on) return;
  answer_applied(replica);
  publish_sum(replica);
  if (replica->has_rows) snapshot_if_due(replica);
}

void on_message(struct replica *replica, const struct event *event) {
  bool is_next = replica->has_rows && replica->log.is_followed && event->number == replica->database.applied + 1;
  if (is_next) apply(replica, event->message);
  else natsMsg_Destroy(event->message);
}

static void apply_pending(struct replica *replica) {
  natsMsg *message = replica->pending;
  replica->pending = NULL;
  queue_hold_messages(&replica->queue, false);
  replica->next_try = INT64_MAX;
  apply(replica, message);
}

/* The time. */

void on_tick(struct replica *replica) {
  int64_t now = clock_now(), most = replica->options.lost_after;
  answer_late(replica, now);
  check_connections(replica);
  if (replica->state != STATE_READY && replica->state != STATE_LATE) return;
  look_at_age(replica);
  if (replica->state == STATE_READY && !member_is_in(&replica->member)) {
    tell(replica, "was busy for more than %d ms, and left the group", MOST_BUSY);
    replica->state = STATE_LATE;
  }
  if (replica->state == STATE_READY && replica->fresh < now - most) {
    tell(replica, "is late at number %" PRIu64 ": it leaves the group until it has caught up", replica->database.applied);
    leave_group(replica, STATE_LATE);
    replica->is_away = false;
  }
  join_if_fresh(replica);
}

void advance(struct replica *replica) {
  switch (replica->state) {
  case STATE_UNCONNECTED:
    if (!connect_all(replica)) {
      replica->next_try = clock_now() + PAUSE;
      return;
    }
    replica->state = replica->has_rows ? STATE_HALTED : STATE_LOADING;
    at_once(replica);
    return;
  case STATE_LOADING: begin(replica, 0); return;
  case STATE_HALTED:
  case STATE_ORPHANED: resume(replica); return;
  default:
    if (replica->pending) apply_pending(replica);
    else replica->next_try = INT64_MAX;
  }
}
