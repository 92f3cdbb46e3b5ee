/*
 * A replica: a database that follows a log and answers questions about it. docs/REPLICAS.md says what replicas promise.
 *
 * One thread, that of main, owns the database. It takes events from a queue, to which the threads of libnats, the follower and the thread
 * that waits for signals add them.
 */
#include "replica.h"
#include <getopt.h>
#include <inttypes.h>
#include <signal.h>
#include <stdarg.h>
#include <stdio.h>
#include <stdlib.h>
#include <string.h>
#include <sys/stat.h>
#include <time.h>

static const char usage[] =
    "usage: mmdb-replica --replica NAME [--servers URL,..] [--name LOG] [--snapshots FOLDER] [--snapshot-every N] [--keep N]\n"
    "                    [--sum-every N] [--lost-after MILLISECONDS] [--question-time MILLISECONDS] [--inbox PREFIX] [--login FILE]\n"
    "                    [--answer-login FILE]\n";

/* Reports. */

static void tell_text(const struct replica *replica, const char *text) {
  struct timespec time;
  struct tm parts;
  char stamp[40] = "";
  clock_gettime(CLOCK_REALTIME, &time);
  if (gmtime_r(&time.tv_sec, &parts)) strftime(stamp, sizeof stamp, "%Y-%m-%dT%H:%M:%S", &parts);
  fprintf(stderr, "%s.%03ldZ mmdb-replica %s: %s\n", stamp, time.tv_nsec / 1000000, replica->options.replica, text);
}

void tell(const struct replica *replica, const char *form, ...) {
  char text[512];
  va_list values;
  va_start(values, form);
  vsnprintf(text, sizeof text, form, values);
  va_end(values);
  tell_text(replica, text);
}

void tell_once(struct replica *replica, const char *form, ...) {
  char text[MOST_WHY_BYTES];
  va_list values;
  va_start(values, form);
  vsnprintf(text, sizeof text, form, values);
  va_end(values);
  if (!strcmp(replica->trouble, text)) return;
  memcpy(replica->trouble, text, sizeof text);
  tell_text(replica, text);
}

void alarm_all(struct replica *replica, const char *form, ...) {
  char text[512], subject[MOST_SUBJECT_BYTES], named[sizeof text + MOST_NAME_BYTES + 3];
  va_list values;
  va_start(values, form);
  vsnprintf(text, sizeof text, form, values);
  va_end(values);
  tell_text(replica, text);
  snprintf(named, sizeof named, "%s: %s", replica->options.replica, text);
  write_subject(subject, replica->options.name, "alarm", NULL);
  if (is_connected(replica->answers.connection)) natsConnection_PublishString(replica->answers.connection, subject, named);
}

/* Signals. */

static void fill_signals(sigset_t *signals) {
  sigemptyset(signals);
  sigaddset(signals, SIGINT);
  sigaddset(signals, SIGTERM);
}

static void *wait_for_signal(void *closure) {
  sigset_t signals;
  int number;
  fill_signals(&signals);
  while (sigwait(&signals, &number) == 0)
    while (!queue_add(closure, (struct event){.kind = EVENT_STOP})) nats_Sleep(TICK);
  return NULL;
}

/*
 * The threads that are made later inherit the mask, so signals come to this thread alone. How a child ended is not known while SIGCHLD is
 * ignored, as a program may do that starts the replica.
 */
static bool start_signal_thread(struct queue *queue) {
  sigset_t signals;
  pthread_t thread;
  signal(SIGCHLD, SIG_DFL);
  fill_signals(&signals);
  return !pthread_sigmask(SIG_BLOCK, &signals, NULL) && !pthread_create(&thread, NULL, wait_for_signal, queue) && !pthread_detach(thread);
}

/* Events. */

static void handle(struct replica *replica, const struct event *event) {
  switch (event->kind) {
  case EVENT_MESSAGE: on_message(replica, event); break;
  case EVENT_MISSING:
    if (replica->has_rows && replica->log.is_followed) on_missing(replica, event->why);
    break;
  case EVENT_PUBLISHED: on_published(replica, event); break;
  case EVENT_QUESTION: on_question(replica, event); break;
  case EVENT_CHANGE: on_change(replica, event); break;
  case EVENT_STATUS: on_status(replica, event->message); break;
  case EVENT_BACKUP: on_backup(replica, event->message); break;
  case EVENT_SNAPSHOT: on_snapshot(replica, event->message); break;
  case EVENT_SUM: on_sum(replica, event->message); break;
  case EVENT_CHILD: on_child(replica, event->number); break;
  case EVENT_STOP: replica->is_stopped = true; break;
  }
}

/* Returns when there is something to do without an event. */
static int64_t next_time(const struct replica *replica, int64_t tick) {
  int64_t next = tick < replica->next_try ? tick : replica->next_try, flush = flush_time(replica);
  return flush < next ? flush : next;
}

static void live(struct replica *replica) {
  int64_t tick = clock_now();
  while (!replica->is_stopped) {
    struct event event;
    bool has_event = queue_take(&replica->queue, next_time(replica, tick), &event);
    member_set_busy(&replica->member, true);
    if (has_event) handle(replica, &event);
    flush_changes(replica);
    if (clock_now() >= replica->next_try) advance(replica);
    if (clock_now() >= tick) {
      on_tick(replica);
      tick = clock_now() + TICK;
    }
    member_set_busy(&replica->member, false);
  }
}

/* Options. */

static bool read_count(const char *text, uint64_t *count) {
  char *rest = NULL;
  if (*text < '0' || *text > '9') return false;
  *count = strtoull(text, &rest, 10);
  return !*rest && *count <= INT64_MAX;
}

/* Whether this can be the prefix of inboxes: words with dots between them, none of them a word of the servers. */
static bool is_inbox_prefix(const char *prefix) {
  size_t length = strspn(prefix, "abcdefghijklmnopqrstuvwxyzABCDEFGHIJKLMNOPQRSTUVWXYZ0123456789_-.");
  return length && !prefix[length] && length < MOST_SUBJECT_BYTES && prefix[0] != '.' && prefix[length - 1] != '.' && !strstr(prefix, "..");
}

static bool read_login_option(const char *path, struct login *login) {
  const char *wrong = read_login(path, login);
  if (wrong) fprintf(stderr, "mmdb-replica: cannot use the login file %s: %s\n", path, wrong);
  return !wrong;
}

/* Copies the addresses, and then hides passwords in the argument. */
static bool read_servers(struct options *options, char *value) {
  free(options->servers);
  options->servers = strdup(value);
  hide_passwords(value);
  return options->servers;
}

static bool read_option(struct options *options, int letter, char *value) {
  uint64_t count = 0;
  switch (letter) {
  case 's': return read_servers(options, value);
  case 'n': options->name = value; return is_plain_name(value);
  case 'r': options->replica = value; return is_plain_name(value);
  case 'f': options->folder = value; return true;
  case 'i': options->inbox = value; return is_inbox_prefix(value);
  case 'o': return read_login_option(value, &options->login);
  case 'a': return read_login_option(value, &options->answer_login);
  case 'e': return read_count(value, &options->snapshot_every);
  case 'k': return read_count(value, &options->keep);
  case 'u': return read_count(value, &options->sum_every);
  case 'l': return read_count(value, &count) && (options->lost_after = (int64_t)count) > 0;
  case 'q': return read_count(value, &count) && count <= MOST_CLIENT_WAIT && (options->question_time = (int64_t)count) > 0;
  default: return false;
  }
}

/* What the environment says, which options override. */
static bool read_environment(struct options *options) {
  const char *servers = getenv("MMDB_SERVERS"), *wrong = read_login_of("MMDB_LOGIN", &options->login);
  if (!wrong) wrong = read_login_of("MMDB_ANSWER_LOGIN", &options->answer_login);
  if (wrong) fprintf(stderr, "mmdb-replica: cannot use a login file of the environment: %s\n", wrong);
  options->servers = strdup(servers ? servers : "nats://127.0.0.1:4222");
  return !wrong && options->servers;
}

static bool read_options(struct options *options, int count, char **words) {
  static const struct option names[] = {
      {"servers", 1, NULL, 's'},   {"name", 1, NULL, 'n'},           {"replica", 1, NULL, 'r'},
      {"snapshots", 1, NULL, 'f'}, {"snapshot-every", 1, NULL, 'e'}, {"keep", 1, NULL, 'k'},
      {"sum-every", 1, NULL, 'u'}, {"lost-after", 1, NULL, 'l'},     {"inbox", 1, NULL, 'i'},
      {"login", 1, NULL, 'o'},     {"answer-login", 1, NULL, 'a'},   {"question-time", 1, NULL, 'q'},
      {NULL, 0, NULL, 0},
  };
  bool has_answer_login = getenv("MMDB_ANSWER_LOGIN");
  *options = (struct options){.name = "mmdb", .inbox = "_INBOX", .sum_every = 10000, .lost_after = 15000, .question_time = 10000};
  if (!read_environment(options)) return false;
  for (int letter; (letter = getopt_long(count, words, "", names, NULL)) != -1;) {
    if (!read_option(options, letter, optarg)) return false;
    has_answer_login = has_answer_login || letter == 'a';
  }
  if (!has_answer_login) options->answer_login = options->login;
  return optind == count && options->replica && (options->folder || (!options->snapshot_every && !options->keep));
}

/* Initializes libcrypto, which does not try again if an allocation fails at its first use. */
static bool open_crypto(void) {
  struct digester digester;
  if (!digester_open(&digester)) return false;
  digester_close(&digester);
  return true;
}

static bool open_replica(struct replica *replica) {
  const struct options *options = &replica->options;
  waiters_open(&replica->waiting);
  replica->snapshots = (struct snapshots){.folder = options->folder, .log = options->name, .replica = options->replica};
  replica->answers =
      (struct answers){.queue = &replica->queue, .name = options->name, .replica = options->replica, .inbox = options->inbox};
  replica->started = clock_now();
  replica->pause = PAUSE;
  replica->distrust_after = UINT64_MAX;
  return open_crypto() && queue_open(&replica->queue) && start_signal_thread(&replica->queue) &&
         member_open(&replica->member, &replica->answers);
}

int main(int count, char **words) {
  static struct replica replica; /* the thread that waits for signals may outlive this function */
  open_standard_files();
  if (!read_options(&replica.options, count, words)) {
    fputs(usage, stderr);
    return 2;
  }
  umask(S_IRWXG | S_IRWXO);
  if (!open_replica(&replica)) {
    tell(&replica, "cannot start: an allocation failed, or no thread can be made");
    return 1;
  }
  live(&replica);
  end_life(&replica);
  member_close(&replica.member);
  queue_close(&replica.queue);
  nats_CloseAndWait(CALL_WAIT);
  tell(&replica, "ends");
  free(replica.options.servers);
  return 0;
}
