/*
 * Sends commands to replicas, and prints their replies. It reads a script as mmdb does, from standard input to its end: a line that asks
 * is a question, a line that changes something is a change, and the lines from BEGIN to COMMIT or ROLLBACK are one change.
 *
 * Each change gets an id, and is sent again with it until it is answered. Each question demands the number of the newest answer before it,
 * so what was seen once is never unseen. The status is 0 if all was answered, 1 if not, and 2 if the options are wrong.
 */
#include "bytes.h"
#include "connect.h"
#include "database.h"
#include "entry.h"
#include "load.h"
#include "script.h"
#include <errno.h>
#include <getopt.h>
#include <inttypes.h>
#include <stdatomic.h>
#include <stdio.h>
#include <stdlib.h>
#include <string.h>
#include <sys/random.h>
#include <time.h>

/* Milliseconds: for an answer until the request is sent again, at first and at most; before that if nobody could answer yet; for all
 * replicas to report their status; for which the number of the last answer serves as the one before which an id was not sent. */
enum { TRY_WAIT = 2500, MOST_TRY_WAIT = 20000, PAUSE = 100, STATUS_WAIT = 1000, NUMBER_LIFE = 1000 };

/* Milliseconds that --wait may be, so that a time after them is a number of 64 bits. */
#define LONGEST_WAIT (INT64_MAX / 2)

enum { RANDOM_BYTES = 12, MOST_PREFIX_BYTES = MOST_ID_BYTES - 21, DIGITS_BYTES = 24 };

/* With --load, lines of INSERT are sent in scripts of at most this many bytes; with --together, changes in requests of about as many. */
enum { LOAD_BYTES = 256 * 1024 };

static const char usage[] =
    "usage: mmdb-ask [--servers URL,..] [--name LOG] [--login FILE] [--inbox PREFIX] [--wait MILLISECONDS] ACTION\n"
    "       [--replica NAME] [--id PREFIX [--since N]] [--at-least N] [--linearizable] [--rows] [--load] [--together N]\n"
    "       [--numbers] < SCRIPT\n"
    "       --make-log COPIES | --status | --backup REPLICA > FILE | --snapshot REPLICA\n";

enum action { ACTION_SCRIPT, ACTION_MAKE_LOG, ACTION_STATUS, ACTION_BACKUP, ACTION_SNAPSHOT };

struct asker {
  char *servers;
  const char *name, *replica, *prefix, *inbox;
  struct login login;
  enum action action;
  char random[2 * RANDOM_BYTES + 1], identity[IDENTITY_BYTES];
  natsConnection *connection;
  mmdb reader;                      /* a database that only reads lines */
  bool is_inside;                   /* the script that is gathered began with BEGIN */
  uint64_t number, changes, copies; /* the number to demand; how many changes there were; the copies of a log to make */
  uint64_t since, together;         /* how many changes to send in one request */
  uint64_t ends;                    /* how many empty changes there were for --linearizable */
  struct bytes gathered;            /* the entries of changes that are not sent yet */
  uint64_t gathered_count;
  int64_t wait, seen;       /* for how long to try; when the last answer came */
  atomic_bool is_forbidden; /* the servers do not permit what was sent */
  bool shows_numbers, was_refused, has_since, is_linearizable, demands_rows, loads;
};

/* What a request says beside its body. id is NULL for a question. */
struct demand {
  const char *id;
  uint64_t number;              /* the least number of the answer, or the number before which the id was not sent */
  bool has_number, has_entries; /* whether the body is entries, which have ids of their own */
};

static int64_t now(void) {
  struct timespec time;
  clock_gettime(CLOCK_MONOTONIC, &time);
  return (int64_t)time.tv_sec * 1000 + time.tv_nsec / 1000000;
}

/* Prints words that came from the network, without control characters. */
static void print_words(FILE *file, const char *words) {
  for (; *words; words++) fputc(*words >= ' ' && *words <= '~' ? *words : '?', file);
}

/* Requests. */

static natsStatus set_headers(natsMsg *message, const struct asker *asker, const struct demand *demand, int64_t wait) {
  char digits[DIGITS_BYTES];
  natsStatus status = NATS_OK;
  snprintf(digits, sizeof digits, "%d", LOG_FORMAT);
  if (demand->has_entries) status = natsMsgHeader_Set(message, FORMAT_HEADER, digits);
  else if (demand->id) status = natsMsgHeader_Set(message, ID_HEADER, demand->id);
  if (status == NATS_OK && demand->id && !demand->has_entries && asker->demands_rows)
    status = natsMsgHeader_Set(message, CONDITION_HEADER, "rows");
  if (status == NATS_OK && demand->has_number) {
    snprintf(digits, sizeof digits, "%" PRIu64, demand->number);
    status = natsMsgHeader_Set(message, demand->id ? SINCE_HEADER : AT_LEAST_HEADER, digits);
  }
  if (status == NATS_OK && *asker->identity) status = natsMsgHeader_Set(message, LOG_HEADER, asker->identity);
  snprintf(digits, sizeof digits, "%" PRId64, wait);
  return status == NATS_OK ? natsMsgHeader_Set(message, WAIT_HEADER, digits) : status;
}

static natsStatus request(struct asker *asker, const struct demand *demand, struct text body, int64_t wait, natsMsg **answer) {
  char subject[MOST_SUBJECT_BYTES];
  natsMsg *message = NULL;
  write_subject(subject, asker->name, demand->id ? "change" : "ask", demand->id ? NULL : asker->replica);
  natsStatus status = natsMsg_Create(&message, subject, NULL, (const char *)body.at, (int)body.length);
  if (status == NATS_OK) status = set_headers(message, asker, demand, wait);
  if (status == NATS_OK) status = natsConnection_RequestMsg(answer, asker->connection, message, wait);
  natsMsg_Destroy(message);
  return status;
}

static bool is_one_of(const char *word, const char *const *words) {
  for (; *words; words++)
    if (!strcmp(word, *words)) return true;
  return false;
}

/* Whether an answer says that another try may have a better one. */
static bool is_passing(const char *status) {
  static const char *const passing[] = {"unready", "unavailable", "behind", "memory", "orphaned", NULL};
  return is_one_of(status, passing);
}

static bool has_replies(const char *status) {
  static const char *const replies[] = {"done", "refused", "unmet", NULL};
  return is_one_of(status, replies);
}

/* Why no other try can succeed, or NULL. */
static const char *hopeless(struct asker *asker, natsStatus status) {
  if (atomic_load(&asker->is_forbidden)) return "the servers do not permit it";
  if (status == NATS_MAX_PAYLOAD) return "it exceeds the messages that the servers take";
  return status == NATS_OK || status == NATS_TIMEOUT || status == NATS_NO_RESPONDERS || status == NATS_CONNECTION_DISCONNECTED ||
                 status == NATS_INSUFFICIENT_BUFFER || status == NATS_IO_ERROR
             ? NULL
             : natsStatus_GetText(status);
}

static void tell_unanswered(const struct demand *demand, const char *said) {
  fprintf(stderr, "mmdb-ask: no answer to ");
  print_words(stderr, demand->id ? demand->id : "a question");
  fprintf(stderr, ": ");
  print_words(stderr, said);
  fputc('\n', stderr);
}

/*
 * Sends a request until it is answered, or the time is over; that is reported on standard error, and NULL returned. An answer of a replica
 * whose log is gone is returned if there is no better one. A question that takes longer than this program waits is given twice the time at
 * the next try; one that takes longer than a replica allows is not tried again.
 */
static natsMsg *answer_to(struct asker *asker, const struct demand *demand, struct text body) {
  int64_t until = now() + asker->wait, wait = TRY_WAIT;
  for (;;) {
    natsMsg *answer = NULL;
    int64_t sent = now(), left = until - sent, most = left > PAUSE ? left : PAUSE;
    natsStatus status = request(asker, demand, body, wait < most ? wait : most, &answer);
    const char *said = status == NATS_OK ? header_of(answer, STATUS_HEADER) : natsStatus_GetText(status), *end = hopeless(asker, status);
    if (!said) said = "the answer has no status";
    bool is_answer = status == NATS_OK && header_of(answer, STATUS_HEADER);
    bool was_longer = is_answer && !strcmp(said, "too-long") && now() - sent > wait / 2 && wait < MOST_TRY_WAIT;
    if (is_answer && !is_passing(said) && !was_longer) return answer;
    if (end || now() >= until) {
      if (is_answer && (was_longer || !strcmp(said, "orphaned"))) return answer;
      tell_unanswered(demand, end ? end : said);
      natsMsg_Destroy(answer);
      return NULL;
    }
    natsMsg_Destroy(answer);
    if (status != NATS_TIMEOUT && !was_longer) nats_Sleep(PAUSE);
    else if (!demand->id && wait < MOST_TRY_WAIT) wait *= 2;
  }
}

/* Takes the place in the log from an answer. Its identity is demanded from then on: numbers of two logs do not compare. */
static void take_place(struct asker *asker, natsMsg *answer) {
  const char *identity = header_of(answer, LOG_HEADER);
  uint64_t number;
  if (!identity || strlen(identity) != IDENTITY_DIGITS || !number_in_header(answer, SEQUENCE_HEADER, &number)) return;
  if (!*asker->identity) memcpy(asker->identity, identity, IDENTITY_BYTES);
  if (number > asker->number) asker->number = number;
  asker->seen = now();
}

/* Prints what became of a change or a question. Returns false if it cannot be printed. */
static bool print_outcome(struct asker *asker, const char *status, uint64_t number, const char *replica, struct text body) {
  bool has = has_replies(status);
  if (asker->shows_numbers || !has) {
    printf("-- ");
    print_words(stdout, status);
    printf(" %" PRIu64 " ", number);
    print_words(stdout, replica ? replica : "?");
    printf("\n");
  }
  if (!has && strcmp(status, "orphaned") && body.length) printf("-- ");
  if (!has || !strcmp(status, "unmet")) asker->was_refused = true;
  return fwrite(body.at, 1, body.length, stdout) == body.length;
}

/* Prints an answer, and frees it. Returns false if there is none, or if it cannot be printed. */
static bool print_answer(struct asker *asker, natsMsg *answer) {
  if (!answer) return false;
  const char *status = header_of(answer, STATUS_HEADER);
  uint64_t number = 0;
  number_in_header(answer, SEQUENCE_HEADER, &number);
  if (has_replies(status)) take_place(asker, answer);
  bool is_done = print_outcome(asker, status, number, header_of(answer, REPLICA_HEADER), body_of(answer));
  natsMsg_Destroy(answer);
  return fflush(stdout) == 0 && is_done;
}

/* Asks for the number of the log: an id that is made after that was not sent before it. */
static bool learn_number(struct asker *asker) {
  static const char question[] = "TABLES";
  natsMsg *answer = answer_to(asker, &(struct demand){.has_number = false}, (struct text){(const uint8_t *)question, sizeof question - 1});
  if (!answer) return false;
  take_place(asker, answer);
  natsMsg_Destroy(answer);
  return true;
}

/* Reads the number before which the next ids were not sent. Returns false if it cannot be learnt. */
static bool take_since(struct asker *asker, struct demand *demand) {
  bool is_own_id = asker->prefix == asker->random;
  /* While this program waited for its input, so many ids may have passed that an older number says nothing. */
  if (is_own_id && now() - asker->seen > NUMBER_LIFE && !learn_number(asker)) return false;
  demand->number = is_own_id ? asker->number : asker->since;
  demand->has_number = is_own_id || asker->has_since;
  return true;
}

static void make_id(struct asker *asker, char id[MOST_ID_BYTES + 1]) {
  snprintf(id, MOST_ID_BYTES + 1, "%s-%" PRIu64, asker->prefix, ++asker->changes);
}

static natsMsg *send_change(struct asker *asker, struct text script) {
  char id[MOST_ID_BYTES + 1];
  struct demand demand = {.id = id};
  if (!take_since(asker, &demand)) return NULL;
  make_id(asker, id);
  return answer_to(asker, &demand, script);
}

/* Several changes in one request. */

/* Makes the body of the request. Returns false if an allocation fails. */
static bool make_body(struct asker *asker, const struct demand *demand, struct bytes *body) {
  struct text rest = {asker->gathered.at, asker->gathered.length};
  struct entry entry;
  bool is_done = true;
  while (is_done && next_entry(&rest, &entry)) {
    entry.since = demand->has_number ? demand->number : UINT64_MAX;
    is_done = add_entry(body, &entry);
  }
  return is_done;
}

/* Takes the outcome of one change off an answer: a line ID STATUS NUMBER BYTES, the replies, and a line feed. */
static bool take_outcome(struct text *body, char status[MOST_ID_BYTES + 1], uint64_t *number, struct text *replies) {
  char head[2 * MOST_ID_BYTES + DIGITS_BYTES];
  struct text line;
  uint64_t length;
  if (!next_line(body, &line) || line.length >= sizeof head) return false;
  memcpy(head, line.at, line.length);
  head[line.length] = 0;
  if (sscanf(head, "%*64s %64s %20" SCNu64 " %20" SCNu64, status, number, &length) != 3 || length >= body->length) return false;
  *replies = (struct text){body->at, (size_t)length};
  *body = (struct text){body->at + length + 1, body->length - (size_t)length - 1};
  return true;
}

static bool print_outcomes(struct asker *asker, natsMsg *answer) {
  const char *replica = header_of(answer, REPLICA_HEADER);
  char status[MOST_ID_BYTES + 1];
  struct text body = body_of(answer), replies;
  uint64_t number;
  bool is_done = true;
  take_place(asker, answer);
  while (is_done && body.length)
    is_done = take_outcome(&body, status, &number, &replies) && print_outcome(asker, status, number, replica, replies);
  natsMsg_Destroy(answer);
  return fflush(stdout) == 0 && is_done;
}

/* Sends the changes that were gathered, and prints what became of each. */
static bool send_gathered(struct asker *asker) {
  char first[MOST_ID_BYTES + 1];
  struct bytes body = {NULL, 0, 0};
  struct text entries = {asker->gathered.at, asker->gathered.length};
  struct entry entry;
  struct demand demand = {.id = first, .has_entries = true};
  if (!next_entry(&entries, &entry)) return true;
  memcpy(first, entry.id, sizeof first);
  bool is_done = take_since(asker, &demand) && make_body(asker, &demand, &body);
  natsMsg *answer = is_done ? answer_to(asker, &demand, (struct text){body.at, body.length}) : NULL;
  bytes_free(&body);
  asker->gathered.length = asker->gathered_count = 0;
  if (!answer) return false;
  return strcmp(header_of(answer, STATUS_HEADER), "done") ? print_answer(asker, answer) : print_outcomes(asker, answer);
}

/* Gathers a change for the next request. */
static bool gather(struct asker *asker, struct text script) {
  struct entry entry = {.flags = asker->demands_rows ? FLAG_ROWS : 0, .script = script};
  if (asker->gathered.length + script.length > LOAD_BYTES && !send_gathered(asker)) return false;
  make_id(asker, entry.id);
  if (!add_entry(&asker->gathered, &entry)) return false;
  return ++asker->gathered_count < asker->together || send_gathered(asker);
}

static bool change(struct asker *asker, struct text script) {
  if (asker->together > 1 && script.length <= LOAD_BYTES) return gather(asker, script);
  return send_gathered(asker) && print_answer(asker, send_change(asker, script));
}

/*
 * Puts an empty change into the log, so that a question at its number sees all that was answered before now. Its id is always a new one: an
 * id of an earlier run would be answered with the number of that run. It changes nothing, so it does not matter when it was sent first.
 */
static bool reach_end(struct asker *asker) {
  static const char nothing[] = "BEGIN\nCOMMIT\n";
  char id[MOST_ID_BYTES + 1];
  for (int64_t until = now() + asker->wait;;) {
    snprintf(id, sizeof id, "%s-end-%" PRIu64, asker->random, ++asker->ends);
    natsMsg *answer = answer_to(asker, &(struct demand){.id = id}, (struct text){(const uint8_t *)nothing, sizeof nothing - 1});
    if (!answer) return false;
    bool is_done = !strcmp(header_of(answer, STATUS_HEADER), "done");
    if (is_done) take_place(asker, answer);
    natsMsg_Destroy(answer);
    if (is_done || now() >= until) return is_done;
  }
}

static bool ask(struct asker *asker, struct text line) {
  if (!send_gathered(asker)) return false;
  if (asker->is_linearizable && !reach_end(asker)) return false;
  struct demand demand = {.number = asker->number, .has_number = true};
  return print_answer(asker, answer_to(asker, &demand, line));
}

/* The script. */

static bool send_script(struct asker *asker, struct bytes *script) {
  bool is_done = change(asker, (struct text){script->at, script->length});
  script->length = 0;
  return is_done;
}

/* Sends what a line ends: itself, or the script since BEGIN. A line without a reading is a question, which a replica refuses as mmdb does.
 */
static bool take_line(struct asker *asker, struct bytes *script, struct text line) {
  struct reading reading = read_line(&asker->reader, line);
  if (reading.status == MMDB_MEMORY) return false;
  bool has_kind = reading.status == MMDB_DONE;
  if (!script->length && has_kind && reading.kind == MMDB_KIND_NOTHING) return true;
  if (!script->length && (!has_kind || is_question(reading.kind))) return ask(asker, line);
  if (!script->length) asker->is_inside = reading.kind == MMDB_KIND_BEGIN;
  if (!bytes_add(script, line.at, line.length) || !bytes_add(script, "\n", 1)) return false;
  bool is_end = has_kind && (reading.kind == MMDB_KIND_COMMIT || reading.kind == MMDB_KIND_ROLLBACK);
  return (asker->is_inside && !is_end) || send_script(asker, script);
}

static bool end_load(struct asker *asker, struct bytes *script) {
  if (!script->length) return true;
  return bytes_add(script, "COMMIT\n", 7) && send_script(asker, script) && !asker->was_refused;
}

/* Gathers lines of INSERT into transactions, and sends each other line alone. A snapshot is loaded like that. */
static bool load_line(struct asker *asker, struct bytes *script, struct text line) {
  struct reading reading = read_line(&asker->reader, line);
  if (reading.status == MMDB_MEMORY) return false;
  if (reading.status == MMDB_DONE && reading.kind == MMDB_KIND_NOTHING) return true;
  bool is_insert = reading.status == MMDB_DONE && reading.kind == MMDB_KIND_INSERT;
  if (!is_insert) return end_load(asker, script) && change(asker, line) && !asker->was_refused;
  if (script->length + line.length > LOAD_BYTES && !end_load(asker, script)) return false;
  if (!script->length && !bytes_add(script, "BEGIN\n", 6)) return false;
  return bytes_add(script, line.at, line.length) && bytes_add(script, "\n", 1);
}

/* Returns what follows the first line of a script that is loaded: nothing, which is reported, of a snapshot that is not whole. */
static FILE *after_first(struct text first) {
  const char *wrong = NULL;
  FILE *input = begins_snapshot(first) ? open_whole(stdin, first, &wrong) : stdin;
  if (!input) fprintf(stderr, "mmdb-ask: nothing of the snapshot was sent: %s\n", wrong);
  return input;
}

/* Takes all lines of the standard input. */
static bool take_lines(struct asker *asker, struct bytes *script) {
  FILE *input = stdin;
  char *bytes = NULL;
  size_t room = 0;
  bool is_done = true, is_first = true;
  for (ssize_t length; is_done && (length = getline(&bytes, &room, input)) > 0; is_first = false) {
    struct text rest = {(const uint8_t *)bytes, (size_t)length}, line;
    if (is_first && asker->loads) input = after_first(rest);
    if (input && next_line(&rest, &line)) is_done = asker->loads ? load_line(asker, script, line) : take_line(asker, script, line);
    is_done = is_done && input;
  }
  if (input && ferror(input)) fprintf(stderr, "mmdb-ask: the input cannot be read\n");
  is_done = is_done && !ferror(input);
  if (input && input != stdin) fclose(input);
  free(bytes);
  return is_done;
}

static bool take_script(struct asker *asker) {
  struct bytes script = {NULL, 0, 0};
  bool is_done = mmdb_open(&asker->reader) == MMDB_DONE && take_lines(asker, &script);
  if (is_done && asker->loads) is_done = end_load(asker, &script);
  is_done = is_done && send_gathered(asker);
  if (is_done && script.length) fprintf(stderr, "mmdb-ask: the input ends in a transaction, which was not sent\n");
  is_done = is_done && !script.length;
  bytes_free(&script);
  bytes_free(&asker->gathered);
  mmdb_close(&asker->reader);
  return is_done;
}

/* The log. */

static bool make_identity(char identity[IDENTITY_BYTES]) {
  uint64_t number;
  if (getrandom(&number, sizeof number, 0) != sizeof number) return false;
  snprintf(identity, IDENTITY_BYTES, "%016" PRIx64, number);
  return true;
}

static bool make_log(struct asker *asker) {
  char subject[MOST_SUBJECT_BYTES], identity[IDENTITY_BYTES], description[64];
  const char *subjects[] = {subject};
  jsCtx *jetstream = NULL;
  jsStreamConfig config;
  jsErrCode code = 0;
  if (!make_identity(identity)) return false;
  snprintf(description, sizeof description, "mmdb log %d %s", LOG_FORMAT, identity);
  write_subject(subject, asker->name, "log", NULL);
  natsStatus status = jsStreamConfig_Init(&config);
  config.Name = asker->name;
  config.Description = description;
  config.Subjects = subjects;
  config.SubjectsLen = 1;
  config.Storage = js_FileStorage;
  config.Replicas = (int64_t)asker->copies;
  config.Discard = js_DiscardNew; /* a full log refuses messages, and never drops any by itself */
  config.DenyDelete = true;       /* none is taken out of its midst */
  if (status == NATS_OK) status = natsConnection_JetStream(&jetstream, asker->connection, NULL);
  if (status == NATS_OK) status = js_AddStream(NULL, jetstream, &config, NULL, &code);
  jsCtx_Destroy(jetstream);
  if (status != NATS_OK) fprintf(stderr, "mmdb-ask: no log was made: %s (%d)\n", natsStatus_GetText(status), (int)code);
  return status == NATS_OK;
}

/* Operators. */

/* Sends an empty request to a subject. Its answers come to the subscription. */
static natsStatus request_all(struct asker *asker, const char *word, const char *last, natsSubscription **answers) {
  char subject[MOST_SUBJECT_BYTES], inbox[MOST_SUBJECT_BYTES], digits[DIGITS_BYTES];
  uint8_t bytes[RANDOM_BYTES];
  natsMsg *message = NULL;
  if (getrandom(bytes, sizeof bytes, 0) != sizeof bytes) return NATS_ERR;
  int length = snprintf(inbox, sizeof inbox, "%s.", asker->inbox);
  for (size_t i = 0; i < sizeof bytes; i++) snprintf(inbox + length + 2 * i, 3, "%02x", bytes[i]);
  write_subject(subject, asker->name, word, last);
  snprintf(digits, sizeof digits, "%d", MOST_TRY_WAIT);
  natsStatus status = natsConnection_SubscribeSync(answers, asker->connection, inbox);
  /* By default, libnats drops what it has no room for in 64 MiB while standard output is slow. */
  if (status == NATS_OK) status = natsSubscription_SetPendingLimits(*answers, -1, -1);
  if (status == NATS_OK) status = natsMsg_Create(&message, subject, inbox, "", 0);
  if (status == NATS_OK) status = natsMsgHeader_Set(message, WAIT_HEADER, digits);
  if (status == NATS_OK) status = natsConnection_PublishMsg(asker->connection, message);
  natsMsg_Destroy(message);
  return status;
}

/* Prints what each replica says within a second. Returns false if none does. */
static bool print_status(struct asker *asker) {
  natsSubscription *answers = NULL;
  int64_t until = now() + STATUS_WAIT;
  bool has_any = false;
  natsStatus status = request_all(asker, "status", asker->replica, &answers);
  for (int64_t left; status == NATS_OK && (left = until - now()) > 0;) {
    natsMsg *answer = NULL;
    status = natsSubscription_NextMsg(&answer, answers, left);
    struct text body = answer ? body_of(answer) : (struct text){NULL, 0};
    if (answer && !natsMsg_IsNoResponders(answer)) has_any = fwrite(body.at, 1, body.length, stdout) == body.length;
    natsMsg_Destroy(answer);
  }
  natsSubscription_Destroy(answers);
  if (!has_any) fprintf(stderr, "mmdb-ask: no replica answers\n");
  return fflush(stdout) == 0 && has_any;
}

/* Takes the last answer to a command: its status, unless fewer bytes came before it than were sent. Older replicas do not say how many. */
static void take_last(char last[MOST_ID_BYTES], const char *said, struct text body, uint64_t received) {
  uint64_t sent;
  bool is_whole = strcmp(said, "done") || !body.length || (take_number(&body, &sent) && sent == received);
  snprintf(last, MOST_ID_BYTES, "%s", is_whole ? said : "parts of it were lost on their way: try again");
}

/* Receives what a replica does for an operator, and prints its parts. The answer with a status is the last one. */
static bool command(struct asker *asker, const char *word) {
  natsSubscription *answers = NULL;
  const char *said = NULL;
  char last[MOST_ID_BYTES] = "no answer";
  uint64_t received = 0;
  natsStatus status = request_all(asker, word, asker->replica, &answers);
  for (struct text body; status == NATS_OK && !said; received += body.length) {
    natsMsg *answer = NULL;
    status = natsSubscription_NextMsg(&answer, answers, asker->wait);
    body = answer ? body_of(answer) : (struct text){NULL, 0};
    said = answer ? header_of(answer, STATUS_HEADER) : NULL;
    if (said) take_last(last, said, body, received);
    else if (answer && natsMsg_IsNoResponders(answer)) status = NATS_NO_RESPONDERS;
    else if (fwrite(body.at, 1, body.length, stdout) != body.length) status = NATS_IO_ERROR;
    natsMsg_Destroy(answer);
  }
  natsSubscription_Destroy(answers);
  if (!strcmp(last, "done")) return fflush(stdout) == 0;
  fprintf(stderr, "mmdb-ask: %s %s: ", word, asker->replica);
  print_words(stderr, status == NATS_OK ? last : natsStatus_GetText(status));
  fputc('\n', stderr);
  return false;
}

/* Options. */

static bool read_count(const char *text, uint64_t *count) {
  char *rest = NULL;
  errno = 0;
  *count = strtoull(text, &rest, 10);
  return *text >= '0' && *text <= '9' && !*rest && !errno && *count <= INT64_MAX;
}

static bool read_login_option(const char *path, struct login *login) {
  const char *wrong = read_login(path, login);
  if (wrong) fprintf(stderr, "mmdb-ask: cannot use the login file %s: %s\n", path, wrong);
  return !wrong;
}

/* Copies the addresses, and then hides passwords in the argument. */
static bool read_servers(struct asker *asker, char *value) {
  free(asker->servers);
  asker->servers = strdup(value);
  hide_passwords(value);
  return asker->servers;
}

static bool read_action(struct asker *asker, enum action action, const char *replica) {
  asker->action = action;
  if (replica) asker->replica = replica;
  return !replica || is_plain_name(replica);
}

static bool read_option(struct asker *asker, int letter, char *value) {
  uint64_t count = 0;
  switch (letter) {
  case 's': return read_servers(asker, value);
  case 'n': asker->name = value; return is_plain_name(value);
  case 'r': asker->replica = value; return is_plain_name(value);
  case 'i': asker->prefix = value; return is_id(value) && strlen(value) <= MOST_PREFIX_BYTES;
  case 'c': return asker->has_since = read_count(value, &asker->since);
  case 'a': return read_count(value, &asker->number);
  case 'v': return asker->shows_numbers = true;
  case 'l': return asker->is_linearizable = true;
  case 'q': return asker->demands_rows = true;
  case 'd': return asker->loads = true;
  case 'g': return read_count(value, &asker->together) && asker->together && asker->together <= MOST_ENTRIES;
  case 'x': asker->inbox = value; return strlen(value) < MOST_SUBJECT_BYTES / 2;
  case 'o': return read_login_option(value, &asker->login);
  case 'w': return read_count(value, &count) && (asker->wait = (int64_t)count) <= LONGEST_WAIT;
  case 'm': return read_action(asker, ACTION_MAKE_LOG, NULL) && read_count(value, &asker->copies) && asker->copies;
  case 't': return read_action(asker, ACTION_STATUS, NULL);
  case 'b': return read_action(asker, ACTION_BACKUP, value);
  case 'p': return read_action(asker, ACTION_SNAPSHOT, value);
  default: return false;
  }
}

static bool choose_prefix(struct asker *asker) {
  uint8_t bytes[RANDOM_BYTES];
  if (getrandom(bytes, sizeof bytes, 0) != sizeof bytes) return false;
  for (size_t i = 0; i < sizeof bytes; i++) snprintf(asker->random + 2 * i, 3, "%02x", bytes[i]);
  if (!asker->prefix) asker->prefix = asker->random;
  return true;
}

static bool read_environment(struct asker *asker) {
  const char *servers = getenv("MMDB_SERVERS"), *wrong = read_login_of("MMDB_LOGIN", &asker->login);
  if (wrong) fprintf(stderr, "mmdb-ask: cannot use the login file of MMDB_LOGIN: %s\n", wrong);
  asker->servers = strdup(servers ? servers : "nats://127.0.0.1:4222");
  return !wrong && asker->servers;
}

static bool read_options(struct asker *asker, int count, char **words) {
  static const struct option names[] = {
      {"servers", 1, NULL, 's'},  {"name", 1, NULL, 'n'},         {"replica", 1, NULL, 'r'}, {"id", 1, NULL, 'i'},
      {"since", 1, NULL, 'c'},    {"at-least", 1, NULL, 'a'},     {"wait", 1, NULL, 'w'},    {"numbers", 0, NULL, 'v'},
      {"login", 1, NULL, 'o'},    {"linearizable", 0, NULL, 'l'}, {"rows", 0, NULL, 'q'},    {"load", 0, NULL, 'd'},
      {"inbox", 1, NULL, 'x'},    {"make-log", 1, NULL, 'm'},     {"status", 0, NULL, 't'},  {"backup", 1, NULL, 'b'},
      {"snapshot", 1, NULL, 'p'}, {"together", 1, NULL, 'g'},     {NULL, 0, NULL, 0},
  };
  *asker = (struct asker){.name = "mmdb", .inbox = "_INBOX", .wait = 30000};
  if (!read_environment(asker)) return false;
  for (int letter; (letter = getopt_long(count, words, "", names, NULL)) != -1;)
    if (!read_option(asker, letter, optarg)) return false;
  return optind == count && (!asker->has_since || asker->prefix);
}

/* Connecting. */

static void on_error(natsConnection *connection, natsSubscription *subscription, natsStatus status, void *closure) {
  struct asker *asker = closure;
  (void)connection, (void)subscription;
  if (status == NATS_NOT_PERMITTED) atomic_store(&asker->is_forbidden, true);
}

/* Tries to connect until the time is over. A login that the servers refuse is refused again, so it is not tried twice. */
static bool connect_asker(struct asker *asker) {
  struct connecting connecting = {.servers = asker->servers, .name = "mmdb-ask", .inbox = asker->inbox, .login = &asker->login};
  connecting.on_error = on_error;
  connecting.closure = asker;
  int64_t until = now() + asker->wait;
  for (;;) {
    natsStatus status = connect_to(&asker->connection, &connecting);
    if (status == NATS_OK) return true;
    bool may_pass = status == NATS_NO_SERVER || status == NATS_TIMEOUT || status == NATS_IO_ERROR || status == NATS_CONNECTION_CLOSED;
    if (!may_pass || now() >= until) {
      fprintf(stderr, "mmdb-ask: cannot connect: %s\n", natsStatus_GetText(status));
      return false;
    }
    nats_Sleep(PAUSE);
  }
}

static bool act(struct asker *asker) {
  switch (asker->action) {
  case ACTION_MAKE_LOG: return make_log(asker);
  case ACTION_STATUS: return print_status(asker);
  case ACTION_BACKUP: return command(asker, "backup");
  case ACTION_SNAPSHOT: return command(asker, "snapshot");
  default: return take_script(asker);
  }
}

int main(int count, char **words) {
  static struct asker asker;
  open_standard_files();
  if (!read_options(&asker, count, words) || !choose_prefix(&asker)) {
    fputs(usage, stderr);
    return 2;
  }
  bool is_done = connect_asker(&asker) && act(&asker);
  if (ferror(stdout)) fprintf(stderr, "mmdb-ask: what it prints cannot be written\n");
  natsConnection_Destroy(asker.connection);
  nats_Close();
  free(asker.servers);
  return is_done && !asker.was_refused ? 0 : 1;
}
