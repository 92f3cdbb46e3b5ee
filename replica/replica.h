/* A replica: its database, its log, and the requests that wait for an answer. */
#ifndef REPLICA_H
#define REPLICA_H

#include "child.h"
#include "entry.h"
#include "log.h"
#include "sums.h"

/* Milliseconds: between two looks at the time; that a question waits for the number it demands; that a change waits for the log and for its
 * turn; that a client waits unless it says otherwise, and at most; that work may take until the replica leaves the group; between two
 * tries, at first and at most. */
enum {
  TICK = 100,
  ANSWER_WAIT = 2000,
  CHANGE_WAIT = 2000,
  CLIENT_WAIT = 2500,
  MOST_CLIENT_WAIT = 60000,
  MOST_BUSY = 500,
  PAUSE = 1000,
  LONGEST_PAUSE = 30000
};

/*
 * Changes gather into a message until they have so many bytes, or for GATHER_WAIT. While no other change waits for its answer, the message
 * is published earlier: once it has as many changes as waited lately, or SHORT_WAIT after the last answer. A message of which nothing is
 * heard, because an allocation failed, is forgotten after 10 s.
 */
enum { GATHERED_BYTES = 64 * 1024, GATHER_WAIT = 20, SHORT_WAIT = 2, MOST_BATCHES = 64, LONGEST_PUBLISHED = 10000 };

/*
 * A question that is expected to read more rows than this is answered by a child, and a table with more rows is summed by one. Reading so
 * many takes some tens of milliseconds. At most MOST_TASKS children run at a time; that at SUM_TASK makes sums, for LONGEST_SUM
 * milliseconds at most.
 */
enum { MOST_READS = 200000, SUM_TASK = 0, MOST_TASKS = 5, LONGEST_SUM = 600000 };

enum { LEAST_PAYLOAD = 8192, REPLY_HEAD_BYTES = 4096, MOST_INBOX_BYTES = 256, MOST_WHY_BYTES = 200 };

struct options {
  char *servers;
  const char *name, *replica, *folder, *inbox;
  struct login login, answer_login;
  uint64_t sum_every, snapshot_every, keep; /* 0: never, never, all */
  int64_t lost_after, question_time;
};

/* The state of a replica, as NAME.status reports it. */
enum state {
  STATE_UNCONNECTED, /* it has no connections */
  STATE_LOADING,     /* it has no rows, and looks for a way to begin */
  STATE_LATE,        /* it follows the log, and is not in the group */
  STATE_READY,       /* it follows the log, and is in the group */
  STATE_HALTED,      /* it has rows, and the log does not lead on from them */
  STATE_ORPHANED     /* it has rows of a log that is gone: it answers questions as such */
};

/* What a subscription adds to the queue. */
struct intake {
  struct answers *answers;
  enum event_kind kind;
};

/* The connection for requests, and what its threads need to know. Only main changes it, while there is no connection. */
struct answers {
  natsConnection *connection;
  struct queue *queue;
  const char *name, *replica, *inbox;
  natsSubscription *named, *status, *backup, *snapshot, *sums;
  struct ended ended; /* subscriptions to the group */
  struct intake intakes[EVENT_STOP];
  atomic_bool is_stuck; /* a write failed though there was a server */
};

/* The membership in the group of replicas that share requests. The guard takes a replica out that is busy for too long. */
struct member {
  pthread_mutex_t mutex;
  pthread_t guard;
  struct answers *answers;
  natsSubscription *questions, *changes;
  atomic_llong busy_since; /* 0: it waits for events */
  atomic_bool is_ending;
  bool is_guarded;
};

/* A request that is answered later: when the log took its message, or when a number is applied. */
struct waiter {
  struct waiter *next, *before;
  natsMsg *request;
  uint64_t number;
  int64_t until, asker_until; /* until when it waits here; until when whoever asked a question waits */
  bool is_change;
};

/* A ring of waiters, in which first.next is the first and first.before is the last. */
struct waiters {
  struct waiter first;
};

/* A message with changes: open while they gather, and published then. The message is only compared with the one of EVENT_PUBLISHED. */
struct batch {
  struct batch *next;
  natsMsg *published;
  struct bytes body;
  struct waiters waiters;
  uint64_t checked; /* the number at which the first of its ids was checked */
  struct digest chain;
  int64_t since;
  size_t count; /* of its changes */
};

/* What a child works on, and the place in the log that its rows have. */
struct task {
  struct child child;
  bool is_running, is_orphaned;
  natsMsg *request; /* a question, or NULL for a sum */
  int64_t began;
  uint64_t number, life;
  struct digest chain;
  char identity[IDENTITY_BYTES];
};

struct replica {
  struct options options;
  struct queue queue;
  struct log log;
  struct answers answers;
  struct member member;
  struct database database;
  struct snapshots snapshots;
  struct sums sums;
  struct task tasks[MOST_TASKS];
  struct batch *open, *published; /* the batch that gathers, or NULL; those that the log has not yet taken */
  size_t published_count;
  struct bytes entries;   /* of the request at hand that will be published */
  size_t changes, usual;  /* how many changes wait for an answer; how many did lately */
  int64_t answered;       /* when the last change was answered */
  struct waiters waiting; /* those that wait for a number, which ascends */
  natsMsg *pending;       /* a message of the log that an allocation failed for */
  enum state state;
  enum missing why_halted;
  bool has_rows, is_stopped, is_doubted, is_grounded, has_distrusted;
  bool is_away;             /* it left the group to write a snapshot, which nobody needs to know */
  bool is_apart;            /* its rows are not those of the log, and it keeps them until it is ended */
  bool is_kept;             /* a .lost file has its rows as they are */
  struct digest began_with; /* the chain hash of the snapshot that it began from */
  struct digest distrusted; /* that of a snapshot that another replica contradicted */
  int64_t asked_log;        /* when it asked the log about a claim of another replica */
  int64_t fresh;            /* a time whose messages are all applied */
  int64_t next_try, pause;
  uint64_t begun_at;                /* the number of the snapshot that it began from, or 0 */
  uint64_t snapshot_at;             /* the number of the last snapshot that was begun */
  uint64_t cut_below;               /* the number up to which the log is being cut off, or 0 */
  uint64_t written, summed, agreed; /* the numbers of the last snapshot that was read back; of the last own sum; of the last that agreed */
  uint64_t distrust_after;          /* own snapshots past this number are not loaded: their rows may be wrong */
  uint64_t lives;
  int64_t started;
  char trouble[MOST_WHY_BYTES]; /* what was reported last, so that tries in a row report a cause once */
};

/* Reports on standard error, with the time and the name of the replica. */
void tell(const struct replica *replica, const char *form, ...) __attribute__((format(printf, 2, 3)));

/* Reports a cause unless it was reported last. */
void tell_once(struct replica *replica, const char *form, ...) __attribute__((format(printf, 2, 3)));

/* Reports, and publishes on NAME.alarm. */
void alarm_all(struct replica *replica, const char *form, ...) __attribute__((format(printf, 2, 3)));

/* answers.c: the connection for requests. */
natsStatus answers_open(struct answers *answers, const struct connecting *connecting);
bool answers_subscribe(struct answers *answers);
void answers_close(struct answers *answers);
natsStatus answers_subscribe_group(struct answers *answers, natsSubscription **subscription, bool is_for_changes);
size_t answers_payload(const struct answers *answers);

/* An answer. number is that of the script or of the database; log, chain and columns may be NULL. */
struct reply {
  const char *status, *log, *columns;
  uint64_t number, chain_number;
  const struct digest *chain;
  struct text body;
};

/* Publishes an answer. The request stays the caller's. An answer that cannot be sent is lost: whoever asked asks again. */
void answers_send(struct answers *answers, natsMsg *request, const struct reply *reply);

/* member.c */
bool member_open(struct member *member, struct answers *answers);
void member_close(struct member *member);
bool member_join(struct member *member, bool takes_changes);
void member_leave(struct member *member);
bool member_is_in(struct member *member);
void member_set_busy(struct member *member, bool is_busy);

/* requests.c. Each takes over the event's message. */
void on_question(struct replica *replica, const struct event *event);
void on_change(struct replica *replica, const struct event *event);
void on_published(struct replica *replica, const struct event *event);
void reply_bare(struct replica *replica, natsMsg *request, const char *status);
void reply_text(struct replica *replica, natsMsg *request, const char *status, struct text body);

/* The status of an answer to a question. */
const char *status_of_answer(enum answer answer, bool is_orphaned);

void waiters_open(struct waiters *waiters);

/* Publishes the batch that gathers, if it is time. */
void flush_changes(struct replica *replica);

/* Returns when the batch that gathers is to be published: INT64_MAX if there is none. */
int64_t flush_time(const struct replica *replica);

/* Answers the requests that wait for a number that is applied. */
void answer_applied(struct replica *replica);

/* Answers the requests whose time is over; all of them, with a status. */
void answer_late(struct replica *replica, int64_t now);
void answer_all(struct replica *replica, const char *status);

/* tasks.c: work of children. */

/* Lets a child answer a question until a time, and takes the request over. */
void start_question(struct replica *replica, natsMsg *request, struct text line, int64_t until);

/* What a sum covers: one table, and the ids of messages past a number. */
struct summing {
  struct database *database;
  size_t table;
  uint64_t after;
};

/* Lets a child make a sum of the rows as they are. Returns false if the last one is not finished, or if no child can be made. */
bool start_sum(struct replica *replica, struct summing *summing);

/* Takes what a child did. Stops all children, because the rows are dropped. Ends them, because the replica ends. */
void on_child(struct replica *replica, uint64_t place);
void stop_tasks(struct replica *replica);
void end_tasks(struct replica *replica);
size_t count_tasks(const struct replica *replica);

/*
 * compare.c: makes a sum of the database, if the number that is applied is an agreed one; publishes one that was made; takes one from
 * another replica. The chain hash is that of the number.
 */
bool make_sum(const struct summing *summing, struct digest *sum);
void publish_sum(struct replica *replica);
void publish_own_sum(struct replica *replica, uint64_t number, const struct digest *digest, const struct digest *chain);
void on_sum(struct replica *replica, natsMsg *message);

/* status.c */
void on_status(struct replica *replica, natsMsg *request);
void on_backup(struct replica *replica, natsMsg *request);

/* life.c: what a replica does with its rows. */
void on_message(struct replica *replica, const struct event *event);
void on_missing(struct replica *replica, enum missing why);
void on_snapshot(struct replica *replica, natsMsg *request);
void on_tick(struct replica *replica);
void advance(struct replica *replica);
void end_life(struct replica *replica);

/* Whether the rows can be backed up: they are those at a number, or no message will make them so. */
bool can_back_up(const struct replica *replica);

/* Leaves the group for a work that takes long; joins it if the rows are fresh enough. */
void step_aside(struct replica *replica);
void join_if_fresh(struct replica *replica);

/*
 * Another replica had another history at a number, so one of the two is wrong. Asks the log, once a second: what it contradicts is lost.
 * Returns whether the log was asked, and does not contradict the rows.
 */
bool look_into_history(struct replica *replica, const char *other, uint64_t number);

/* Most replicas have other rows at a number: drops the rows, and begins again. Rows that the log does not lead to are not dropped. */
void drop_contradicted(struct replica *replica, uint64_t number);

#endif
