/* The log: a stream of JetStream, and its follower. */
#ifndef LOG_H
#define LOG_H

#include "connect.h"
#include "queue.h"
#include "snapshot.h"
#include <stdatomic.h>

/* Milliseconds: for a call of JetStream; between two looks at the end of the log, at least and at most; without progress until the log is
 * followed again; for which the log may be shorter than it was; for the next message. */
enum { CALL_WAIT = 1000, LEAST_LOOK_EVERY = 10, LOOK_EVERY = 1000, LONGEST_QUIET = 1000, LONGEST_SHORT = 10000, NEXT_WAIT = 200 };

struct log {
  natsConnection *connection;
  jsCtx *jetstream;
  struct ended ended; /* subscriptions of its followers */
  const char *name, *replica;
  struct queue *queue;
  int64_t look_every;
  pthread_t follower;
  bool is_followed, is_stuck; /* whether it has a follower; whether a write failed though there was a server */
  atomic_bool is_ending;
  atomic_llong heard; /* the latest time at which the leader of the stream surely led it; 0 before the first look */
  atomic_ullong last; /* the greatest number of a message that a look found, at that time or later; 0 before the first look */
  uint64_t next;      /* the number of the message that the follower waits for */
  char identity[IDENTITY_BYTES];
};

/* How to open a log: a connection in the making, whose inbox prefix askers cannot publish to. */
natsStatus log_open(struct log *log, const struct connecting *connecting, const char *name, const char *replica, struct queue *queue);
void log_close(struct log *log);

/* Asks the leader of the stream for its extent. The identity is empty if the stream is no log of this format. */
natsStatus log_look(struct log *log, struct extent *extent);

/*
 * Stores what a look found. Any thread may look, so a number only ever rises: a look that ends late does not hide a newer one. last is
 * stored before heard, so a thread that reads heard first finds in last all messages of that time.
 */
void log_note(struct log *log, uint64_t last, int64_t heard);

/* What the log says of a message: that it leads from one chain hash to another, that it does not, or nothing. */
enum said { SAID_YES, SAID_NO, SAID_NOTHING };
enum said log_leads_to(struct log *log, struct digester *digester, uint64_t number, const struct digest *before,
                       const struct digest *chain);

/* Starts a thread that adds each message from a number on to the queue. Returns false if it cannot be started. */
bool log_follow(struct log *log, uint64_t next, const char *identity);

/* Ends that thread. Messages that are in the queue are dropped. */
void log_unfollow(struct log *log);

/* The message of the log that a message of NATS is. It points into that message. */
struct message log_message(natsMsg *message, uint64_t number);

/*
 * Publishes entries, whose ids were checked at a number. EVENT_PUBLISHED with the same message will have its number, or has_failed if the
 * log has not taken it as far as is known.
 */
natsStatus log_publish(struct log *log, struct text body, uint64_t checked, const struct digest *chain, natsMsg **published);

/* Drops the messages below a number. */
natsStatus log_drop(struct log *log, uint64_t number);

#endif
