/* What reaches a replica from other threads, in order, for the one thread that owns the database. */
#ifndef QUEUE_H
#define QUEUE_H

#include <nats/nats.h>
#include <pthread.h>
#include <stdbool.h>
#include <stdint.h>

/* Bounds. Messages of the log wait for room. Requests past their bounds are refused, and so are sums. */
enum { MOST_MESSAGES_AHEAD = 4096, MOST_REQUESTS = 65536, MOST_SUMS_AHEAD = 1024 };
enum { MOST_MESSAGE_BYTES_AHEAD = 64 * 1024 * 1024, MOST_REQUEST_BYTES = 64 * 1024 * 1024 };

enum event_kind {
  EVENT_MESSAGE,   /* the next message of the log, with its number */
  EVENT_MISSING,   /* the log does not lead on from the number before this one. why says how */
  EVENT_PUBLISHED, /* the log took the message under this number, or has_failed */
  EVENT_QUESTION,
  EVENT_CHANGE,
  EVENT_STATUS,
  EVENT_BACKUP,
  EVENT_SNAPSHOT,
  EVENT_SUM,   /* from a replica */
  EVENT_CHILD, /* the child with this number as its place has ended */
  EVENT_STOP   /* the process is asked to end */
};

/* How a log differs from what a replica has of it. */
enum missing {
  MISSING_OTHER_LOG, /* the log has another identity, or none that this format has */
  MISSING_OLD,       /* the log was cut off after the next message: the replica is late, and its rows are right */
  MISSING_HOLE,      /* the log has later messages, and not the next one */
  MISSING_HISTORY    /* the log ends before the last message that was applied, or has another one under its number */
};

struct event {
  enum event_kind kind;
  natsMsg *message;
  uint64_t number;
  int64_t until; /* of a request: when its asker no longer waits */
  enum missing why;
  bool has_failed;
  struct event *next;
};

/* requests and request_bytes count what was added and not yet released, also after it was taken. */
struct queue {
  pthread_mutex_t mutex;
  pthread_cond_t has_event, has_room;
  struct event *first, **end;
  size_t messages, message_bytes, requests, request_bytes, sums;
  bool takes_messages, holds_messages;
};

/* The numbers of a queue at a moment. */
struct load {
  size_t messages, requests, bytes;
};

bool queue_open(struct queue *queue);

/* Frees what is in the queue. Other threads may still add to it. */
void queue_close(struct queue *queue);

/*
 * Adds an event, which then owns its message. Returns false if an allocation fails or a bound is reached, and then the message stays the
 * caller's. A message of the log waits until there is room, so the log is not read faster than it is applied; it gets false once the
 * queue takes no more of them.
 */
bool queue_add(struct queue *queue, struct event event);

/* Takes the first event, for which it waits until a time of the clock of clock_now. Returns false if there is none by then. */
bool queue_take(struct queue *queue, int64_t until, struct event *event);

/* Ends the count of a request that was taken, when its message is freed. */
void queue_release(struct queue *queue, const natsMsg *request);

struct load queue_load(struct queue *queue);

/* From now on, queue_take passes over messages of the log, or not. */
void queue_hold_messages(struct queue *queue, bool holds_messages);

/* From now on, messages of the log are added, or not; those that are waiting are dropped. */
void queue_set_takes_messages(struct queue *queue, bool takes_messages);

/* Milliseconds of a clock that is never set. */
int64_t clock_now(void);

#endif
