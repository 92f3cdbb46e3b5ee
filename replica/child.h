/* Child processes. Each has the rows as they were when it began, and computes one thing from them while the replica goes on. */
#ifndef CHILD_H
#define CHILD_H

#include "bytes.h"
#include "queue.h"
#include <stdatomic.h>
#include <sys/types.h>

/* How a child ended. */
enum child_end {
  CHILD_DONE,  /* it did its work: bytes has the result */
  CHILD_LATE,  /* its time was over, or nobody wanted the result any more */
  CHILD_FAILED /* an allocation failed, or something outside ended it */
};

/* A child, and the thread of this process that waits for it. */
struct child {
  struct queue *queue;
  uint64_t place;
  pthread_t thread;
  pid_t process;
  int pipe;
  int64_t until;
  atomic_bool is_unwanted;
  enum child_end end;
  struct bytes bytes;
};

/* What a child does: appends the result to bytes. Returns false if an allocation fails. It may not use NATS or start threads. */
typedef bool work(void *closure, struct bytes *bytes);

/*
 * Starts a child that does some work until a time of clock_now, when it is killed. EVENT_CHILD with the place says that it has ended;
 * child_join has to be called then. Returns false if no process or no thread can be made.
 */
bool child_start(struct child *child, struct queue *queue, uint64_t place, int64_t until, work *work, void *closure);

/* Kills a child within a tenth of a second. It ends late. */
void child_stop(struct child *child);

/* Waits until a child has ended. bytes has to be freed afterwards. */
void child_join(struct child *child);

#endif
