/*
 * The library cannot be interrupted in the middle of a call, but a process can be killed. fork copies no rows: the two processes share
 * their pages until one of them writes.
 */
#include "child.h"
#include <errno.h>
#include <fcntl.h>
#include <poll.h>
#include <signal.h>
#include <string.h>
#include <sys/prctl.h>
#include <sys/wait.h>
#include <unistd.h>

/* Milliseconds between two looks whether the result is still wanted. Bytes that are read at a time. */
enum { CHILD_TICK = 100, READ_BYTES = 64 * 1024 };

/* In the child. */

/* Closes the connections of the replica, so that the servers notice when it ends. */
static void close_all_but(int pipe) {
  if (pipe > STDERR_FILENO + 1) close_range(STDERR_FILENO + 1, (unsigned)pipe - 1, 0);
  close_range((unsigned)pipe + 1, ~0u, 0);
}

/* If memory runs out, the kernel kills the child and not the replica. */
static void offer_to_be_killed(void) {
  static const char most[] = "1000";
  int file = open("/proc/self/oom_score_adj", O_WRONLY | O_CLOEXEC);
  ssize_t written = file < 0 ? -1 : write(file, most, sizeof most - 1);
  (void)written; /* it is of use, and nothing depends on it */
  if (file >= 0) close(file);
}

static bool write_all(int pipe, const struct bytes *bytes) {
  for (size_t at = 0; at < bytes->length;) {
    ssize_t written = write(pipe, bytes->at + at, bytes->length - at);
    if (written < 0 && errno != EINTR) return false;
    if (written > 0) at += (size_t)written;
  }
  return true;
}

static _Noreturn void be_child(int pipe, pid_t parent, work *work, void *closure) {
  struct bytes bytes = {NULL, 0, 0};
  prctl(PR_SET_PDEATHSIG, SIGKILL);
  if (getppid() != parent) _exit(1); /* it ended before the line above */
  close_all_but(pipe);
  offer_to_be_killed();
  bool is_done = work(closure, &bytes) && write_all(pipe, &bytes);
  _exit(!is_done);
}

/* In the replica. */

/* Reads what is there. Returns false at the end, which sets how the child ended. */
static bool read_some(struct child *child) {
  struct bytes *bytes = &child->bytes;
  child->end = CHILD_FAILED;
  if (!bytes_reserve(bytes, READ_BYTES)) return false;
  ssize_t length = read(child->pipe, bytes->at + bytes->length, READ_BYTES);
  if (length > 0) bytes->length += (size_t)length;
  else if (!length) child->end = CHILD_DONE;
  return length > 0 || (length < 0 && errno == EINTR);
}

/* Reads to the end, or until the time is over. */
static void receive(struct child *child) {
  struct pollfd poll_pipe = {.fd = child->pipe, .events = POLLIN};
  for (;;) {
    int64_t left = child->until - clock_now();
    if (left <= 0 || atomic_load(&child->is_unwanted)) {
      child->end = CHILD_LATE;
      return;
    }
    int ready = poll(&poll_pipe, 1, (int)(left < CHILD_TICK ? left : CHILD_TICK));
    if (ready > 0 && !read_some(child)) return;
  }
}

static void *attend(void *closure) {
  struct child *child = closure;
  int status = 1;
  receive(child);
  close(child->pipe);
  if (child->end != CHILD_DONE) kill(child->process, SIGKILL);
  while (waitpid(child->process, &status, 0) < 0 && errno == EINTR) continue;
  if (child->end == CHILD_DONE && status) child->end = CHILD_FAILED;
  while (!queue_add(child->queue, (struct event){.kind = EVENT_CHILD, .number = child->place})) nats_Sleep(CHILD_TICK);
  return NULL;
}

/* Starts the process. Returns false if there is none. */
static bool start_process(struct child *child, work *work, void *closure) {
  int ends[2];
  pid_t parent = getpid();
  if (pipe2(ends, O_CLOEXEC)) return false;
  child->process = fork();
  if (!child->process) be_child(ends[1], parent, work, closure);
  close(ends[1]);
  child->pipe = ends[0];
  if (child->process < 0) close(ends[0]);
  return child->process > 0;
}

bool child_start(struct child *child, struct queue *queue, uint64_t place, int64_t until, work *work, void *closure) {
  *child = (struct child){.queue = queue, .place = place, .until = until};
  if (!start_process(child, work, closure)) return false;
  if (!pthread_create(&child->thread, NULL, attend, child)) return true;
  kill(child->process, SIGKILL);
  waitpid(child->process, NULL, 0);
  close(child->pipe);
  return false;
}

void child_stop(struct child *child) { atomic_store(&child->is_unwanted, true); }

void child_join(struct child *child) { pthread_join(child->thread, NULL); }
