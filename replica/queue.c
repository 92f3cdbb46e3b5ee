#include "queue.h"
#include "connect.h"
#include <errno.h>
#include <stdlib.h>
#include <time.h>

/* What a message takes beside its block: its event, and what libnats keeps of its headers. */
enum { MESSAGE_OVERHEAD = 512 };

bool queue_open(struct queue *queue) {
  pthread_condattr_t steady;
  *queue = (struct queue){.first = NULL};
  queue->end = &queue->first;
  if (pthread_mutex_init(&queue->mutex, NULL) || pthread_condattr_init(&steady)) return false;
  bool is_done = !pthread_condattr_setclock(&steady, CLOCK_MONOTONIC) && !pthread_cond_init(&queue->has_event, &steady) &&
                 !pthread_cond_init(&queue->has_room, &steady);
  pthread_condattr_destroy(&steady);
  return is_done;
}

void queue_close(struct queue *queue) {
  struct event event;
  queue_set_takes_messages(queue, false);
  while (queue_take(queue, 0, &event)) natsMsg_Destroy(event.message);
}

static bool is_request(const struct event *event) {
  return event->kind == EVENT_QUESTION || event->kind == EVENT_CHANGE || event->kind == EVENT_STATUS || event->kind == EVENT_BACKUP ||
         event->kind == EVENT_SNAPSHOT;
}

static size_t bytes_of(const natsMsg *message) { return message ? size_of_message(message) + MESSAGE_OVERHEAD : 0; }

static bool has_room(const struct queue *queue) {
  return queue->messages < MOST_MESSAGES_AHEAD && queue->message_bytes < MOST_MESSAGE_BYTES_AHEAD;
}

/* Whether the bounds allow an event. A message of the log has waited for room before. */
static bool is_allowed(const struct queue *queue, const struct event *event) {
  if (event->kind == EVENT_MESSAGE) return queue->takes_messages;
  if (event->kind == EVENT_SUM) return queue->sums < MOST_SUMS_AHEAD;
  return !is_request(event) || (queue->requests < MOST_REQUESTS && queue->request_bytes + bytes_of(event->message) <= MOST_REQUEST_BYTES);
}

static void count_in(struct queue *queue, const struct event *event) {
  size_t bytes = bytes_of(event->message);
  bool is_message = event->kind == EVENT_MESSAGE, is_one = is_request(event);
  queue->messages += is_message;
  queue->message_bytes += is_message ? bytes : 0;
  queue->sums += event->kind == EVENT_SUM;
  queue->requests += is_one;
  queue->request_bytes += is_one ? bytes : 0;
}

/* A request is counted until queue_release. */
static void count_out(struct queue *queue, const struct event *event) {
  bool was_full = !has_room(queue), is_message = event->kind == EVENT_MESSAGE;
  queue->messages -= is_message;
  queue->message_bytes -= is_message ? bytes_of(event->message) : 0;
  queue->sums -= event->kind == EVENT_SUM;
  if (was_full && has_room(queue)) pthread_cond_signal(&queue->has_room);
}

bool queue_add(struct queue *queue, struct event event) {
  struct event *added = malloc(sizeof *added);
  if (!added) return false;
  *added = event;
  added->next = NULL;
  pthread_mutex_lock(&queue->mutex);
  while (event.kind == EVENT_MESSAGE && queue->takes_messages && !has_room(queue)) pthread_cond_wait(&queue->has_room, &queue->mutex);
  bool is_taken = is_allowed(queue, &event);
  if (is_taken) {
    *queue->end = added;
    queue->end = &added->next;
    count_in(queue, &event);
    pthread_cond_signal(&queue->has_event);
  }
  pthread_mutex_unlock(&queue->mutex);
  if (!is_taken) free(added);
  return is_taken;
}

/* The place of the event to take next: the first, or while messages are held the first that is none. */
static struct event **next_place(struct queue *queue) {
  struct event **place = &queue->first;
  while (queue->holds_messages && *place && (*place)->kind == EVENT_MESSAGE) place = &(*place)->next;
  return place;
}

bool queue_take(struct queue *queue, int64_t until, struct event *event) {
  struct timespec time = {.tv_sec = until / 1000, .tv_nsec = until % 1000 * 1000000};
  int status = 0;
  pthread_mutex_lock(&queue->mutex);
  struct event **place = next_place(queue);
  for (; !*place && status != ETIMEDOUT; place = next_place(queue))
    status = pthread_cond_timedwait(&queue->has_event, &queue->mutex, &time);
  struct event *taken = *place;
  if (taken) {
    *place = taken->next;
    if (queue->end == &taken->next) queue->end = place;
    count_out(queue, taken);
    *event = *taken;
  }
  pthread_mutex_unlock(&queue->mutex);
  free(taken);
  return taken;
}

void queue_release(struct queue *queue, const natsMsg *request) {
  pthread_mutex_lock(&queue->mutex);
  queue->requests--;
  queue->request_bytes -= bytes_of(request);
  pthread_mutex_unlock(&queue->mutex);
}

struct load queue_load(struct queue *queue) {
  pthread_mutex_lock(&queue->mutex);
  struct load load = {queue->messages, queue->requests, queue->message_bytes + queue->request_bytes};
  pthread_mutex_unlock(&queue->mutex);
  return load;
}

void queue_hold_messages(struct queue *queue, bool holds_messages) {
  pthread_mutex_lock(&queue->mutex);
  queue->holds_messages = holds_messages;
  pthread_mutex_unlock(&queue->mutex);
}

void queue_set_takes_messages(struct queue *queue, bool takes_messages) {
  struct event *dropped = NULL;
  pthread_mutex_lock(&queue->mutex);
  queue->takes_messages = takes_messages;
  for (struct event **link = &queue->first; *link;) {
    struct event *event = *link;
    if (event->kind != EVENT_MESSAGE && event->kind != EVENT_MISSING) {
      link = &event->next;
      continue;
    }
    *link = event->next;
    event->next = dropped;
    dropped = event;
  }
  queue->end = &queue->first;
  while (*queue->end) queue->end = &(*queue->end)->next;
  queue->messages = queue->message_bytes = 0;
  pthread_cond_broadcast(&queue->has_room);
  pthread_mutex_unlock(&queue->mutex);
  while (dropped) {
    struct event *next = dropped->next;
    natsMsg_Destroy(dropped->message);
    free(dropped);
    dropped = next;
  }
}

int64_t clock_now(void) {
  struct timespec time;
  clock_gettime(CLOCK_MONOTONIC, &time);
  return (int64_t)time.tv_sec * 1000 + time.tv_nsec / 1000000;
}
