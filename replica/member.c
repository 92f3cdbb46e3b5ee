/* The membership in the group of replicas that share questions and changes. */
#include "replica.h"

/* Milliseconds between two looks of the guard. */
enum { GUARD_EVERY = 50 };

/* Takes the replica out of the group while it works on one thing for too long, so that requests go to others. */
static void *guard(void *closure) {
  struct member *member = closure;
  while (!atomic_load(&member->is_ending)) {
    int64_t since = atomic_load(&member->busy_since);
    if (since && clock_now() - since > MOST_BUSY) member_leave(member);
    nats_Sleep(GUARD_EVERY);
  }
  return NULL;
}

bool member_open(struct member *member, struct answers *answers) {
  *member = (struct member){.answers = answers};
  if (pthread_mutex_init(&member->mutex, NULL)) return false;
  member->is_guarded = !pthread_create(&member->guard, NULL, guard, member);
  return member->is_guarded;
}

void member_close(struct member *member) {
  atomic_store(&member->is_ending, true);
  if (member->is_guarded) pthread_join(member->guard, NULL);
  member_leave(member);
  pthread_mutex_destroy(&member->mutex);
}

/* Without a subscription, main may be changing the connection. */
static void leave(struct member *member) {
  struct answers *answers = member->answers;
  if (member->questions) end_subscription(answers->connection, &answers->ended, &member->questions);
  if (member->changes) end_subscription(answers->connection, &answers->ended, &member->changes);
}

bool member_join(struct member *member, bool takes_changes) {
  pthread_mutex_lock(&member->mutex);
  bool is_in = member->questions || answers_subscribe_group(member->answers, &member->questions, false) == NATS_OK;
  if (is_in && takes_changes && !member->changes) is_in = answers_subscribe_group(member->answers, &member->changes, true) == NATS_OK;
  if (!is_in) leave(member);
  pthread_mutex_unlock(&member->mutex);
  return is_in;
}

void member_leave(struct member *member) {
  pthread_mutex_lock(&member->mutex);
  leave(member);
  pthread_mutex_unlock(&member->mutex);
}

bool member_is_in(struct member *member) {
  pthread_mutex_lock(&member->mutex);
  bool is_in = member->questions;
  pthread_mutex_unlock(&member->mutex);
  return is_in;
}

void member_set_busy(struct member *member, bool is_busy) { atomic_store(&member->busy_since, is_busy ? clock_now() : 0); }
