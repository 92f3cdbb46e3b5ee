/* Sums: each replica publishes its own at agreed numbers, and acts on those of the others. */
#include "replica.h"
#include <inttypes.h>
#include <stdio.h>
#include <string.h>

/* Reports the sums that differ at a number. */
static void tell_difference(struct replica *replica, const struct sum *sum) {
  char text[MOST_SUM_BYTES];
  write_sum(text, sum);
  alarm_all(replica, "DIFFERENT SUMS at number %" PRIu64 ": %s", sum->number, text);
}

/* Acts on what the sums at a number say. */
static void judge(struct replica *replica, const struct sum *sum) {
  const struct sum *other = replica->log.is_followed ? sums_of_other_history(&replica->sums, sum->number) : NULL;
  if (other) look_into_history(replica, other->replica, sum->number);
  if (other && !replica->log.is_followed) return;
  enum agreement agreement = sums_judge(&replica->sums, sum->number);
  bool differs = agreement == SUMS_RIGHT || agreement == SUMS_TIE || agreement == SUMS_WRONG;
  if (differs) tell_difference(replica, sum);
  if (agreement == SUMS_TIE) replica->is_doubted = true;
  if ((agreement == SUMS_AGREE || agreement == SUMS_RIGHT) && sum->number >= replica->agreed) {
    replica->agreed = sum->number;
    replica->distrust_after = UINT64_MAX;
    replica->is_doubted = false;
  }
  if (agreement == SUMS_WRONG && replica->has_rows) {
    replica->distrust_after = replica->agreed;
    replica->sums.own_count = 0;
    drop_contradicted(replica, sum->number);
  }
}

bool make_sum(const struct summing *summing, struct digest *sum) {
  return database_sum_part(summing->database, summing->table, summing->after, sum);
}

void publish_sum(struct replica *replica) {
  uint64_t every = replica->options.sum_every, applied = replica->database.applied;
  struct digest sum;
  if (!every || applied % every) return;
  struct summing summing = {&replica->database, (size_t)(applied / every), applied - every};
  bool is_small = database_largest(&replica->database) <= MOST_READS;
  if (is_small && make_sum(&summing, &sum)) publish_own_sum(replica, applied, &sum, &replica->database.chain);
  else if (is_small) tell(replica, "no sum at number %" PRIu64 ": an allocation failed", applied);
  else if (!start_sum(replica, &summing))
    tell(replica, "no sum at number %" PRIu64 ": no child could be made, or the last one runs", applied);
}

/* A sum that cannot be sent is not seen by others, who go on without it. */
static void send_sum(struct replica *replica, const struct sum *sum) {
  char subject[MOST_SUBJECT_BYTES], text[MOST_SUM_BYTES], chain[DIGEST_TEXT_BYTES];
  natsConnection *connection = replica->answers.connection;
  natsMsg *message = NULL;
  write_sum(text, sum);
  write_digest(chain, &sum->chain);
  write_subject(subject, replica->options.name, "sum", NULL);
  if (!is_connected(connection) || natsMsg_Create(&message, subject, NULL, text, (int)strlen(text)) != NATS_OK) return;
  if (natsMsgHeader_Set(message, CHAIN_HEADER, chain) == NATS_OK) natsConnection_PublishMsg(connection, message);
  natsMsg_Destroy(message);
}

void publish_own_sum(struct replica *replica, uint64_t number, const struct digest *digest, const struct digest *chain) {
  struct sum sum = {.number = number, .sum = *digest, .chain = *chain, .has_chain = true};
  memcpy(sum.replica, replica->options.replica, strlen(replica->options.replica) + 1);
  memcpy(sum.identity, replica->log.identity, sizeof sum.identity);
  send_sum(replica, &sum);
  replica->summed = number;
  sums_add(&replica->sums, &sum, true);
  judge(replica, &sum);
}

void on_sum(struct replica *replica, natsMsg *message) {
  struct sum sum;
  bool is_sum = read_sum(body_of(message), &sum) && is_plain_name(sum.replica) && !strcmp(sum.identity, replica->log.identity);
  const char *chain = is_sum ? header_of(message, CHAIN_HEADER) : NULL;
  if (is_sum) sum.has_chain = chain && strlen(chain) == DIGEST_DIGITS && read_digest(chain, &sum.chain);
  natsMsg_Destroy(message);
  if (!is_sum || !strcmp(sum.replica, replica->options.replica)) return;
  sums_add(&replica->sums, &sum, false);
  judge(replica, &sum);
}
