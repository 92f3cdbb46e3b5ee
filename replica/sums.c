#include "sums.h"
#include <inttypes.h>
#include <stdio.h>
#include <string.h>

bool read_sum(struct text text, struct sum *sum) {
  char copy[MOST_SUM_BYTES], digits[DIGEST_TEXT_BYTES];
  int end = 0;
  if (text.length >= sizeof copy || memchr(text.at, 0, text.length)) return false;
  memcpy(copy, text.at, text.length);
  copy[text.length] = 0;
  int read = sscanf(copy, "%32s %16s %20" SCNu64 " %32s%n", sum->replica, sum->identity, &sum->number, digits, &end);
  return read == 4 && !copy[end] && strlen(digits) == DIGEST_DIGITS && read_digest(digits, &sum->sum);
}

void write_sum(char text[MOST_SUM_BYTES], const struct sum *sum) {
  char digits[DIGEST_TEXT_BYTES];
  write_digest(digits, &sum->sum);
  snprintf(text, MOST_SUM_BYTES, "%s %s %" PRIu64 " %s", sum->replica, sum->identity, sum->number, digits);
}

static size_t kept(size_t count) { return count < MOST_SUMS ? count : MOST_SUMS; }

static bool is_same_place(const struct sum *left, const struct sum *right) {
  return left->number == right->number && !strcmp(left->identity, right->identity) && !strcmp(left->replica, right->replica);
}

static void add_to(struct sum *ring, size_t *count, const struct sum *sum) {
  for (size_t i = 0; i < kept(*count); i++) {
    if (!is_same_place(&ring[i], sum)) continue;
    ring[i] = *sum;
    return;
  }
  ring[(*count)++ % MOST_SUMS] = *sum;
}

void sums_add(struct sums *sums, const struct sum *sum, bool is_own) {
  if (is_own) add_to(sums->own, &sums->own_count, sum);
  else add_to(sums->others, &sums->other_count, sum);
}

static const struct sum *own_at(const struct sums *sums, uint64_t number) {
  for (size_t i = 0; i < kept(sums->own_count); i++)
    if (sums->own[i].number == number) return &sums->own[i];
  return NULL;
}

static bool is_there(const struct sum *own, const struct sum *other) {
  return other->number == own->number && !strcmp(other->identity, own->identity);
}

static bool has_other_history(const struct sum *own, const struct sum *other) {
  return own->has_chain && other->has_chain && !is_same_digest(&own->chain, &other->chain);
}

/* Whether a sum says something of the rows that the own one is of. */
static bool is_comparable(const struct sum *own, const struct sum *other) { return is_there(own, other) && !has_other_history(own, other); }

/* How many other replicas have a sum, at the number and in the history of the own one. */
static size_t count_equal(const struct sums *sums, const struct sum *own, const struct digest *sum) {
  size_t count = 0;
  for (size_t i = 0; i < kept(sums->other_count); i++) {
    const struct sum *other = &sums->others[i];
    count += is_comparable(own, other) && is_same_digest(&other->sum, sum);
  }
  return count;
}

enum agreement sums_judge(const struct sums *sums, uint64_t number) {
  const struct sum *own = own_at(sums, number);
  if (!own) return SUMS_ALONE;
  size_t with_own = 1 + count_equal(sums, own, &own->sum), most = 0;
  for (size_t i = 0; i < kept(sums->other_count); i++) {
    const struct sum *other = &sums->others[i];
    bool differs = is_comparable(own, other) && !is_same_digest(&other->sum, &own->sum);
    size_t count = differs ? count_equal(sums, own, &other->sum) : 0;
    if (count > most) most = count;
  }
  if (!most) return with_own > 1 ? SUMS_AGREE : SUMS_ALONE;
  if (with_own > most) return SUMS_RIGHT;
  return most > with_own && most > 1 ? SUMS_WRONG : SUMS_TIE;
}

const struct sum *sums_of_other_history(const struct sums *sums, uint64_t number) {
  const struct sum *own = own_at(sums, number);
  for (size_t i = 0; own && i < kept(sums->other_count); i++)
    if (is_there(own, &sums->others[i]) && has_other_history(own, &sums->others[i])) return &sums->others[i];
  return NULL;
}
