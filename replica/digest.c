#include "digest.h"
#include <string.h>

bool digester_open(struct digester *digester) {
  *digester = (struct digester){.context = EVP_MD_CTX_new()};
  if (digester->context && EVP_DigestInit_ex(digester->context, EVP_sha256(), NULL)) return true;
  digester_close(digester);
  return false;
}

void digester_close(struct digester *digester) {
  EVP_MD_CTX_free(digester->context);
  digester->context = NULL;
}

/* Without a type, the context keeps the one of digester_open, which libcrypto would otherwise look up again. */
void digester_begin(struct digester *digester) { digester->has_failed = !EVP_DigestInit_ex(digester->context, NULL, NULL); }

void digester_add(struct digester *digester, const void *from, size_t length) {
  if (!digester->has_failed) digester->has_failed = !EVP_DigestUpdate(digester->context, from, length);
}

bool digester_end(struct digester *digester, struct digest *digest) {
  uint8_t whole[EVP_MAX_MD_SIZE];
  if (!digester->has_failed) digester->has_failed = !EVP_DigestFinal_ex(digester->context, whole, NULL);
  if (!digester->has_failed) memcpy(digest->at, whole, DIGEST_BYTES);
  return !digester->has_failed;
}

bool is_same_digest(const struct digest *left, const struct digest *right) { return !memcmp(left->at, right->at, DIGEST_BYTES); }

void write_digest(char text[DIGEST_TEXT_BYTES], const struct digest *digest) {
  static const char digits[] = "0123456789abcdef";
  for (size_t i = 0; i < DIGEST_BYTES; i++) {
    text[2 * i] = digits[digest->at[i] >> 4];
    text[2 * i + 1] = digits[digest->at[i] & 15];
  }
  text[DIGEST_DIGITS] = 0;
}

static int value_of_digit(char digit) {
  if (digit >= '0' && digit <= '9') return digit - '0';
  return digit >= 'a' && digit <= 'f' ? digit - 'a' + 10 : -1;
}

bool read_digest(const char *text, struct digest *digest) {
  struct digest read;
  for (size_t i = 0; i < DIGEST_BYTES; i++) {
    int high = value_of_digit(text[2 * i]), low = high < 0 ? -1 : value_of_digit(text[2 * i + 1]);
    if (low < 0) return false;
    read.at[i] = (uint8_t)(high << 4 | low);
  }
  *digest = read;
  return true;
}

/* SipHash. */

struct sip {
  uint64_t v0, v1, v2, v3;
};

static uint64_t rotate(uint64_t word, int bits) { return word << bits | word >> (64 - bits); }

static uint64_t word_at(const uint8_t *from) {
  uint64_t word = 0;
  for (int i = 7; i >= 0; i--) word = word << 8 | from[i];
  return word;
}

static void sip_rounds(struct sip *sip, int count) {
  for (; count; count--) {
    sip->v0 += sip->v1;
    sip->v2 += sip->v3;
    sip->v1 = rotate(sip->v1, 13) ^ sip->v0;
    sip->v3 = rotate(sip->v3, 16) ^ sip->v2;
    sip->v0 = rotate(sip->v0, 32);
    sip->v2 += sip->v1;
    sip->v0 += sip->v3;
    sip->v1 = rotate(sip->v1, 17) ^ sip->v2;
    sip->v3 = rotate(sip->v3, 21) ^ sip->v0;
    sip->v2 = rotate(sip->v2, 32);
  }
}

static void sip_word(struct sip *sip, uint64_t word) {
  sip->v3 ^= word;
  sip_rounds(sip, 2);
  sip->v0 ^= word;
}

uint64_t keyed_hash(const uint8_t key[KEY_BYTES], const void *from, size_t length) {
  const uint8_t *at = from;
  uint64_t first = word_at(key), second = word_at(key + 8);
  struct sip sip = {first ^ 0x736f6d6570736575u, second ^ 0x646f72616e646f6du, first ^ 0x6c7967656e657261u, second ^ 0x7465646279746573u};
  uint8_t last[8] = {0};
  size_t whole = length / 8 * 8;
  for (size_t i = 0; i < whole; i += 8) sip_word(&sip, word_at(at + i));
  if (length > whole) memcpy(last, at + whole, length - whole);
  last[7] = (uint8_t)length;
  sip_word(&sip, word_at(last));
  sip.v2 ^= 0xff;
  sip_rounds(&sip, 4);
  return sip.v0 ^ sip.v1 ^ sip.v2 ^ sip.v3;
}
