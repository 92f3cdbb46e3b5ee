/* Digests of bytes, and a keyed hash for tables in memory. */
#ifndef DIGEST_H
#define DIGEST_H

#include <openssl/evp.h>
#include <stdbool.h>
#include <stddef.h>
#include <stdint.h>

enum { DIGEST_BYTES = 16, DIGEST_DIGITS = 2 * DIGEST_BYTES, DIGEST_TEXT_BYTES = DIGEST_DIGITS + 1, KEY_BYTES = 16 };

/* The first 16 bytes of SHA-256. */
struct digest {
  uint8_t at[DIGEST_BYTES];
};

/* Computes digests, one after another. */
struct digester {
  EVP_MD_CTX *context;
  bool has_failed;
};

/* Returns false if an allocation fails. */
bool digester_open(struct digester *digester);
void digester_close(struct digester *digester);

/* Begins a digest. Adds bytes to it. Writes it, and returns false if libcrypto failed since it began: OpenSSL 3.0 allocates then. */
void digester_begin(struct digester *digester);
void digester_add(struct digester *digester, const void *from, size_t length);
bool digester_end(struct digester *digester, struct digest *digest);

bool is_same_digest(const struct digest *left, const struct digest *right);

/* Writes 32 hexadecimal digits in lower case and a terminating 0. */
void write_digest(char text[DIGEST_TEXT_BYTES], const struct digest *digest);

/* Reads exactly 32 such digits. Returns false if the first 32 bytes are anything else. */
bool read_digest(const char *text, struct digest *digest);

/* Returns the SipHash-2-4 of bytes. Without the key, nobody can choose bytes that share a hash. */
uint64_t keyed_hash(const uint8_t key[KEY_BYTES], const void *from, size_t length);

#endif
