/* Bytes that grow. */
#ifndef BYTES_H
#define BYTES_H

#include <stdbool.h>
#include <stddef.h>
#include <stdint.h>

/* The first length bytes of a block with the capacity room. Zeroed, it is empty. */
struct bytes {
  uint8_t *at;
  size_t length, room;
};

/* Reserves room for that many more bytes and one after them. Returns false if an allocation fails, and then nothing changed. */
bool bytes_reserve(struct bytes *bytes, size_t more);

bool bytes_add(struct bytes *bytes, const void *from, size_t length);
bool bytes_print(struct bytes *bytes, const char *form, ...) __attribute__((format(printf, 2, 3)));

/* Frees a block of more than a mebibyte, so that one long text does not hold its memory for ever. */
void bytes_trim(struct bytes *bytes);
void bytes_free(struct bytes *bytes);

#endif
