#include "bytes.h"
#include <stdarg.h>
#include <stdio.h>
#include <stdlib.h>
#include <string.h>

enum { LEAST_ROOM = 256, MOST_IDLE_ROOM = 1 << 20 };

bool bytes_reserve(struct bytes *bytes, size_t more) {
  if (more >= SIZE_MAX / 2 - bytes->length) return false;
  size_t wanted = bytes->length + more + 1;
  if (wanted <= bytes->room) return true;
  size_t room = bytes->room < LEAST_ROOM ? LEAST_ROOM : bytes->room;
  while (room < wanted) room *= 2;
  uint8_t *at = realloc(bytes->at, room);
  if (!at) return false;
  bytes->at = at;
  bytes->room = room;
  return true;
}

bool bytes_add(struct bytes *bytes, const void *from, size_t length) {
  if (!bytes_reserve(bytes, length)) return false;
  memcpy(bytes->at + bytes->length, from, length);
  bytes->length += length;
  return true;
}

bool bytes_print(struct bytes *bytes, const char *form, ...) {
  va_list values, again;
  va_start(values, form);
  va_copy(again, values);
  int length = vsnprintf(NULL, 0, form, values);
  bool has_room = length >= 0 && bytes_reserve(bytes, (size_t)length);
  if (has_room) {
    vsnprintf((char *)bytes->at + bytes->length, (size_t)length + 1, form, again);
    bytes->length += (size_t)length;
  }
  va_end(again);
  va_end(values);
  return has_room;
}

void bytes_trim(struct bytes *bytes) {
  if (bytes->room > MOST_IDLE_ROOM) bytes_free(bytes);
}

void bytes_free(struct bytes *bytes) {
  free(bytes->at);
  *bytes = (struct bytes){NULL, 0, 0};
}
