/* A preloaded library that counts allocations. At its end, the process writes the number of calls of malloc, calloc and realloc to standard error. */
#include <stddef.h>
#include <stdio.h>

void *__libc_malloc(size_t size);
void *__libc_calloc(size_t count, size_t size);
void *__libc_realloc(void *block, size_t size);

static unsigned long asked;

void *malloc(size_t size) {
  asked++;
  return __libc_malloc(size);
}

void *calloc(size_t count, size_t size) {
  asked++;
  return __libc_calloc(count, size);
}

void *realloc(void *block, size_t size) {
  asked++;
  return __libc_realloc(block, size);
}

__attribute__((destructor)) static void tell(void) { fprintf(stderr, "asked %lu\n", asked); }
