/* A preloaded library that writes the number of bytes of heap in use to standard error after each write to standard
   output. The number includes the 8 bytes that glibc stores before each block. For single-threaded programs. */
#define _GNU_SOURCE
#include <malloc.h>
#include <stdio.h>
#include <unistd.h>

void *__libc_malloc(size_t size);
void *__libc_calloc(size_t count, size_t size);
void *__libc_realloc(void *block, size_t size);
void __libc_free(void *block);
ssize_t __write(int file, const void *bytes, size_t size);

static size_t live;

static size_t cost(void *block) { return block ? malloc_usable_size(block) + 8 : 0; }

static void *counted(void *block) {
  live += cost(block);
  return block;
}

void *malloc(size_t size) { return counted(__libc_malloc(size)); }

void *calloc(size_t count, size_t size) { return counted(__libc_calloc(count, size)); }

void *realloc(void *block, size_t size) {
  size_t before = cost(block);
  void *moved = __libc_realloc(block, size);
  if (moved || !size) live -= before;
  return counted(moved);
}

void free(void *block) {
  live -= cost(block);
  __libc_free(block);
}

ssize_t write(int file, const void *bytes, size_t size) {
  ssize_t written = __write(file, bytes, size);
  if (file == STDOUT_FILENO) {
    char text[32];
    int length = snprintf(text, sizeof text, "%zu\n", live);
    __write(STDERR_FILENO, text, length);
  }
  return written;
}
