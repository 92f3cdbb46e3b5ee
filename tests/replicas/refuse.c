/*
 * A preloaded library that fails allocations of libmmdb. All of them fail for 0.3 s after each SIGUSR1, and those of 64 KiB or more from
 * the first SIGUSR2 on.
 *
 *     cc -shared -fPIC -o refuse.so refuse.c
 *     LD_PRELOAD=./refuse.so mmdb-replica ..
 *
 * An allocation of libmmdb is a call of malloc, calloc or realloc from libmmdb.so. The C library executes all other calls.
 */
#include <errno.h>
#include <link.h>
#include <signal.h>
#include <stdint.h>
#include <string.h>
#include <time.h>

void *__libc_malloc(size_t size);
void *__libc_calloc(size_t count, size_t size);
void *__libc_realloc(void *block, size_t size);

enum { MILLISECONDS = 300, LARGE = 65536 };

static uintptr_t first, end; /* the address range of libmmdb.so */
static volatile int64_t until;
static volatile sig_atomic_t fails_large;

static int64_t now(void) {
  struct timespec time;
  clock_gettime(CLOCK_MONOTONIC, &time);
  return (int64_t)time.tv_sec * 1000 + time.tv_nsec / 1000000;
}

static int is_refused(void *caller, size_t size) {
  if ((uintptr_t)caller < first || (uintptr_t)caller >= end) return 0;
  if (!(fails_large && size >= LARGE) && (!until || now() > until)) return 0;
  errno = ENOMEM;
  return 1;
}

void *malloc(size_t size) { return is_refused(__builtin_return_address(0), size) ? NULL : __libc_malloc(size); }

void *calloc(size_t count, size_t size) {
  return is_refused(__builtin_return_address(0), count * size) ? NULL : __libc_calloc(count, size);
}

void *realloc(void *block, size_t size) { return is_refused(__builtin_return_address(0), size) ? NULL : __libc_realloc(block, size); }

static void on_signal(int number) {
  (void)number;
  until = now() + MILLISECONDS;
}

static void on_other_signal(int number) {
  (void)number;
  fails_large = 1;
}

static int look(struct dl_phdr_info *object, size_t size, void *closure) {
  (void)size, (void)closure;
  if (!strstr(object->dlpi_name, "libmmdb")) return 0;
  first = end = object->dlpi_addr;
  for (int i = 0; i < object->dlpi_phnum; i++) {
    uintptr_t after = object->dlpi_addr + object->dlpi_phdr[i].p_vaddr + object->dlpi_phdr[i].p_memsz;
    if (object->dlpi_phdr[i].p_type == PT_LOAD && after > end) end = after;
  }
  return 1;
}

__attribute__((constructor)) static void begin(void) {
  dl_iterate_phdr(look, NULL);
  signal(SIGUSR1, on_signal);
  signal(SIGUSR2, on_other_signal);
}
