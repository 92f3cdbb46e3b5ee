/* Preloaded into tests/memory.rs, it refuses one growth of memory, as a system that has no more memory does.

   A growth is a call of malloc or calloc, or of realloc with a size greater than the block was requested with. refuse_growth(n) makes the
   nth growth of this thread from now on fail, counted from 1; n = 0 makes none fail. growths() returns the number of growths of this
   thread since then. live_blocks() returns the number of blocks of all threads that are allocated and not freed. */
#include <errno.h>
#include <malloc.h>
#include <stdatomic.h>
#include <stdint.h>
#include <stdlib.h>
#include <string.h>

/* The C library's own functions by their other names. Looking them up by dlsym could allocate. */
void *__libc_malloc(size_t size);
void *__libc_calloc(size_t count, size_t size);
void *__libc_realloc(void *block, size_t size);
void __libc_free(void *block);

void refuse_growth(unsigned long number);
unsigned long growths(void);
long live_blocks(void);

#define OF_THREAD static __thread __attribute__((tls_model("initial-exec")))
OF_THREAD unsigned long counted = 0;
OF_THREAD unsigned long refused = 0;
static atomic_long live = 0;

void refuse_growth(unsigned long number) {
  counted = 0;
  refused = number;
}

unsigned long growths(void) { return counted; }

long live_blocks(void) { return live; }

/* Counts a growth, and returns whether it must fail. */
static int is_refused(void) {
  if (++counted != refused) return 0;
  errno = ENOMEM;
  return 1;
}

/* The requested size is stored in the last bytes of a block, which is larger by that much. The C library knows only the size that it
   rounded up to, by which a small growth would not count as one. */
static size_t with_room(size_t size) { return size > SIZE_MAX - sizeof size ? SIZE_MAX : size + sizeof size; }

static char *place_of_size(void *block) { return (char *)block + malloc_usable_size(block) - sizeof(size_t); }

static void *with_size(void *block, size_t size) {
  if (block) memcpy(place_of_size(block), &size, sizeof size);
  return block;
}

static void *new_block(void *block, size_t size) {
  if (block) live++;
  return with_size(block, size);
}

void *malloc(size_t size) { return is_refused() ? NULL : new_block(__libc_malloc(with_room(size)), size); }

void *calloc(size_t count, size_t size) {
  size_t bytes;
  if (__builtin_mul_overflow(count, size, &bytes)) bytes = SIZE_MAX;
  return is_refused() ? NULL : new_block(__libc_calloc(1, with_room(bytes)), bytes);
}

void free(void *block) {
  if (block) live--;
  __libc_free(block);
}

void *realloc(void *block, size_t size) {
  if (!block) return malloc(size);
  if (!size) {
    free(block);
    return NULL;
  }
  size_t before;
  memcpy(&before, place_of_size(block), sizeof before);
  if (size > before && is_refused()) return NULL;
  return with_size(__libc_realloc(block, with_room(size)), size);
}
