/* A preloaded library that fails one allocation of a single-threaded program, as if memory had run out:

     cc -shared -fPIC -o refuse_growth.so refuse_growth.c
     LD_PRELOAD=./refuse_growth.so REFUSE_GROWTH=7 REFUSE_GROWTH_REPORT=3 PROGRAM < INPUT > OUTPUT 3> REPORT

   An allocation, here also called a growth, is a call of malloc or calloc, or of realloc to a larger size than the block
   was requested with. Allocations are counted from 1. The allocation with the number REFUSE_GROWTH returns NULL with
   ENOMEM. With 7+ instead of 7, all allocations from the seventh fail until the program has written to standard output.
   With 0 or without the variable, none fails. At its end, the program writes a line to the descriptor
   REFUSE_GROWTH_REPORT:

     GROWTHS READ WRITTEN

   These are the number of allocations, and the bytes of standard input and standard output up to the first allocation
   that failed, or -1 if none failed. Input and output must be files for this.

   Only allocations of the program itself count. The dynamic linker may call these functions, but not after it has run the
   constructor of this library, which precedes the program's own code. The C library allocates nothing for a program that
   only reads and writes descriptors, as mmdb and the test programs do. So the first allocation of mmdb is the buffer of
   its output, and the second follows the first read. The first allocation of a test program belongs to its test.

   The programs allocate only with malloc and realloc. The library does not support posix_memalign and similar functions:
   a block from them must not be passed to realloc. */
#include <errno.h>
#include <malloc.h>
#include <stdint.h>
#include <stdio.h>
#include <stdlib.h>
#include <string.h>
#include <unistd.h>

/* The C library's functions by their internal names. Looking up the public names with dlsym may allocate. */
void *__libc_malloc(size_t size);
void *__libc_calloc(size_t count, size_t size);
void *__libc_realloc(void *block, size_t size);

static int counts = 0;
static unsigned long refused = 0;
static int refuses_until_write = 0;
static unsigned long growths = 0;
static long bytes_read = -1;
static long bytes_written = -1;

/* Counts an allocation, and returns whether it fails. */
static int is_refused(void) {
  if (!counts || ++growths < refused || refused == 0) return 0;
  long written = lseek(STDOUT_FILENO, 0, SEEK_CUR);
  if (growths == refused) {
    bytes_read = lseek(STDIN_FILENO, 0, SEEK_CUR);
    bytes_written = written;
  } else if (!refuses_until_write || written != bytes_written) {
    return 0;
  }
  errno = ENOMEM;
  return 1;
}

/* Each block is larger by the size of a size_t, and stores the requested size in its last bytes. The C library knows only
   the rounded size, which hides a small growth of a block. */
static size_t with_room(size_t size) { return size > SIZE_MAX - sizeof size ? SIZE_MAX : size + sizeof size; }

static char *place_of_size(void *block) { return (char *)block + malloc_usable_size(block) - sizeof(size_t); }

static void *with_size(void *block, size_t size) {
  if (block) memcpy(place_of_size(block), &size, sizeof size);
  return block;
}

static size_t size_of(void *block) {
  size_t size;
  memcpy(&size, place_of_size(block), sizeof size);
  return size;
}

void *malloc(size_t size) { return is_refused() ? NULL : with_size(__libc_malloc(with_room(size)), size); }

void *calloc(size_t count, size_t size) {
  size_t bytes;
  if (__builtin_mul_overflow(count, size, &bytes)) bytes = SIZE_MAX;
  return is_refused() ? NULL : with_size(__libc_calloc(1, with_room(bytes)), bytes);
}

void *realloc(void *block, size_t size) {
  if (!block) return malloc(size);
  if (!size) return __libc_realloc(block, 0);
  if (size > size_of(block) && is_refused()) return NULL;
  return with_size(__libc_realloc(block, with_room(size)), size);
}

__attribute__((constructor)) static void begin(void) {
  const char *number = getenv("REFUSE_GROWTH");
  char *rest = NULL;
  refused = number ? strtoul(number, &rest, 10) : 0;
  refuses_until_write = rest && *rest == '+';
  counts = 1;
}

__attribute__((destructor)) static void end(void) {
  const char *descriptor = getenv("REFUSE_GROWTH_REPORT");
  counts = 0;
  if (descriptor) dprintf(atoi(descriptor), "%lu %ld %ld\n", growths, bytes_read, bytes_written);
}
