/*
 * Preloaded, it refuses a process one growth of its memory: a call of malloc or calloc, or of realloc to a greater size.
 *
 *     cc -shared -fPIC -o refuse.so refuse.c
 *     LD_PRELOAD=./refuse.so PROGRAM
 *
 * The program calls refuse_growth(n) for the nth growth from then on to be refused, and growth_was_refused() to end that: it returns
 * whether it was refused. memory_in_use() returns the bytes of all blocks.
 */
#include <errno.h>
#include <malloc.h>
#include <stddef.h>

void *__libc_malloc(size_t size);
void *__libc_calloc(size_t count, size_t size);
void *__libc_realloc(void *block, size_t size);
void __libc_free(void *block);

static long growths_until_refusal;
static int was_refused;
static size_t bytes_in_use;

void refuse_growth(long number) {
    was_refused = 0;
    growths_until_refusal = number;
}

int growth_was_refused(void) {
    growths_until_refusal = 0;
    return was_refused;
}

size_t memory_in_use(void) { return bytes_in_use; }

static int is_refused(void) {
    if (growths_until_refusal == 0 || --growths_until_refusal > 0) return 0;
    was_refused = 1;
    errno = ENOMEM;
    return 1;
}

/* malloc_usable_size(NULL) is 0. */
static void *counted(void *block) {
    bytes_in_use += malloc_usable_size(block);
    return block;
}

void *malloc(size_t size) { return is_refused() ? NULL : counted(__libc_malloc(size)); }

void *calloc(size_t count, size_t size) { return is_refused() ? NULL : counted(__libc_calloc(count, size)); }

void *realloc(void *block, size_t size) {
    size_t before = malloc_usable_size(block);
    if (size > before && is_refused()) return NULL;
    void *moved = __libc_realloc(block, size);
    if (moved != NULL || size == 0) {
        bytes_in_use -= before;
        counted(moved);
    }
    return moved;
}

void free(void *block) {
    bytes_in_use -= malloc_usable_size(block);
    __libc_free(block);
}
