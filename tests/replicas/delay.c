/*
 * A preloaded library that makes the reading thread of libnats wait before each lock that it takes for a message. One of these waits is
 * between looking up the subscription of a message and locking it.
 *
 *     cc -shared -fPIC -o delay.so delay.c -ldl
 *     LD_PRELOAD=./delay.so mmdb-replica ..
 */
#include <dlfcn.h>
#include <stdint.h>
#include <time.h>

typedef void lock(void *mutex);

/* The approximate size of natsConn_processMsg in bytes, and the delay in nanoseconds. */
enum { BYTES = 0x600, DELAY = 1000000 };

void natsMutex_Lock(void *mutex);
void natsMutex_Lock(void *mutex) {
  static lock *own;
  static uintptr_t start;
  if (!own) {
    own = (lock *)dlsym(RTLD_NEXT, "natsMutex_Lock");
    start = (uintptr_t)dlsym(RTLD_NEXT, "natsConn_processMsg");
  }
  uintptr_t caller = (uintptr_t)__builtin_return_address(0);
  if (caller - start < BYTES) nanosleep(&(struct timespec){.tv_nsec = DELAY}, NULL);
  own(mutex);
}
