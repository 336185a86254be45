// Threads, locks and output for a guest of tsanrun that needs no C library. A program may include
// <pthread.h> and the other headers in their place, or beside this one.
#ifndef GUEST_H
#define GUEST_H

#include <stddef.h>
#include <stdint.h>

#include "sanitizer/tsan_interface.h"

#ifdef __cplusplus
#define GUEST_NORETURN [[noreturn]]
extern "C" {
#else
#define GUEST_NORETURN _Noreturn
#endif

// ---- threads

// Starts a thread that calls `function(argument)`: its number, from 1. -11 where `--harts` threads
// live already, where 1,024 were made, or where no stack is left. There are 63 stacks of 16,384 bytes,
// unless the program is built with -DGUEST_STACKS=N or -DGUEST_STACK_BYTES=N (a multiple of 16). The
// stack of a thread that was joined is used again once no fresh one is left.
long thread_create(void (*function)(void *), void *argument);

// Waits until the thread has ended. All that it did happens before what follows. 0, or -3 where no
// such thread was made.
long thread_join(long thread);

// Ends the calling thread, as a return from its function does. Where the main thread ends so, the
// others go on; where it returns from main, the run ends.
GUEST_NORETURN void thread_exit(void);

// Ends the run, after the destructors and what atexit was given. The low eight bits of the status are told.
GUEST_NORETURN void exit(int status);

// ---- locks. All bytes zero: free.

struct mutex {
    uint32_t word;
};

void mutex_lock(struct mutex *mutex);
// 1 where it locked, else 0.
int mutex_try_lock(struct mutex *mutex);
void mutex_unlock(struct mutex *mutex);

// A lock for one writer or many readers.
struct rwlock {
    uint32_t word;
};

void rwlock_read_lock(struct rwlock *lock);
void rwlock_read_unlock(struct rwlock *lock);
void rwlock_write_lock(struct rwlock *lock);
void rwlock_write_unlock(struct rwlock *lock);

// ---- output. Bytes that are read for it are announced at the caller's place.

void put_bytes(const void *bytes, size_t count);
void put_text(const char *text);
void put_number(long number);

// ---- memory. The bytes are announced as ranges at the caller's place.

void *memcpy(void *to, const void *from, size_t size);
void *memmove(void *to, const void *from, size_t size);
void *memset(void *to, int byte, size_t size);
int memcmp(const void *one, const void *other, size_t size);

// ---- for synchronisation of a program's own: see sanitizer/tsan_interface.h. What is released at an
// address happens before what follows a later acquire there.

#define TSAN_READ_LOCK __tsan_mutex_read_lock

#ifdef __cplusplus
}
#endif

#endif
