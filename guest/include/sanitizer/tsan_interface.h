// What a program may tell of its own synchronisation: the names and signatures of compiler-rt's public
// header of the same name, as far as they mean something here.
#ifndef SANITIZER_TSAN_INTERFACE_H
#define SANITIZER_TSAN_INTERFACE_H

#ifdef __cplusplus
extern "C" {
#endif

// What came before the release happens before what follows an acquire of the same address.
void __tsan_acquire(void *address);
void __tsan_release(void *address);

// Flags of a lock. Those of construction and of reentrant locks change nothing here.
static const unsigned __tsan_mutex_linker_init = 1 << 0;
static const unsigned __tsan_mutex_write_reentrant = 1 << 1;
static const unsigned __tsan_mutex_read_reentrant = 1 << 2;
static const unsigned __tsan_mutex_not_static = 1 << 8;
// Flags of an operation: a lock for reading; a try; a try that failed.
static const unsigned __tsan_mutex_read_lock = 1 << 3;
static const unsigned __tsan_mutex_try_lock = 1 << 4;
static const unsigned __tsan_mutex_try_lock_failed = 1 << 5;
static const unsigned __tsan_mutex_recursive_lock = 1 << 6;
static const unsigned __tsan_mutex_recursive_unlock = 1 << 7;

void __tsan_mutex_create(void *address, unsigned flags);
void __tsan_mutex_destroy(void *address, unsigned flags);
// Around taking a lock. After a try that failed post_lock says so by its flag, and nothing is told.
void __tsan_mutex_pre_lock(void *address, unsigned flags);
void __tsan_mutex_post_lock(void *address, unsigned flags, int recursion);
// Around giving a lock back. The recursion count that is answered is 1.
int __tsan_mutex_pre_unlock(void *address, unsigned flags);
void __tsan_mutex_post_unlock(void *address, unsigned flags);
// Around notification, and around a call of another function from within a lock: nothing is told.
void __tsan_mutex_pre_signal(void *address, unsigned flags);
void __tsan_mutex_post_signal(void *address, unsigned flags);
void __tsan_mutex_pre_divert(void *address, unsigned flags);
void __tsan_mutex_post_divert(void *address, unsigned flags);

// Nothing is flushed: a run has one shadow from its beginning to its end.
void __tsan_flush_memory(void);

#ifdef __cplusplus
}
#endif

#endif
