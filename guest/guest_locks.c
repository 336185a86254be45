// The locks of guest.h: atomic instructions that no call announces, and calls that tell of the lock.
#include "guest.h"
#include "kit.h"

void mutex_lock(struct mutex *mutex)
{
    struct backoff backoff = {0};
    while (__atomic_exchange_n(&mutex->word, 1, __ATOMIC_ACQUIRE) != 0) {
        back_off(&backoff);
    }
    __tsan_mutex_post_lock(mutex, 0, 0);
}

int mutex_try_lock(struct mutex *mutex)
{
    if (__atomic_exchange_n(&mutex->word, 1, __ATOMIC_ACQUIRE) != 0) {
        return 0;
    }
    __tsan_mutex_post_lock(mutex, 0, 0);
    return 1;
}

void mutex_unlock(struct mutex *mutex)
{
    __tsan_mutex_pre_unlock(mutex, 0);
    __atomic_store_n(&mutex->word, 0, __ATOMIC_RELEASE);
}

// A read-write lock's word is the number of readers, or this.
#define WRITER 0xffffffffu

static int moves(uint32_t *word, uint32_t from, uint32_t to)
{
    return __atomic_compare_exchange_n(word, &from, to, 0, __ATOMIC_ACQUIRE, __ATOMIC_RELAXED);
}

void rwlock_read_lock(struct rwlock *lock)
{
    struct backoff backoff = {0};
    uint32_t readers;
    while ((readers = __atomic_load_n(&lock->word, __ATOMIC_RELAXED)) == WRITER ||
           !moves(&lock->word, readers, readers + 1)) {
        back_off(&backoff);
    }
    __tsan_mutex_post_lock(lock, TSAN_READ_LOCK, 0);
}

void rwlock_read_unlock(struct rwlock *lock)
{
    __tsan_mutex_pre_unlock(lock, TSAN_READ_LOCK);
    __atomic_fetch_sub(&lock->word, 1, __ATOMIC_RELEASE);
}

void rwlock_write_lock(struct rwlock *lock)
{
    struct backoff backoff = {0};
    while (!moves(&lock->word, 0, WRITER)) {
        back_off(&backoff);
    }
    __tsan_mutex_post_lock(lock, 0, 0);
}

void rwlock_write_unlock(struct rwlock *lock)
{
    __tsan_mutex_pre_unlock(lock, 0);
    __atomic_store_n(&lock->word, 0, __ATOMIC_RELEASE);
}
