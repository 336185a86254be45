// <pthread.h>: read-write locks.
#include <errno.h>
#include <pthread.h>

#include "guest.h"
#include "kit.h"

uint64_t __kit_time(const struct timespec *time, clockid_t clock);

// The word is the number of readers, or this.
#define WRITER 0xffffffffu

static int moves(unsigned *word, unsigned from, unsigned to)
{
    return __atomic_compare_exchange_n(word, &from, to, 0, __ATOMIC_ACQUIRE, __ATOMIC_RELAXED);
}

static int try_read(pthread_rwlock_t *lock)
{
    unsigned readers = __atomic_load_n(&lock->guest_word, __ATOMIC_RELAXED);
    return readers != WRITER && moves(&lock->guest_word, readers, readers + 1);
}

static int try_write(pthread_rwlock_t *lock)
{
    return moves(&lock->guest_word, 0, WRITER);
}

static int has_hungry(pthread_rwlock_t *lock)
{
    return __atomic_load_n(&lock->guest_hungry, __ATOMIC_RELAXED) != 0;
}

// A reader lets a writer go first that has waited for long, but not for ever: it may be that the writer waits
// for another lock of this same reader.
static int read_lock(pthread_rwlock_t *lock, struct timer *timer)
{
    struct backoff backoff = {0};
    for (uint32_t looks = 0; timer == NULL || !__kit_timer_is_over(timer); looks += 1) {
        if ((looks >= PATIENCE || !has_hungry(lock)) && try_read(lock)) {
            return 0;
        }
        back_off(&backoff);
    }
    return ETIMEDOUT;
}

static int write_lock(pthread_rwlock_t *lock, struct timer *timer)
{
    struct backoff backoff = {0};
    uint32_t looks = 0;
    int error = ETIMEDOUT;
    while (error != 0 && (timer == NULL || !__kit_timer_is_over(timer))) {
        if (try_write(lock)) {
            error = 0;
            break;
        }
        looks += 1;
        if (looks == PATIENCE) {
            __atomic_fetch_add(&lock->guest_hungry, 1, __ATOMIC_RELAXED);
        }
        back_off(&backoff);
    }
    if (looks >= PATIENCE) {
        __atomic_fetch_sub(&lock->guest_hungry, 1, __ATOMIC_RELAXED);
    }
    return error;
}

int pthread_rwlock_init(pthread_rwlock_t *lock, const pthread_rwlockattr_t *attributes)
{
    (void)attributes;
    ENTER();
    *lock = (pthread_rwlock_t)PTHREAD_RWLOCK_INITIALIZER;
    __tsan_write1(lock);
    LEAVE();
    return 0;
}

int pthread_rwlock_destroy(pthread_rwlock_t *lock)
{
    ENTER();
    int is_locked = __atomic_load_n(&lock->guest_word, __ATOMIC_ACQUIRE) != 0;
    __tsan_mutex_destroy(lock, 0);
    __tsan_write1(lock);
    LEAVE();
    return is_locked ? EBUSY : 0;
}

// What is told where `error` is 0: a lock for reading or for writing.
#define TELL(error, lock, flags)        \
    do {                                \
        if ((error) == 0) {             \
            announce_lock((lock), (flags)); \
        }                               \
    } while (0)

int pthread_rwlock_rdlock(pthread_rwlock_t *lock)
{
    ENTER();
    int error = read_lock(lock, NULL);
    TELL(error, lock, TSAN_READ_LOCK);
    LEAVE();
    return error;
}

int pthread_rwlock_tryrdlock(pthread_rwlock_t *lock)
{
    ENTER();
    int error = try_read(lock) ? 0 : EBUSY;
    TELL(error, lock, TSAN_READ_LOCK);
    LEAVE();
    return error;
}

int pthread_rwlock_timedrdlock(pthread_rwlock_t *lock, const struct timespec *until)
{
    struct timer timer;
    ENTER();
    __kit_timer_start(&timer, __kit_time(until, CLOCK_REALTIME));
    int error = read_lock(lock, &timer);
    __kit_timer_stop(&timer);
    TELL(error, lock, TSAN_READ_LOCK);
    LEAVE();
    return error;
}

int pthread_rwlock_wrlock(pthread_rwlock_t *lock)
{
    ENTER();
    int error = write_lock(lock, NULL);
    TELL(error, lock, 0);
    LEAVE();
    return error;
}

int pthread_rwlock_trywrlock(pthread_rwlock_t *lock)
{
    ENTER();
    int error = try_write(lock) ? 0 : EBUSY;
    TELL(error, lock, 0);
    LEAVE();
    return error;
}

int pthread_rwlock_timedwrlock(pthread_rwlock_t *lock, const struct timespec *until)
{
    struct timer timer;
    ENTER();
    __kit_timer_start(&timer, __kit_time(until, CLOCK_REALTIME));
    int error = write_lock(lock, &timer);
    __kit_timer_stop(&timer);
    TELL(error, lock, 0);
    LEAVE();
    return error;
}

int pthread_rwlock_unlock(pthread_rwlock_t *lock)
{
    ENTER();
    if (__atomic_load_n(&lock->guest_word, __ATOMIC_RELAXED) == WRITER) {
        announce_unlock(lock, 0);
        __atomic_store_n(&lock->guest_word, 0, __ATOMIC_RELEASE);
    } else {
        announce_unlock(lock, TSAN_READ_LOCK);
        __atomic_fetch_sub(&lock->guest_word, 1, __ATOMIC_RELEASE);
    }
    LEAVE();
    return 0;
}

int pthread_rwlockattr_init(pthread_rwlockattr_t *attributes)
{
    attributes->guest_shared = PTHREAD_PROCESS_PRIVATE;
    return 0;
}

int pthread_rwlockattr_destroy(pthread_rwlockattr_t *attributes)
{
    (void)attributes;
    return 0;
}

int pthread_rwlockattr_setpshared(pthread_rwlockattr_t *attributes, int shared)
{
    attributes->guest_shared = shared;
    return 0;
}
