// <pthread.h>: barriers, once and spin locks.
#include <errno.h>
#include <pthread.h>

#include "kit.h"

// ---- barriers

int pthread_barrier_init(pthread_barrier_t *barrier, const pthread_barrierattr_t *attributes,
                         unsigned count)
{
    (void)attributes;
    if (count == 0) {
        return EINVAL;
    }
    ENTER();
    *barrier = (pthread_barrier_t){count, 0, 0};
    __tsan_write1(barrier);
    LEAVE();
    return 0;
}

int pthread_barrier_destroy(pthread_barrier_t *barrier)
{
    ENTER();
    __tsan_write1(barrier);
    LEAVE();
    return 0;
}

// All that any thread did before it arrived happens before what each does after it leaves. Rounds release and
// acquire at two addresses in turn, so that a thread that leaves late gets nothing of what others did up to their
// next arrival.
int pthread_barrier_wait(pthread_barrier_t *barrier)
{
    ENTER();
    unsigned round = __atomic_load_n(&barrier->guest_round, __ATOMIC_ACQUIRE);
    void *edge = (unsigned *)barrier + round % 2;
    __tsan_release(edge);
    __tsan_read1(barrier);
    unsigned arrived = __atomic_add_fetch(&barrier->guest_arrived, 1, __ATOMIC_ACQ_REL);
    int is_last = arrived == barrier->guest_needed;
    if (is_last) {
        __atomic_store_n(&barrier->guest_arrived, 0, __ATOMIC_RELAXED);
        __atomic_store_n(&barrier->guest_round, round + 1, __ATOMIC_RELEASE);
    } else {
        struct backoff backoff = {0};
        while (__atomic_load_n(&barrier->guest_round, __ATOMIC_ACQUIRE) == round) {
            back_off(&backoff);
        }
    }
    __tsan_read1(barrier);
    __tsan_acquire(edge);
    LEAVE();
    return is_last ? PTHREAD_BARRIER_SERIAL_THREAD : 0;
}

int pthread_barrierattr_init(pthread_barrierattr_t *attributes)
{
    attributes->guest_shared = PTHREAD_PROCESS_PRIVATE;
    return 0;
}

int pthread_barrierattr_destroy(pthread_barrierattr_t *attributes)
{
    (void)attributes;
    return 0;
}

int pthread_barrierattr_setpshared(pthread_barrierattr_t *attributes, int shared)
{
    attributes->guest_shared = shared;
    return 0;
}

// ---- once

enum { FRESH, RUNNING, DONE };

int pthread_once(pthread_once_t *once, void (*function)(void))
{
    unsigned state = FRESH;
    ENTER();
    if (__atomic_load_n(&once->guest_state, __ATOMIC_ACQUIRE) == DONE) {
        __tsan_acquire(once);
    } else if (__atomic_compare_exchange_n(&once->guest_state, &state, RUNNING, 0, __ATOMIC_ACQUIRE,
                                           __ATOMIC_ACQUIRE)) {
        function();
        __tsan_release(once);
        __atomic_store_n(&once->guest_state, DONE, __ATOMIC_RELEASE);
    } else {
        struct backoff backoff = {0};
        while (__atomic_load_n(&once->guest_state, __ATOMIC_ACQUIRE) != DONE) {
            back_off(&backoff);
        }
        __tsan_acquire(once);
    }
    LEAVE();
    return 0;
}

// ---- spin locks

int pthread_spin_init(pthread_spinlock_t *lock, int shared)
{
    (void)shared;
    ENTER();
    *lock = (pthread_spinlock_t){0, 0};
    __tsan_write1(lock);
    LEAVE();
    return 0;
}

int pthread_spin_destroy(pthread_spinlock_t *lock)
{
    ENTER();
    __tsan_mutex_destroy(lock, 0);
    __tsan_write1(lock);
    LEAVE();
    return 0;
}

int pthread_spin_lock(pthread_spinlock_t *lock)
{
    ENTER();
    __kit_lock_take((struct lock *)lock, NULL);
    announce_lock(lock, 0);
    LEAVE();
    return 0;
}

int pthread_spin_trylock(pthread_spinlock_t *lock)
{
    ENTER();
    int error = __kit_lock_try((struct lock *)lock) ? 0 : EBUSY;
    if (error == 0) {
        announce_lock(lock, 0);
    }
    LEAVE();
    return error;
}

int pthread_spin_unlock(pthread_spinlock_t *lock)
{
    ENTER();
    announce_unlock(lock, 0);
    __kit_lock_give((struct lock *)lock);
    LEAVE();
    return 0;
}
