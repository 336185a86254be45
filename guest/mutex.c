// <pthread.h>: mutexes and conditions.
#include <errno.h>
#include <pthread.h>

#include "kit.h"

uint64_t __kit_time(const struct timespec *time, clockid_t clock);

// ---- mutexes

static struct lock *lock_of(pthread_mutex_t *mutex)
{
    return (struct lock *)mutex;
}

static unsigned self(void)
{
    return __kit_thread_self()->number + 1;
}

static int is_mine(const pthread_mutex_t *mutex)
{
    return __atomic_load_n(&mutex->guest_owner, __ATOMIC_RELAXED) == self();
}

static void own(pthread_mutex_t *mutex)
{
    if (mutex->guest_kind != PTHREAD_MUTEX_NORMAL) {
        __atomic_store_n(&mutex->guest_owner, self(), __ATOMIC_RELAXED);
    }
}

// Whether this thread has it already, and what the answer is then.
static int has_already(pthread_mutex_t *mutex, int otherwise, int *answer)
{
    if (mutex->guest_kind == PTHREAD_MUTEX_NORMAL || !is_mine(mutex)) {
        return 0;
    }
    *answer = otherwise;
    if (mutex->guest_kind == PTHREAD_MUTEX_RECURSIVE) {
        mutex->guest_depth += 1;
        *answer = 0;
    }
    return 1;
}

// The first of a recursive mutex's locks is told of, and the last unlock.
ALWAYS_INLINE int lock(pthread_mutex_t *mutex, struct timer *timer)
{
    int answer = 0;
    if (has_already(mutex, EDEADLK, &answer)) {
        return answer;
    }
    if (!__kit_lock_take(lock_of(mutex), timer)) {
        return ETIMEDOUT;
    }
    own(mutex);
    announce_lock(mutex, 0);
    return 0;
}

ALWAYS_INLINE int unlock(pthread_mutex_t *mutex)
{
    if (mutex->guest_kind != PTHREAD_MUTEX_NORMAL) {
        if (!is_mine(mutex)) {
            return EPERM;
        }
        if (mutex->guest_depth > 0) {
            mutex->guest_depth -= 1;
            return 0;
        }
        __atomic_store_n(&mutex->guest_owner, 0, __ATOMIC_RELAXED);
    }
    announce_unlock(mutex, 0);
    __kit_lock_give(lock_of(mutex));
    return 0;
}

int pthread_mutex_init(pthread_mutex_t *mutex, const pthread_mutexattr_t *attributes)
{
    ENTER();
    *mutex = (pthread_mutex_t)PTHREAD_MUTEX_INITIALIZER;
    if (attributes != NULL) {
        mutex->guest_kind = (unsigned)attributes->guest_kind;
    }
    __tsan_write1(mutex);
    LEAVE();
    return 0;
}

int pthread_mutex_destroy(pthread_mutex_t *mutex)
{
    ENTER();
    int is_locked = __atomic_load_n(&mutex->guest_word, __ATOMIC_ACQUIRE) != 0;
    __tsan_mutex_destroy(mutex, 0);
    __tsan_write1(mutex);
    LEAVE();
    return is_locked ? EBUSY : 0;
}

int pthread_mutex_lock(pthread_mutex_t *mutex)
{
    ENTER();
    int error = lock(mutex, NULL);
    LEAVE();
    return error;
}

int pthread_mutex_trylock(pthread_mutex_t *mutex)
{
    int error = 0;
    ENTER();
    if (!has_already(mutex, EBUSY, &error)) {
        error = __kit_lock_try(lock_of(mutex)) ? 0 : EBUSY;
        if (error == 0) {
            own(mutex);
            announce_lock(mutex, 0);
        }
    }
    LEAVE();
    return error;
}

int pthread_mutex_timedlock(pthread_mutex_t *mutex, const struct timespec *until)
{
    struct timer timer;
    ENTER();
    __kit_timer_start(&timer, __kit_time(until, CLOCK_REALTIME));
    int error = lock(mutex, &timer);
    __kit_timer_stop(&timer);
    LEAVE();
    return error;
}

int pthread_mutex_unlock(pthread_mutex_t *mutex)
{
    ENTER();
    int error = unlock(mutex);
    LEAVE();
    return error;
}

int pthread_mutexattr_init(pthread_mutexattr_t *attributes)
{
    *attributes = (pthread_mutexattr_t){PTHREAD_MUTEX_DEFAULT, PTHREAD_PROCESS_PRIVATE};
    return 0;
}

int pthread_mutexattr_destroy(pthread_mutexattr_t *attributes)
{
    (void)attributes;
    return 0;
}

int pthread_mutexattr_settype(pthread_mutexattr_t *attributes, int kind)
{
    if (kind < PTHREAD_MUTEX_NORMAL || kind > PTHREAD_MUTEX_ERRORCHECK) {
        return EINVAL;
    }
    attributes->guest_kind = kind;
    return 0;
}

int pthread_mutexattr_gettype(const pthread_mutexattr_t *attributes, int *kind)
{
    *kind = attributes->guest_kind;
    return 0;
}

int pthread_mutexattr_setpshared(pthread_mutexattr_t *attributes, int shared)
{
    attributes->guest_shared = shared;
    return 0;
}

int pthread_mutexattr_getpshared(const pthread_mutexattr_t *attributes, int *shared)
{
    *shared = attributes->guest_shared;
    return 0;
}

int pthread_mutexattr_setprotocol(pthread_mutexattr_t *attributes, int protocol)
{
    (void)attributes;
    return protocol == PTHREAD_PRIO_NONE ? 0 : ENOTSUP;
}

int pthread_mutexattr_setrobust(pthread_mutexattr_t *attributes, int robust)
{
    (void)attributes;
    return robust == PTHREAD_MUTEX_STALLED ? 0 : ENOTSUP;
}

// ---- conditions: a queue of the threads that wait. A signal wakes the first, so nobody wakes without one.

struct __guest_waiter {
    struct __guest_waiter *next;
    uint32_t woken;
};

static struct guard *guard_of(pthread_cond_t *condition)
{
    return (struct guard *)condition;
}

static void enqueue(pthread_cond_t *condition, struct __guest_waiter *waiter)
{
    guard_take(guard_of(condition));
    if (condition->guest_first == NULL) {
        condition->guest_first = waiter;
    } else {
        condition->guest_last->next = waiter;
    }
    condition->guest_last = waiter;
    guard_give(guard_of(condition));
}

// Takes a waiter out whose time is over: 0 where a signal has woken it meanwhile.
static int withdraw(pthread_cond_t *condition, struct __guest_waiter *waiter)
{
    guard_take(guard_of(condition));
    int is_there = 0;
    struct __guest_waiter *before = NULL;
    for (struct __guest_waiter *next = condition->guest_first; next != NULL; next = next->next) {
        if (next == waiter) {
            is_there = 1;
            break;
        }
        before = next;
    }
    if (is_there) {
        if (before == NULL) {
            condition->guest_first = waiter->next;
        } else {
            before->next = waiter->next;
        }
        if (condition->guest_last == waiter) {
            condition->guest_last = before;
        }
    }
    guard_give(guard_of(condition));
    return is_there;
}

static void wake(pthread_cond_t *condition, int all)
{
    guard_take(guard_of(condition));
    do {
        struct __guest_waiter *waiter = condition->guest_first;
        if (waiter == NULL) {
            break;
        }
        condition->guest_first = waiter->next;
        // From here on the waiter may go on, and its place on its stack be another's.
        __atomic_store_n(&waiter->woken, 1, __ATOMIC_RELEASE);
    } while (all);
    guard_give(guard_of(condition));
}

// Waits to be woken or for the timer: 0, or ETIMEDOUT.
static int await(pthread_cond_t *condition, struct __guest_waiter *waiter, struct timer *timer)
{
    struct backoff backoff = {0};
    while (__atomic_load_n(&waiter->woken, __ATOMIC_ACQUIRE) == 0) {
        if (timer != NULL && __kit_timer_is_over(timer) && withdraw(condition, waiter)) {
            return ETIMEDOUT;
        }
        back_off(&backoff);
    }
    return 0;
}

ALWAYS_INLINE int wait(pthread_cond_t *condition, pthread_mutex_t *mutex, struct timer *timer)
{
    struct __guest_waiter waiter = {NULL, 0};
    __tsan_read8(condition);
    if (mutex->guest_kind != PTHREAD_MUTEX_NORMAL && !is_mine(mutex)) {
        return EPERM;
    }
    unsigned depth = mutex->guest_depth;
    mutex->guest_depth = 0;
    enqueue(condition, &waiter);
    unlock(mutex);
    int error = await(condition, &waiter, timer);
    lock(mutex, NULL);
    mutex->guest_depth = depth;
    return error;
}

int pthread_cond_init(pthread_cond_t *condition, const pthread_condattr_t *attributes)
{
    ENTER();
    *condition = (pthread_cond_t)PTHREAD_COND_INITIALIZER;
    if (attributes != NULL) {
        condition->guest_clock = attributes->guest_clock;
    }
    __tsan_write8(condition);
    LEAVE();
    return 0;
}

int pthread_cond_destroy(pthread_cond_t *condition)
{
    ENTER();
    __tsan_write8(condition);
    LEAVE();
    return 0;
}

int pthread_cond_wait(pthread_cond_t *condition, pthread_mutex_t *mutex)
{
    ENTER();
    int error = wait(condition, mutex, NULL);
    LEAVE();
    return error;
}

int pthread_cond_timedwait(pthread_cond_t *condition, pthread_mutex_t *mutex,
                           const struct timespec *until)
{
    struct timer timer;
    clockid_t clock = condition->guest_clock == CLOCK_MONOTONIC ? CLOCK_MONOTONIC : CLOCK_REALTIME;
    ENTER();
    __kit_timer_start(&timer, __kit_time(until, clock));
    int error = wait(condition, mutex, &timer);
    __kit_timer_stop(&timer);
    LEAVE();
    return error;
}

int pthread_cond_signal(pthread_cond_t *condition)
{
    ENTER();
    __tsan_read8(condition);
    wake(condition, 0);
    LEAVE();
    return 0;
}

int pthread_cond_broadcast(pthread_cond_t *condition)
{
    ENTER();
    __tsan_read8(condition);
    wake(condition, 1);
    LEAVE();
    return 0;
}

int pthread_condattr_init(pthread_condattr_t *attributes)
{
    attributes->guest_clock = CLOCK_REALTIME;
    return 0;
}

int pthread_condattr_destroy(pthread_condattr_t *attributes)
{
    (void)attributes;
    return 0;
}

int pthread_condattr_setclock(pthread_condattr_t *attributes, clockid_t clock)
{
    if (clock != CLOCK_REALTIME && clock != CLOCK_MONOTONIC) {
        return EINVAL;
    }
    attributes->guest_clock = clock;
    return 0;
}

int pthread_condattr_getclock(const pthread_condattr_t *attributes, clockid_t *clock)
{
    *clock = attributes->guest_clock;
    return 0;
}

int pthread_condattr_setpshared(pthread_condattr_t *attributes, int shared)
{
    (void)attributes;
    (void)shared;
    return 0;
}
