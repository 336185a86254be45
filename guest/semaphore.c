// <semaphore.h>.
#include <errno.h>
#include <semaphore.h>

#include "kit.h"

uint64_t __kit_time(const struct timespec *time, clockid_t clock);

static int take(sem_t *semaphore)
{
    unsigned value = __atomic_load_n(&semaphore->guest_value, __ATOMIC_RELAXED);
    return value > 0 && __atomic_compare_exchange_n(&semaphore->guest_value, &value, value - 1, 0,
                                                    __ATOMIC_ACQUIRE, __ATOMIC_RELAXED);
}

static int take_until(sem_t *semaphore, struct timer *timer)
{
    struct backoff backoff = {0};
    while (!take(semaphore)) {
        if (timer != NULL && __kit_timer_is_over(timer)) {
            return 0;
        }
        back_off(&backoff);
    }
    return 1;
}

static int failed(int error)
{
    errno = error;
    return -1;
}

int sem_init(sem_t *semaphore, int shared, unsigned value)
{
    (void)shared;
    if (value > SEM_VALUE_MAX) {
        return failed(EINVAL);
    }
    semaphore->guest_value = value;
    return 0;
}

int sem_destroy(sem_t *semaphore)
{
    (void)semaphore;
    return 0;
}

// What came before a post happens before what follows a wait.
int sem_post(sem_t *semaphore)
{
    ENTER();
    __tsan_release(semaphore);
    __atomic_fetch_add(&semaphore->guest_value, 1, __ATOMIC_RELEASE);
    LEAVE();
    return 0;
}

int sem_wait(sem_t *semaphore)
{
    ENTER();
    take_until(semaphore, NULL);
    __tsan_acquire(semaphore);
    LEAVE();
    return 0;
}

int sem_trywait(sem_t *semaphore)
{
    ENTER();
    int is_taken = take(semaphore);
    if (is_taken) {
        __tsan_acquire(semaphore);
    }
    LEAVE();
    return is_taken ? 0 : failed(EAGAIN);
}

int sem_timedwait(sem_t *semaphore, const struct timespec *until)
{
    struct timer timer;
    ENTER();
    __kit_timer_start(&timer, __kit_time(until, CLOCK_REALTIME));
    int is_taken = take_until(semaphore, &timer);
    __kit_timer_stop(&timer);
    if (is_taken) {
        __tsan_acquire(semaphore);
    }
    LEAVE();
    return is_taken ? 0 : failed(ETIMEDOUT);
}

int sem_getvalue(sem_t *semaphore, int *value)
{
    __tsan_acquire(semaphore);
    *value = (int)__atomic_load_n(&semaphore->guest_value, __ATOMIC_ACQUIRE);
    return 0;
}
