// <pthread.h>: threads, their attributes, and what runs where one ends.
#include <errno.h>
#include <pthread.h>
#include <stdlib.h>

#include "kit.h"

// What pthread_t is for the main thread, so that no thread's is 0.
#define MAIN_THREAD MOST_THREADS

uint64_t __kit_time(const struct timespec *time, clockid_t clock);

static struct thread *thread_of(pthread_t thread)
{
    if (thread == 0) {
        return NULL;
    }
    return __kit_thread_of(thread == MAIN_THREAD ? 0 : thread);
}

pthread_t pthread_self(void)
{
    uint32_t number = __kit_thread_self()->number;
    return number == 0 ? MAIN_THREAD : number;
}

int pthread_equal(pthread_t one, pthread_t other)
{
    return one == other;
}

int pthread_create(pthread_t *thread, const pthread_attr_t *attributes, void *(*function)(void *),
                   void *argument)
{
    int state = attributes != NULL && attributes->guest_detached ? DETACHED : JOINABLE;
    ENTER();
    long made = __kit_thread_make(function, argument, state, (uint64_t *)thread);
    LEAVE();
    return made < 0 ? EAGAIN : 0;
}

// Takes the right to join: 0, or the error.
static int begin_join(struct thread *thread)
{
    if (thread == NULL) {
        return ESRCH;
    }
    if (thread == __kit_thread_self()) {
        return EDEADLK;
    }
    uint32_t state = JOINABLE;
    int is_begun = __atomic_compare_exchange_n(&thread->state, &state, JOINING, 0, __ATOMIC_ACQUIRE,
                                               __ATOMIC_RELAXED);
    return is_begun ? 0 : EINVAL;
}

static void end_join(struct thread *thread, void **result)
{
    void *value = __kit_thread_reap(thread);
    if (result != NULL) {
        *result = value;
    }
}

static int is_ended(struct thread *thread)
{
    return __atomic_load_n(&thread->ended, __ATOMIC_ACQUIRE) != 0;
}

int pthread_join(pthread_t number, void **result)
{
    struct thread *thread = thread_of(number);
    ENTER();
    int error = begin_join(thread);
    if (error == 0) {
        end_join(thread, result);
    }
    LEAVE();
    return error;
}

int pthread_tryjoin_np(pthread_t number, void **result)
{
    struct thread *thread = thread_of(number);
    ENTER();
    int error = begin_join(thread);
    if (error == 0 && is_ended(thread)) {
        end_join(thread, result);
    } else if (error == 0) {
        __atomic_store_n(&thread->state, JOINABLE, __ATOMIC_RELEASE);
        error = EBUSY;
    }
    LEAVE();
    return error;
}

int pthread_timedjoin_np(pthread_t number, void **result, const struct timespec *until)
{
    struct thread *thread = thread_of(number);
    ENTER();
    int error = begin_join(thread);
    if (error == 0) {
        struct timer timer;
        struct backoff backoff = {0};
        __kit_timer_start(&timer, __kit_time(until, CLOCK_REALTIME));
        while (!is_ended(thread) && !__kit_timer_is_over(&timer)) {
            back_off(&backoff);
        }
        __kit_timer_stop(&timer);
        if (is_ended(thread)) {
            end_join(thread, result);
        } else {
            __atomic_store_n(&thread->state, JOINABLE, __ATOMIC_RELEASE);
            error = ETIMEDOUT;
        }
    }
    LEAVE();
    return error;
}

int pthread_detach(pthread_t number)
{
    struct thread *thread = thread_of(number);
    if (thread == NULL) {
        return ESRCH;
    }
    uint32_t state = JOINABLE;
    return __atomic_compare_exchange_n(&thread->state, &state, DETACHED, 0, __ATOMIC_ACQ_REL,
                                       __ATOMIC_RELAXED)
               ? 0
               : EINVAL;
}

int pthread_setname_np(pthread_t number, const char *name)
{
    (void)name;
    return thread_of(number) == NULL ? ESRCH : 0;
}

// ---- what runs where a thread ends

static _Thread_local struct __guest_cleanup *cleanups;

void __guest_cleanup_push(struct __guest_cleanup *cleanup)
{
    cleanup->next = cleanups;
    cleanups = cleanup;
}

void __guest_cleanup_pop(int runs)
{
    struct __guest_cleanup *cleanup = cleanups;
    cleanups = cleanup->next;
    if (runs) {
        cleanup->function(cleanup->argument);
    }
}

void pthread_exit(void *result)
{
    ENTER();
    while (cleanups != NULL) {
        __guest_cleanup_pop(1);
    }
    __kit_thread_end(result);
}

// ---- cancelling: there is none

int pthread_cancel(pthread_t number)
{
    return thread_of(number) == NULL ? ESRCH : ENOTSUP;
}

static _Thread_local int cancel_state;
static _Thread_local int cancel_type;

static int change(int *what, int value, int *former)
{
    if (value != 0 && value != 1) {
        return EINVAL;
    }
    if (former != NULL) {
        *former = *what;
    }
    *what = value;
    return 0;
}

int pthread_setcancelstate(int state, int *former)
{
    return change(&cancel_state, state, former);
}

int pthread_setcanceltype(int type, int *former)
{
    return change(&cancel_type, type, former);
}

void pthread_testcancel(void)
{
}

// ---- attributes

int pthread_attr_init(pthread_attr_t *attributes)
{
    *attributes = (pthread_attr_t){GUEST_STACK_BYTES, PTHREAD_CREATE_JOINABLE};
    return 0;
}

int pthread_attr_destroy(pthread_attr_t *attributes)
{
    (void)attributes;
    return 0;
}

int pthread_attr_setdetachstate(pthread_attr_t *attributes, int state)
{
    if (state != PTHREAD_CREATE_JOINABLE && state != PTHREAD_CREATE_DETACHED) {
        return EINVAL;
    }
    attributes->guest_detached = state;
    return 0;
}

int pthread_attr_getdetachstate(const pthread_attr_t *attributes, int *state)
{
    *state = attributes->guest_detached;
    return 0;
}

int pthread_attr_setstacksize(pthread_attr_t *attributes, size_t size)
{
    attributes->guest_stack_size = size;
    return 0;
}

int pthread_attr_getstacksize(const pthread_attr_t *attributes, size_t *size)
{
    *size = attributes->guest_stack_size;
    return 0;
}

int pthread_attr_setguardsize(pthread_attr_t *attributes, size_t size)
{
    (void)attributes;
    (void)size;
    return 0;
}

int pthread_attr_setscope(pthread_attr_t *attributes, int scope)
{
    (void)attributes;
    return scope == PTHREAD_SCOPE_SYSTEM ? 0 : ENOTSUP;
}

int pthread_attr_setinheritsched(pthread_attr_t *attributes, int inherit)
{
    (void)attributes;
    (void)inherit;
    return 0;
}

int pthread_attr_setschedpolicy(pthread_attr_t *attributes, int policy)
{
    (void)attributes;
    return policy == SCHED_OTHER ? 0 : ENOTSUP;
}

int pthread_attr_setschedparam(pthread_attr_t *attributes, const struct sched_param *parameter)
{
    (void)attributes;
    (void)parameter;
    return 0;
}
