// The threads of guest.h.
#include "guest.h"
#include "kit.h"

long thread_create(void (*function)(void *), void *argument)
{
    return __kit_thread_make((void *(*)(void *))function, argument, JOINABLE, NULL);
}

long thread_join(long number)
{
    struct thread *thread = number > 0 ? __kit_thread_of((unsigned long)number) : NULL;
    uint32_t state = JOINABLE;
    if (thread != NULL && __atomic_compare_exchange_n(&thread->state, &state, JOINING, 0,
                                                      __ATOMIC_ACQUIRE, __ATOMIC_RELAXED)) {
        __kit_thread_reap(thread);
        return 0;
    }
    struct backoff backoff = {0};
    long answer;
    while ((answer = call(JOIN, (uint64_t)number, 0, 0)) == LIVING) {
        back_off(&backoff);
    }
    return answer;
}

_Noreturn void thread_exit(void)
{
    __kit_thread_end(NULL);
}
