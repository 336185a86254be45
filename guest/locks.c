// The locks under the mutexes of a program: atomic instructions that no call announces.
#include "kit.h"

int __kit_lock_try(struct lock *lock)
{
    return __atomic_exchange_n(&lock->word, 1, __ATOMIC_ACQUIRE) == 0;
}

static int is_free(struct lock *lock)
{
    return __atomic_load_n(&lock->word, __ATOMIC_RELAXED) == 0;
}

static int has_hungry(struct lock *lock)
{
    return __atomic_load_n(&lock->hungry, __ATOMIC_RELAXED) != 0;
}

int __kit_lock_take(struct lock *lock, struct timer *timer)
{
    if (!has_hungry(lock) && __kit_lock_try(lock)) {
        return 1;
    }
    struct backoff backoff = {0};
    uint32_t looks = 0;
    int taken = 0;
    while (!taken && (timer == NULL || !__kit_timer_is_over(timer))) {
        back_off(&backoff);
        looks += 1;
        if (looks == PATIENCE) {
            __atomic_fetch_add(&lock->hungry, 1, __ATOMIC_RELAXED);
        }
        taken = (looks >= PATIENCE || !has_hungry(lock)) && is_free(lock) && __kit_lock_try(lock);
    }
    if (looks >= PATIENCE) {
        __atomic_fetch_sub(&lock->hungry, 1, __ATOMIC_RELAXED);
    }
    return taken;
}

void __kit_lock_give(struct lock *lock)
{
    __atomic_store_n(&lock->word, 0, __ATOMIC_RELEASE);
}
