// <pthread.h>: values that each thread has of its own, with destructors.
#include <errno.h>
#include <pthread.h>

#include "kit.h"

struct key {
    uint32_t is_made;
    void (*destructor)(void *);
};

static struct key keys[PTHREAD_KEYS_MAX];
static struct guard making;
static _Thread_local void *values[PTHREAD_KEYS_MAX];

// Where a thread ends each value that isn't NULL is given to its destructor, and again where destructors
// have set values anew.
static void destroy_values(void)
{
    int is_left = 1;
    for (int round = 0; is_left && round < PTHREAD_DESTRUCTOR_ITERATIONS; round += 1) {
        is_left = 0;
        for (int key = 0; key < PTHREAD_KEYS_MAX; key += 1) {
            void *value = values[key];
            void (*destructor)(void *) = keys[key].destructor;
            if (value != NULL && destructor != NULL) {
                values[key] = NULL;
                is_left = 1;
                destructor(value);
            }
        }
    }
}

int pthread_key_create(pthread_key_t *key, void (*destructor)(void *))
{
    int error = EAGAIN;
    guard_take(&making);
    for (unsigned i = 0; i < PTHREAD_KEYS_MAX; i += 1) {
        if (!keys[i].is_made) {
            keys[i] = (struct key){1, destructor};
            *key = i;
            error = 0;
            break;
        }
    }
    __kit_at_thread_end = destroy_values;
    guard_give(&making);
    return error;
}

int pthread_key_delete(pthread_key_t key)
{
    int error = EINVAL;
    guard_take(&making);
    if (key < PTHREAD_KEYS_MAX && keys[key].is_made) {
        keys[key] = (struct key){0, NULL};
        error = 0;
    }
    guard_give(&making);
    return error;
}

int pthread_setspecific(pthread_key_t key, const void *value)
{
    if (key >= PTHREAD_KEYS_MAX || !keys[key].is_made) {
        return EINVAL;
    }
    values[key] = (void *)value;
    return 0;
}

void *pthread_getspecific(pthread_key_t key)
{
    return key < PTHREAD_KEYS_MAX ? values[key] : NULL;
}
