/* A fair spin lock: each thread draws a ticket and waits until it is served. */
#include <pthread.h>
#include <stdatomic.h>
#include <stdio.h>

#define THREADS 3
#define ROUNDS 10

struct ticket_lock {
    atomic_uint next, serving;
};

static struct ticket_lock lock;
static long counter;

static void acquire(struct ticket_lock *lock)
{
    unsigned mine = atomic_fetch_add_explicit(&lock->next, 1, memory_order_relaxed);
    while (atomic_load_explicit(&lock->serving, memory_order_acquire) != mine)
        ;
}

static void release(struct ticket_lock *lock)
{
    unsigned served = atomic_load_explicit(&lock->serving, memory_order_relaxed);
#ifdef RACE
    atomic_store_explicit(&lock->serving, served + 1, memory_order_relaxed);
#else
    atomic_store_explicit(&lock->serving, served + 1, memory_order_release);
#endif
}

static void *count(void *arg)
{
    for (int i = 0; i < ROUNDS; i++) {
        acquire(&lock);
        counter++; // race
        release(&lock);
    }
    return arg;
}

int main(void)
{
    pthread_t threads[THREADS];

    for (int i = 0; i < THREADS; i++)
        pthread_create(&threads[i], NULL, count, NULL);
    for (int i = 0; i < THREADS; i++)
        pthread_join(threads[i], NULL);
    printf("counter %ld\n", counter);
    return 0;
}
