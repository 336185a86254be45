// Eight threads pass a token round a thousand times: under a mutex with conditions, or with -DATOMIC by an
// atomic count. -DSTEP=7 passes it against the order in which threads have their turns. Run it with --harts=9.
#include <pthread.h>
#include <sched.h>
#include <stdatomic.h>
#include <stdio.h>

#ifndef STEP
#define STEP 1
#endif

enum { THREADS = 8, PASSES = 1000 };

#ifdef ATOMIC

static atomic_int passes;

static void *pass(void *argument)
{
    int me = (int)(long)argument;
    int now = 0;
    while (now < PASSES) {
        now = atomic_load(&passes);
        if (now < PASSES && now * STEP % THREADS == me) {
            atomic_store(&passes, now + 1);
        } else {
            sched_yield();
        }
    }
    return NULL;
}

#else

static pthread_mutex_t mutex = PTHREAD_MUTEX_INITIALIZER;
static pthread_cond_t turns[THREADS];
static int holder, passes;

static void *pass(void *argument)
{
    int me = (int)(long)argument;
    int is_over = 0;
    while (!is_over) {
        pthread_mutex_lock(&mutex);
        while (holder != me && passes < PASSES) {
            pthread_cond_wait(&turns[me], &mutex);
        }
        is_over = passes == PASSES;
        if (!is_over) {
            passes += 1;
        }
        holder = (me + STEP) % THREADS;
        pthread_cond_signal(&turns[holder]);
        pthread_mutex_unlock(&mutex);
    }
    return NULL;
}

#endif

int main(void)
{
    pthread_t threads[THREADS];
    for (long i = 0; i < THREADS; i += 1) {
        pthread_create(&threads[i], NULL, pass, (void *)i);
    }
    for (int i = 0; i < THREADS; i += 1) {
        pthread_join(threads[i], NULL);
    }
    printf("%d passes\n", passes);
    return 0;
}
