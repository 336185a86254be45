/* Heat along a rod: each thread has a part, and a barrier stands between the steps. */
#include <pthread.h>
#include <stdio.h>

#define THREADS 3
#define PART 4
#define CELLS (THREADS * PART)
#define STEPS 4

static long rods[2][CELLS + 2];
static pthread_barrier_t barrier;

static void step(const long *from, long *to, int begin)
{
    for (int i = begin; i < begin + PART; i++)
        to[i] = (from[i - 1] + 2 * from[i] + from[i + 1]) / 4; // race
}

static void *run(void *arg)
{
    int begin = 1 + PART * (int)(long)arg;
    for (int s = 0; s < STEPS; s++) {
        step(rods[s % 2], rods[(s + 1) % 2], begin);
#ifdef RACE
        if (s != 1)
#endif
        pthread_barrier_wait(&barrier);
    }
    return NULL;
}

int main(void)
{
    pthread_t threads[THREADS];

    rods[0][0] = rods[1][0] = 1000000;
    pthread_barrier_init(&barrier, NULL, THREADS);
    for (long i = 0; i < THREADS; i++)
        pthread_create(&threads[i], NULL, run, (void *)i);
    for (int i = 0; i < THREADS; i++)
        pthread_join(threads[i], NULL);
    pthread_barrier_destroy(&barrier);
    puts(rods[STEPS % 2][1] > 0 ? "warm" : "cold");
    return 0;
}
