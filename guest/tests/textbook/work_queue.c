/* Work is handed out by an atomic counter: each thread takes the next index until none is left. */
#include <pthread.h>
#include <stdatomic.h>
#include <stdio.h>

#define THREADS 3
#define JOBS 30

#ifdef RACE
static int next_job;
#else
static atomic_int next_job;
#endif
static int results[JOBS];

static int fibonacci(int n)
{
    int a = 0, b = 1;
    while (n-- > 0) {
        int c = a + b;
        a = b;
        b = c;
    }
    return a;
}

static void *work(void *arg)
{
    for (;;) {
#ifdef RACE
        int job = next_job++; // race
#else
        int job = atomic_fetch_add(&next_job, 1);
#endif
        if (job >= JOBS)
            return arg;
        results[job] = fibonacci(job % 10); // race
    }
}

int main(void)
{
    pthread_t threads[THREADS];
    int sum = 0;

    for (int i = 0; i < THREADS; i++)
        pthread_create(&threads[i], NULL, work, NULL);
    for (int i = 0; i < THREADS; i++)
        pthread_join(threads[i], NULL);
    for (int i = 0; i < JOBS; i++)
        sum += results[i];
    printf("sum %d\n", sum);
    return 0;
}
