/* A pool of threads that run tasks from a list, and a clean shutdown. */
#include <pthread.h>
#include <stdio.h>
#include <stdlib.h>
#include <unistd.h>

#define WORKERS 3
#define TASKS 12

struct task {
    void (*run)(int);
    int arg;
    struct task *next;
};

struct pool {
    pthread_mutex_t mutex;
    pthread_cond_t cond;
    struct task *first, *last;
    int completed;
    int shutdown;
    pthread_t workers[WORKERS];
};

static pthread_mutex_t result_mutex = PTHREAD_MUTEX_INITIALIZER;
static long result;

static void square(int n)
{
    pthread_mutex_lock(&result_mutex);
    result += n * n;
    pthread_mutex_unlock(&result_mutex);
}

static struct task *next_task(struct pool *pool)
{
    struct task *task;
    pthread_mutex_lock(&pool->mutex);
    while (pool->first == NULL && !pool->shutdown)
        pthread_cond_wait(&pool->cond, &pool->mutex);
    task = pool->first;
    if (task != NULL)
        pool->first = task->next;
    pthread_mutex_unlock(&pool->mutex);
    return task;
}

static void *worker(void *arg)
{
    struct pool *pool = arg;
    struct task *task;
    while ((task = next_task(pool)) != NULL) {
        task->run(task->arg);
        free(task);
        pthread_mutex_lock(&pool->mutex);
        pool->completed++; // race
        pthread_mutex_unlock(&pool->mutex);
    }
    return NULL;
}

static void submit(struct pool *pool, void (*run)(int), int arg)
{
    struct task *task = malloc(sizeof *task);
    task->run = run;
    task->arg = arg;
    task->next = NULL;
    pthread_mutex_lock(&pool->mutex);
    if (pool->first == NULL)
        pool->first = task;
    else
        pool->last->next = task;
    pool->last = task;
    pthread_cond_signal(&pool->cond);
    pthread_mutex_unlock(&pool->mutex);
}

static int is_idle(struct pool *pool)
{
#ifdef RACE
    return pool->completed == TASKS; // race
#else
    int completed;
    pthread_mutex_lock(&pool->mutex);
    completed = pool->completed;
    pthread_mutex_unlock(&pool->mutex);
    return completed == TASKS;
#endif
}

static void stop(struct pool *pool)
{
    pthread_mutex_lock(&pool->mutex);
    pool->shutdown = 1;
    pthread_cond_broadcast(&pool->cond);
    pthread_mutex_unlock(&pool->mutex);
    for (int i = 0; i < WORKERS; i++)
        pthread_join(pool->workers[i], NULL);
}

int main(void)
{
    static struct pool pool;

    pthread_mutex_init(&pool.mutex, NULL);
    pthread_cond_init(&pool.cond, NULL);
    for (int i = 0; i < WORKERS; i++)
        pthread_create(&pool.workers[i], NULL, worker, &pool);
    for (int i = 0; i < TASKS; i++)
        submit(&pool, square, i);
    while (!is_idle(&pool))
        usleep(1000);
    stop(&pool);
    pthread_cond_destroy(&pool.cond);
    pthread_mutex_destroy(&pool.mutex);
    printf("squares %ld\n", result);
    return 0;
}
