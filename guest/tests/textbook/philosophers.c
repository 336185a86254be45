/* Dining philosophers. Each takes the fork with the lower number first, so there is no deadlock. */
#include <pthread.h>
#include <stdio.h>
#include <unistd.h>

#define N 5
#define MEALS 3

static pthread_mutex_t forks[N];
static pthread_mutex_t count_mutex = PTHREAD_MUTEX_INITIALIZER;
static int thoughts, meals;

static void think(void)
{
#ifndef RACE
    pthread_mutex_lock(&count_mutex);
#endif
    thoughts++; // race
#ifndef RACE
    pthread_mutex_unlock(&count_mutex);
#endif
    usleep(1000);
}

static void eat(void)
{
    pthread_mutex_lock(&count_mutex);
    meals++;
    pthread_mutex_unlock(&count_mutex);
}

static void *philosopher(void *arg)
{
    int id = (int)(long)arg;
    int left = id, right = (id + 1) % N;
    pthread_mutex_t *first = &forks[left < right ? left : right];
    pthread_mutex_t *second = &forks[left < right ? right : left];

    for (int i = 0; i < MEALS; i++) {
        think();
        pthread_mutex_lock(first);
        pthread_mutex_lock(second);
        eat();
        pthread_mutex_unlock(second);
        pthread_mutex_unlock(first);
    }
    return NULL;
}

int main(void)
{
    pthread_t threads[N];

    for (int i = 0; i < N; i++)
        pthread_mutex_init(&forks[i], NULL);
    for (long i = 0; i < N; i++)
        pthread_create(&threads[i], NULL, philosopher, (void *)i);
    for (int i = 0; i < N; i++)
        pthread_join(threads[i], NULL);
    for (int i = 0; i < N; i++)
        pthread_mutex_destroy(&forks[i]);
    printf("%s\n", meals == N * MEALS && thoughts > 0 ? "fed" : "hungry");
    return 0;
}
