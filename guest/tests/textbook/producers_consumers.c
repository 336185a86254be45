/* Producers and consumers over a ring of slots, with two counting semaphores and a mutex. */
#include <pthread.h>
#include <semaphore.h>
#include <stdio.h>

#define SLOTS 4
#define PRODUCERS 2
#define CONSUMERS 2
#define ITEMS 8

static int ring[SLOTS];
static int in, out;
static sem_t empty_slots, full_slots;
static pthread_mutex_t in_mutex = PTHREAD_MUTEX_INITIALIZER;
static pthread_mutex_t out_mutex = PTHREAD_MUTEX_INITIALIZER;
static int sums[CONSUMERS];

static void *producer(void *arg)
{
    int id = *(int *)arg;
    for (int i = 0; i < ITEMS; i++) {
        sem_wait(&empty_slots);
        pthread_mutex_lock(&in_mutex);
        ring[in] = id * 100 + i;
        in = (in + 1) % SLOTS;
        pthread_mutex_unlock(&in_mutex);
        sem_post(&full_slots);
    }
    return NULL;
}

static int take(void)
{
    int item;
#ifndef RACE
    pthread_mutex_lock(&out_mutex);
#endif
    item = ring[out];          // race
    out = (out + 1) % SLOTS;   // race
#ifndef RACE
    pthread_mutex_unlock(&out_mutex);
#else
    (void)out_mutex;
#endif
    return item;
}

static void *consumer(void *arg)
{
    int id = *(int *)arg;
    for (int i = 0; i < PRODUCERS * ITEMS / CONSUMERS; i++) {
        sem_wait(&full_slots);
        sums[id] += take();
        sem_post(&empty_slots);
    }
    return NULL;
}

int main(void)
{
    pthread_t producers[PRODUCERS], consumers[CONSUMERS];
    int ids[] = {0, 1};

    sem_init(&empty_slots, 0, SLOTS);
    sem_init(&full_slots, 0, 0);
    for (int i = 0; i < PRODUCERS; i++)
        pthread_create(&producers[i], NULL, producer, &ids[i]);
    for (int i = 0; i < CONSUMERS; i++)
        pthread_create(&consumers[i], NULL, consumer, &ids[i]);
    for (int i = 0; i < PRODUCERS; i++)
        pthread_join(producers[i], NULL);
    for (int i = 0; i < CONSUMERS; i++)
        pthread_join(consumers[i], NULL);
    printf("consumed %s\n", sums[0] + sums[1] > 0 ? "items" : "nothing");
    sem_destroy(&empty_slots);
    sem_destroy(&full_slots);
    return 0;
}
