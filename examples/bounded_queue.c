// Two producers and two consumers share a queue of four places, with a mutex and two conditions: no race. With
// -DMISTAKE a consumer looks for an item before it takes the lock, "to save the lock where there is none": the
// count is then read while a producer may write it, a data race.
#include <pthread.h>
#include <stdio.h>

enum { PLACES = 4, PRODUCERS = 2, CONSUMERS = 2, ITEMS = 10 };

static int places[PLACES];
static int first, count;
static int items_left = PRODUCERS * ITEMS;
static long sum;
static pthread_mutex_t mutex = PTHREAD_MUTEX_INITIALIZER;
static pthread_cond_t not_full = PTHREAD_COND_INITIALIZER;
static pthread_cond_t not_empty = PTHREAD_COND_INITIALIZER;

static void put(int item)
{
    pthread_mutex_lock(&mutex);
    while (count == PLACES) {
        pthread_cond_wait(&not_full, &mutex);
    }
    places[(first + count) % PLACES] = item;
    count += 1;
    pthread_cond_signal(&not_empty);
    pthread_mutex_unlock(&mutex);
}

#ifdef MISTAKE
static int has_item(void)
{
    return count > 0;
}
#endif

// Takes an item and adds it up: 0 where no further one will come.
static int take(void)
{
#ifdef MISTAKE
    if (!has_item()) {
        pthread_mutex_lock(&mutex);
        int is_over = items_left == 0;
        pthread_mutex_unlock(&mutex);
        return !is_over;
    }
#endif
    pthread_mutex_lock(&mutex);
    while (count == 0 && items_left > 0) {
        pthread_cond_wait(&not_empty, &mutex);
    }
    int is_there = count > 0;
    if (is_there) {
        sum += places[first];
        first = (first + 1) % PLACES;
        count -= 1;
        items_left -= 1;
        pthread_cond_signal(&not_full);
        if (items_left == 0) {
            pthread_cond_broadcast(&not_empty);
        }
    }
    pthread_mutex_unlock(&mutex);
    return is_there;
}

static void *produce(void *argument)
{
    int base = *(int *)argument;
    for (int i = 0; i < ITEMS; i += 1) {
        put(base + i);
    }
    return NULL;
}

static void *consume(void *argument)
{
    while (take()) {
    }
    return argument;
}

int main(void)
{
    pthread_t producers[PRODUCERS], consumers[CONSUMERS];
    int bases[PRODUCERS] = {100, 200};
    for (int i = 0; i < PRODUCERS; i += 1) {
        pthread_create(&producers[i], NULL, produce, &bases[i]);
    }
    // the main thread is one of the consumers
    for (int i = 1; i < CONSUMERS; i += 1) {
        pthread_create(&consumers[i], NULL, consume, NULL);
    }
    consume(NULL);
    for (int i = 0; i < PRODUCERS; i += 1) {
        pthread_join(producers[i], NULL);
    }
    for (int i = 1; i < CONSUMERS; i += 1) {
        pthread_join(consumers[i], NULL);
    }
    puts(sum == 3090 ? "all items" : "items are missing");
    return 0;
}
