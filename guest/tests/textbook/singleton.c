/* One logger for the whole program, made by whoever needs it first. */
#include <pthread.h>
#include <stdio.h>
#include <stdlib.h>

#define THREADS 3

struct logger {
    int lines;
    pthread_mutex_t mutex;
};

static struct logger *instance;
static pthread_once_t once = PTHREAD_ONCE_INIT;

static void make_logger(void)
{
    struct logger *logger = calloc(1, sizeof *logger);
    pthread_mutex_init(&logger->mutex, NULL);
    instance = logger; // race
}

static struct logger *get_logger(void)
{
#ifdef RACE
    (void)once;
    if (instance == NULL) // race
        make_logger();
#else
    pthread_once(&once, make_logger);
#endif
    return instance; // race
}

static void log_line(void)
{
    struct logger *logger = get_logger();
    pthread_mutex_lock(&logger->mutex);   // race
    logger->lines++;                      // race
    pthread_mutex_unlock(&logger->mutex); // race
}

static void *work(void *arg)
{
    for (int i = 0; i < 3; i++)
        log_line();
    return arg;
}

int main(void)
{
    pthread_t threads[THREADS];

    for (int i = 0; i < THREADS; i++)
        pthread_create(&threads[i], NULL, work, NULL);
    for (int i = 0; i < THREADS; i++)
        pthread_join(threads[i], NULL);
    puts(get_logger()->lines > 0 ? "logged" : "nothing logged");
    return 0;
}
