// An object that the first user makes, with double-checked locking. A plain pointer is read without the lock
// while another thread may write it, and nothing orders the object's making before its use: data races. With
// -DRIGHT the pointer is atomic: its store releases what was made to those whose load acquires it.
#include <pthread.h>
#include <stdatomic.h>
#include <stdio.h>
#include <stdlib.h>

struct config {
    int port;
};

#ifdef RIGHT
static _Atomic(struct config *) config;
#define LOAD() atomic_load_explicit(&config, memory_order_acquire)
#define STORE(value) atomic_store_explicit(&config, (value), memory_order_release)
#else
static struct config *config;
#define LOAD() config
#define STORE(value) (config = (value))
#endif

static pthread_mutex_t mutex = PTHREAD_MUTEX_INITIALIZER;

static struct config *make(void)
{
    struct config *made = malloc(sizeof *made);
    made->port = 80;
    return made;
}

static struct config *shared_config(void)
{
    struct config *found = LOAD();
    if (found == NULL) {
        pthread_mutex_lock(&mutex);
        found = LOAD();
        if (found == NULL) {
            found = make();
            STORE(found);
        }
        pthread_mutex_unlock(&mutex);
    }
    return found;
}

static int port(void)
{
    return shared_config()->port;
}

static void *use(void *argument)
{
    *(int *)argument = port();
    return NULL;
}

int main(void)
{
    pthread_t threads[3];
    int ports[3];
    int sum = 0;
    for (int i = 0; i < 3; i += 1) {
        pthread_create(&threads[i], NULL, use, &ports[i]);
    }
    for (int i = 0; i < 3; i += 1) {
        pthread_join(threads[i], NULL);
        sum += ports[i];
    }
    puts(sum == 240 ? "one port" : "other ports");
    return 0;
}
