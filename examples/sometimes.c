// A race that only some orders of the threads show. `publish` writes the total before its lock and `correct`
// after its own. Where `publish` comes first, the lock orders the two writes by chance. Where `correct` has the
// lock first, nothing does: a data race. With turns of 1,000 instructions `publish` is done in its first turn;
// with --quantum=100 it isn't.
#include <pthread.h>
#include <stdio.h>

static long total;
static int published;
static pthread_mutex_t mutex = PTHREAD_MUTEX_INITIALIZER;

int numbers[32];

static long add_up(void)
{
    long sum = 0;
    for (int i = 0; i < 32; i += 1) {
        sum += numbers[i];
    }
    return sum;
}

static void *publish(void *argument)
{
    (void)argument;
    total = add_up();
    pthread_mutex_lock(&mutex);
    published += 1;
    pthread_mutex_unlock(&mutex);
    return NULL;
}

static void *correct(void *argument)
{
    (void)argument;
    pthread_mutex_lock(&mutex);
    published += 1;
    pthread_mutex_unlock(&mutex);
    total += 1;
    return NULL;
}

int main(void)
{
    pthread_t one, other;
    pthread_create(&one, NULL, publish, NULL);
    pthread_create(&other, NULL, correct, NULL);
    pthread_join(one, NULL);
    pthread_join(other, NULL);
    puts(published == 2 ? "published" : "not yet");
    return 0;
}
