/* Readers and writers of a small table under a read-write lock. */
#include <pthread.h>
#include <stdio.h>

#define READERS 3
#define WRITERS 2
#define ROUNDS 5

static int table[4];
static int version;
static pthread_rwlock_t lock = PTHREAD_RWLOCK_INITIALIZER;

static int read_sum(void)
{
    int sum = 0;
    pthread_rwlock_rdlock(&lock);
    for (int i = 0; i < 4; i++)
        sum += table[i];
    pthread_rwlock_unlock(&lock);
    return sum;
}

static void write_all(int value)
{
#ifdef RACE
    pthread_rwlock_rdlock(&lock);
#else
    pthread_rwlock_wrlock(&lock);
#endif
    version++; // race
    for (int i = 0; i < 4; i++)
        table[i] = version == 0 ? 0 : value; // race
    pthread_rwlock_unlock(&lock);
}

static void *reader(void *arg)
{
    long *bad = arg;
    for (int i = 0; i < ROUNDS; i++)
        if (read_sum() % 4 != 0)
            ++*bad;
    return NULL;
}

static void *writer(void *arg)
{
    for (int i = 0; i < ROUNDS; i++)
        write_all((int)(long)arg + i);
    return NULL;
}

int main(void)
{
    pthread_t readers[READERS], writers[WRITERS];
    long bad[READERS] = {0};

    for (long i = 0; i < WRITERS; i++)
        pthread_create(&writers[i], NULL, writer, (void *)(10 * i));
    for (long i = 0; i < READERS; i++)
        pthread_create(&readers[i], NULL, reader, &bad[i]);
    for (int i = 0; i < WRITERS; i++)
        pthread_join(writers[i], NULL);
    for (int i = 0; i < READERS; i++)
        pthread_join(readers[i], NULL);
    printf("version %s\n", version > 0 ? "written" : "lost");
    return 0;
}
