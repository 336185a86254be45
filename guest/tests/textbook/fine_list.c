/* A sorted list with a lock in each node, taken hand over hand. */
#include <pthread.h>
#include <stdio.h>
#include <stdlib.h>

#define THREADS 3
#define EACH 5

struct node {
    int value;
    struct node *next;
    pthread_mutex_t mutex;
};

static struct node head = {-1, NULL, PTHREAD_MUTEX_INITIALIZER};

static void insert(int value)
{
    struct node *node = malloc(sizeof *node);
    struct node *before = &head;

    node->value = value;
    pthread_mutex_init(&node->mutex, NULL);
    pthread_mutex_lock(&before->mutex);
    while (before->next != NULL && before->next->value < value) {
        struct node *next = before->next;
        pthread_mutex_lock(&next->mutex);
        pthread_mutex_unlock(&before->mutex);
        before = next;
    }
    node->next = before->next; // race
    before->next = node;       // race
    pthread_mutex_unlock(&before->mutex);
}

static int length(void)
{
    int count = 0;
#ifdef RACE
    for (struct node *node = head.next; node != NULL; node = node->next) // race
        count++;
#else
    struct node *node = &head;
    pthread_mutex_lock(&node->mutex);
    while (node->next != NULL) {
        struct node *next = node->next;
        pthread_mutex_lock(&next->mutex);
        pthread_mutex_unlock(&node->mutex);
        node = next;
        count++;
    }
    pthread_mutex_unlock(&node->mutex);
#endif
    return count;
}

static void *work(void *arg)
{
    int id = (int)(long)arg;
    for (int i = 0; i < EACH; i++)
        insert(i * THREADS + id);
    return NULL;
}

int main(void)
{
    pthread_t threads[THREADS];
    int so_far;

    for (long i = 0; i < THREADS; i++)
        pthread_create(&threads[i], NULL, work, (void *)i);
    so_far = length();
    for (int i = 0; i < THREADS; i++)
        pthread_join(threads[i], NULL);
    printf("%s, then %d nodes\n", so_far <= THREADS * EACH ? "some" : "too many", length());
    return 0;
}
