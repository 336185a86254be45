// A thread frees a message that another still reads: the free is a write of the whole block, and nothing orders
// the read before it, a data race.
#include <pthread.h>
#include <stdio.h>
#include <stdlib.h>
#include <string.h>

struct message {
    int size;
    char text[28];
};

static struct message *message;

static int size_of(const struct message *message)
{
    return message->size;
}

static void *read_message(void *argument)
{
    *(int *)argument = size_of(message);
    return NULL;
}

static void drop(struct message *message)
{
    free(message);
}

int main(void)
{
    pthread_t reader;
    int size = 0;
    message = malloc(sizeof *message);
    message->size = (int)strlen(strcpy(message->text, "hello"));
    pthread_create(&reader, NULL, read_message, &size);
    drop(message); // the join that stands below belongs before it
    pthread_join(reader, NULL);
    puts("done");
    return 0;
}
