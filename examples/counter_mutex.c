// Two threads count in one variable under a mutex: no race.
#include "guest.h"

static long counter;
static struct mutex mutex;

__attribute__((noinline)) static void add(long number)
{
    mutex_lock(&mutex);
    counter += number;
    mutex_unlock(&mutex);
}

static void count(void *argument)
{
    (void)argument;
    for (int i = 0; i < 200; i += 1) {
        add(1);
    }
}

int main(void)
{
    long one = thread_create(count, NULL);
    long other = thread_create(count, NULL);
    thread_join(one);
    thread_join(other);
    put_text("counter: ");
    put_number(counter);
    put_text("\n");
    return 0;
}
