// A thread writes a message and says by an atomic store that it is ready. A store that releases hands
// the message over to who acquires; a relaxed one (-DORDER=memory_order_relaxed) doesn't: a data race.
#include "guest.h"
#include <stdatomic.h>

#ifndef ORDER
#define ORDER memory_order_release
#endif

static char message[8];
static atomic_int ready;

static void send(void *argument)
{
    (void)argument;
    memcpy(message, "hello\n", 7);
    atomic_store_explicit(&ready, 1, ORDER);
}

int main(void)
{
    long sender = thread_create(send, NULL);
    while (atomic_load_explicit(&ready, memory_order_acquire) == 0) {
    }
    put_text(message);
    thread_join(sender);
    return 0;
}
