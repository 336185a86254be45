// Thread-local variables that are all zero at first: there is no image to copy, but room is needed.
// Puts `ok` where each thread has its own, apart from its stack.
#include "guest.h"

#define WORDS 200

static _Thread_local long words[WORDS];

// The address of this symbol is the room that the linker script gives them.
extern const char __tls_size[];

__attribute__((noinline)) static long fill(long first)
{
    long before = 0;
    for (long i = 0; i < WORDS; i += 1) {
        before |= words[i];
        words[i] = first + i;
    }
    return before;
}

__attribute__((noinline)) static int is_filled(long first)
{
    for (long i = 0; i < WORDS; i += 1) {
        if (words[i] != first + i) {
            return 0;
        }
    }
    return 1;
}

static void work(void *argument)
{
    long first = (long)argument;
    if (fill(first) != 0 || !is_filled(first)) {
        put_text("wrong\n");
        exit(1);
    }
}

int main(void)
{
    long before = (uintptr_t)__tls_size < sizeof words;
    before |= fill(7);
    long one = thread_create(work, (void *)1000);
    long other = thread_create(work, (void *)2000);
    if (thread_join(one) != 0 || thread_join(other) != 0 || before != 0 || !is_filled(7)) {
        put_text("wrong\n");
        return 1;
    }
    put_text("ok\n");
    return 0;
}
