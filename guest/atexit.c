// Functions that run when a program ends, those that C++ registers among them.
#include "kit.h"

enum { HANDLERS = 64 };

struct handler {
    void (*function)(void *);
    void *argument;
};

static struct handler handlers[HANDLERS];
static uint32_t count;
static struct guard changing;

void *__dso_handle;

// What came before a function was registered happens before it runs.
static void run_handlers(void)
{
    __tsan_acquire(handlers);
    for (;;) {
        guard_take(&changing);
        struct handler handler = {0};
        if (count > 0) {
            count -= 1;
            handler = handlers[count];
        }
        guard_give(&changing);
        if (handler.function == NULL) {
            return;
        }
        handler.function(handler.argument);
    }
}

int __cxa_atexit(void (*function)(void *), void *argument, void *object)
{
    (void)object;
    int answer = -1;
    __tsan_release(handlers);
    guard_take(&changing);
    if (count < HANDLERS) {
        handlers[count] = (struct handler){function, argument};
        count += 1;
        __kit_at_exit = run_handlers;
        answer = 0;
    }
    guard_give(&changing);
    return answer;
}

int atexit(void (*function)(void))
{
    return __cxa_atexit((void (*)(void *))function, NULL, NULL);
}
