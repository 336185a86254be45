// The end of a program.
#include "guest.h"
#include "kit.h"

extern void (*const __fini_array_start[])(void);
extern void (*const __fini_array_end[])(void);

void (*__kit_at_exit)(void);

_Noreturn void _exit(int status)
{
    call(EXIT, (uint64_t)status, 0, 0);
    __builtin_unreachable();
}

// Runs what atexit was given, the last first, and the destructors. A second thread that comes here waits
// until the first has ended the run.
_Noreturn void exit(int status)
{
    static struct guard ending;
    guard_take(&ending);
    if (__kit_at_exit != NULL) {
        __kit_at_exit();
    }
    for (void (*const *next)(void) = __fini_array_end; next != __fini_array_start; next -= 1) {
        next[-1]();
    }
    _exit(status);
}
