// The end of a program that has found itself wrong.
#include "guest.h"
#include "kit.h"

_Noreturn void _exit(int status);

extern char *__kit_arguments[];

// 128 and the number of SIGABRT, as a shell tells of it.
_Noreturn void abort(void)
{
    _exit(134);
}

static void put_line(unsigned line)
{
    char digits[12];
    size_t first = sizeof digits;
    do {
        first -= 1;
        digits[first] = (char)('0' + line % 10);
        line /= 10;
    } while (line != 0);
    __kit_put(digits + first, sizeof digits - first);
}

_Noreturn void __assert_func(const char *file, int line, const char *function, const char *text)
{
    __kit_put_text(__kit_arguments[0]);
    __kit_put_text(": ");
    __kit_put_text(file);
    __kit_put_text(":");
    put_line((unsigned)line);
    if (function != NULL) {
        __kit_put_text(": ");
        __kit_put_text(function);
    }
    __kit_put_text(": Assertion `");
    __kit_put_text(text);
    __kit_put_text("' failed.\n");
    abort();
}
