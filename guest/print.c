// The printf family of <stdio.h> on standard output and error, over the C library's, which turns numbers into
// text and hands each byte to a stream's put function.
#include <stdarg.h>
#include <stdio.h>

#include "kit.h"

// The C library's, under the name that it has beside vfprintf.
int __d_vfprintf(FILE *stream, const char *format, va_list values);

// A stream of the C library's own, as that of snprintf, needs no lock: it is one call's.
static int print(FILE *stream, const char *format, va_list values)
{
    if (stream != stdout && stream != stderr) {
        return __d_vfprintf(stream, format, values);
    }
    __kit_begin_output();
    int written = __d_vfprintf(stream, format, values);
    __kit_end_output();
    return written;
}

// Calls of vfprintf, also those of the C library, come here: the linker is told --wrap=vfprintf.
int __wrap_vfprintf(FILE *stream, const char *format, va_list values)
{
    ENTER();
    int written = print(stream, format, values);
    LEAVE();
    return written;
}

int vprintf(const char *format, va_list values)
{
    ENTER();
    int written = print(stdout, format, values);
    LEAVE();
    return written;
}

int printf(const char *format, ...)
{
    va_list values;
    ENTER();
    va_start(values, format);
    int written = print(stdout, format, values);
    va_end(values);
    LEAVE();
    return written;
}

int fprintf(FILE *stream, const char *format, ...)
{
    va_list values;
    ENTER();
    va_start(values, format);
    int written = print(stream, format, values);
    va_end(values);
    LEAVE();
    return written;
}
