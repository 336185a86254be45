// What <unistd.h> has here: the standard descriptors, and the little that there is to know of the system.
#include <errno.h>
#include <unistd.h>

#include "kit.h"

ssize_t write(int descriptor, const void *bytes, size_t size)
{
    if (descriptor != STDOUT_FILENO && descriptor != STDERR_FILENO) {
        errno = EBADF;
        return -1;
    }
    ENTER();
    __tsan_read_range((void *)bytes, size);
    __kit_put(bytes, size);
    LEAVE();
    return (ssize_t)size;
}

// Standard input has nothing.
ssize_t read(int descriptor, void *bytes, size_t size)
{
    (void)bytes;
    (void)size;
    if (descriptor != STDIN_FILENO) {
        errno = EBADF;
        return -1;
    }
    return 0;
}

pid_t getpid(void)
{
    return 1;
}

int isatty(int descriptor)
{
    (void)descriptor;
    errno = ENOTTY;
    return 0;
}

long sysconf(int name)
{
    switch (name) {
    case _SC_NPROCESSORS_CONF:
    case _SC_NPROCESSORS_ONLN:
        return 1;
    case _SC_PAGESIZE:
        return 4096;
    default:
        errno = EINVAL;
        return -1;
    }
}
