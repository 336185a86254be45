// <time.h> of the C library, with the clocks of POSIX, which the kit has.
#ifndef GUEST_TIME_H
#define GUEST_TIME_H

#include <sys/features.h>
#ifndef _POSIX_TIMERS
#define _POSIX_TIMERS 200809L
#endif
#ifndef _POSIX_MONOTONIC_CLOCK
#define _POSIX_MONOTONIC_CLOCK 200809L
#endif
#ifndef _POSIX_CPUTIME
#define _POSIX_CPUTIME 200809L
#endif
#ifndef _POSIX_CLOCK_SELECTION
#define _POSIX_CLOCK_SELECTION 200809L
#endif

#include_next <time.h>

#endif
