// The clock of a guest. The machine has none, so this one is moved by those who use it: by a millisecond
// each time that it is read, and, where threads wait for a time, to the earliest of these times once the
// thread that waits for it has looked often enough for others to get on: about 4,000 instructions for a
// millisecond, 15,000 for a second. So threads wake in the order of their times, and a long sleep gives
// other threads more room than a short one.
#include <errno.h>
#include <sched.h>
#include <sys/time.h>
#include <time.h>
#include <unistd.h>

#include "kit.h"

static uint64_t now;
static struct timer *timers;
static struct guard moving;

#define SECOND UINT64_C(1000000000)
#define MILLISECOND UINT64_C(1000000)
// CLOCK_REALTIME begins with the year 2026.
#define BEGINNING 1767225600

enum { FEWEST_LOOKS = 40, LOOKS_FOR_EACH_DOUBLING = 16 };

uint64_t __kit_clock_now(void)
{
    guard_take(&moving);
    now += MILLISECOND;
    uint64_t answer = now;
    guard_give(&moving);
    return answer;
}

void __kit_timer_start(struct timer *timer, uint64_t until)
{
    guard_take(&moving);
    timer->until = until;
    timer->looks = 0;
    timer->patience = FEWEST_LOOKS;
    for (uint64_t left = until > now ? (until - now) / MILLISECOND : 0; left != 0; left /= 2) {
        timer->patience += LOOKS_FOR_EACH_DOUBLING;
    }
    timer->next = timers;
    timers = timer;
    guard_give(&moving);
}

static int is_earliest(const struct timer *timer)
{
    for (const struct timer *other = timers; other != NULL; other = other->next) {
        if (other->until < timer->until) {
            return 0;
        }
    }
    return 1;
}

int __kit_timer_is_over(struct timer *timer)
{
    guard_take(&moving);
    if (timer->until > now && is_earliest(timer)) {
        timer->looks += 1;
        if (timer->looks >= timer->patience) {
            now = timer->until;
        }
    }
    int is_over = timer->until <= now;
    guard_give(&moving);
    return is_over;
}

void __kit_timer_stop(struct timer *timer)
{
    guard_take(&moving);
    struct timer **link = &timers;
    while (*link != timer) {
        link = &(*link)->next;
    }
    *link = timer->next;
    guard_give(&moving);
}

static void sleep_until(uint64_t until)
{
    struct timer timer;
    struct backoff backoff = {0};
    __kit_timer_start(&timer, until);
    while (!__kit_timer_is_over(&timer)) {
        back_off(&backoff);
    }
    __kit_timer_stop(&timer);
}

static void sleep_for(uint64_t nanoseconds)
{
    guard_take(&moving);
    uint64_t begin = now;
    guard_give(&moving);
    sleep_until(begin + nanoseconds);
}

// ---- time.h, unistd.h, sys/time.h, sched.h

static int is_time(const struct timespec *time)
{
    return time != NULL && time->tv_sec >= 0 && time->tv_nsec >= 0 && time->tv_nsec < (long)SECOND;
}

static uint64_t beginning_of(clockid_t clock)
{
    return clock == CLOCK_REALTIME ? BEGINNING : 0;
}

uint64_t __kit_time(const struct timespec *time, clockid_t clock)
{
    uint64_t seconds = (uint64_t)time->tv_sec;
    uint64_t first = beginning_of(clock);
    return seconds < first ? 0 : (seconds - first) * SECOND + (uint64_t)time->tv_nsec;
}

int clock_gettime(clockid_t clock, struct timespec *time)
{
    uint64_t answer = __kit_clock_now();
    time->tv_sec = (time_t)(answer / SECOND + beginning_of(clock));
    time->tv_nsec = (long)(answer % SECOND);
    return 0;
}

int clock_getres(clockid_t clock, struct timespec *time)
{
    (void)clock;
    if (time != NULL) {
        *time = (struct timespec){0, (long)MILLISECOND};
    }
    return 0;
}

int gettimeofday(struct timeval *time, void *zone)
{
    (void)zone;
    uint64_t answer = __kit_clock_now();
    time->tv_sec = (time_t)(answer / SECOND + BEGINNING);
    time->tv_usec = (suseconds_t)(answer % SECOND / 1000);
    return 0;
}

time_t time(time_t *where)
{
    time_t answer = (time_t)(__kit_clock_now() / SECOND + BEGINNING);
    if (where != NULL) {
        *where = answer;
    }
    return answer;
}

clock_t clock(void)
{
    return (clock_t)(__kit_clock_now() / (SECOND / CLOCKS_PER_SEC));
}

int clock_nanosleep(clockid_t clock, int flags, const struct timespec *time, struct timespec *left)
{
    (void)left;
    if (!is_time(time)) {
        return EINVAL;
    }
    if ((flags & TIMER_ABSTIME) != 0) {
        sleep_until(__kit_time(time, clock));
    } else {
        sleep_for(__kit_time(time, CLOCK_MONOTONIC));
    }
    return 0;
}

int nanosleep(const struct timespec *time, struct timespec *left)
{
    int error = clock_nanosleep(CLOCK_MONOTONIC, 0, time, left);
    if (error != 0) {
        errno = error;
        return -1;
    }
    return 0;
}

int usleep(useconds_t microseconds)
{
    sleep_for((uint64_t)microseconds * 1000);
    return 0;
}

unsigned sleep(unsigned seconds)
{
    sleep_for(seconds * SECOND);
    return 0;
}

int sched_yield(void)
{
    call(YIELD, 0, 0, 0);
    return 0;
}
