// <sched.h>: yielding, and the type that thread attributes name.
#ifndef GUEST_SCHED_H
#define GUEST_SCHED_H

#include <time.h>

#ifdef __cplusplus
extern "C" {
#endif

#define SCHED_OTHER 0
#define SCHED_FIFO 1
#define SCHED_RR 2

struct sched_param {
    int sched_priority;
};

// Answers 0. The calling thread goes on until its turn is over.
int sched_yield(void);

#ifdef __cplusplus
}
#endif

#endif
