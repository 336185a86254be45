// What the files of the kit share: the machine's calls, waiting, a lock of their own, announcements.
// They are built without -fsanitize=thread, so nothing that they do is announced but what they announce.
#ifndef KIT_H
#define KIT_H

#include <stddef.h>
#include <stdint.h>

#ifndef GUEST_STACKS
#define GUEST_STACKS 63
#endif
#ifndef GUEST_STACK_BYTES
#define GUEST_STACK_BYTES 16384
#endif
#ifndef GUEST_HEAP_BYTES
#define GUEST_HEAP_BYTES 1048576
#endif

// ---- calls of the machine

enum {
    PUT = 1,
    EXIT = 2,
    CREATE = 3,
    THREAD_EXIT = 4,
    JOIN = 5,
    YIELD = 6,
    READ_RANGE = 34,
    WRITE_RANGE = 35
};

// What CREATE and JOIN answer: no room for another thread; the thread lives; no such thread.
enum { FULL = -11, LIVING = -16, NO_THREAD = -3 };

static inline long call(long number, uint64_t a, uint64_t b, uint64_t c)
{
    register uint64_t x10 __asm__("x10") = a;
    register uint64_t x11 __asm__("x11") = b;
    register uint64_t x12 __asm__("x12") = c;
    register long x17 __asm__("x17") = number;
    __asm__ volatile("ecall" : "+r"(x10) : "r"(x11), "r"(x12), "r"(x17) : "memory");
    return (long)x10;
}

// ---- waiting. The machine can't put a thread to sleep: one that waits looks again and again. Between
// two looks it turns in a loop that touches registers alone, twice as long each time up to a bound, since
// each look at memory is an entry of the run's record.

struct backoff {
    uint32_t turns;
};

enum { SHORTEST_PAUSE = 4, LONGEST_PAUSE = 16 };

static inline void back_off(struct backoff *backoff)
{
    uint32_t turns = backoff->turns == 0 ? SHORTEST_PAUSE : 2 * backoff->turns;
    backoff->turns = turns > LONGEST_PAUSE ? LONGEST_PAUSE : turns;
    for (uint32_t left = backoff->turns; left > 0; left -= 1) {
        __asm__ volatile("");
    }
}

// A lock of the kit's own, of which nobody is told: it gives no edge.
struct guard {
    uint32_t word;
};

static inline void guard_take(struct guard *guard)
{
    struct backoff backoff = {0};
    while (__atomic_exchange_n(&guard->word, 1, __ATOMIC_ACQUIRE) != 0) {
        back_off(&backoff);
    }
}

static inline void guard_give(struct guard *guard)
{
    __atomic_store_n(&guard->word, 0, __ATOMIC_RELEASE);
}

// ---- time, in nanoseconds of a clock that moves when it is read and when threads wait for it

struct timer {
    uint64_t until;
    uint32_t looks;
    uint32_t patience;
    struct timer *next;
};

uint64_t __kit_clock_now(void);
void __kit_timer_start(struct timer *timer, uint64_t until);
// One look at the clock: whether the time has come.
int __kit_timer_is_over(struct timer *timer);
void __kit_timer_stop(struct timer *timer);

// ---- locks under the mutexes of a program

struct lock {
    uint32_t word;
    uint32_t hungry;
};

// A waiter that has looked so often goes before those that come after, so that a thread that takes and
// gives a lock in a loop can't keep it for ever.
enum { PATIENCE = 64 };

int __kit_lock_try(struct lock *lock);
// Waits for the lock, or, where a timer is given, until it is over: 1 where it was taken, else 0.
int __kit_lock_take(struct lock *lock, struct timer *timer);
void __kit_lock_give(struct lock *lock);

// ---- threads

struct thread {
    void *(*function)(void *); // these two are read by crt0.S
    void *argument;
    void *result;
    uint32_t number;
    uint32_t state;
    uint32_t ended;   // it uses its stack no more
    uint32_t joiner;  // the thread that joined it
    uint32_t before;  // the stack's former thread, where this one has to be ordered after it, else 0
    uint32_t slot;    // 0 is the main thread's
};

// The main thread is joinable from the start.
enum { JOINABLE, JOINING, DETACHED, FREE };
enum { MOST_THREADS = 1024 };

struct thread *__kit_thread_self(void);
// The number of the new thread, or FULL. Where `where` isn't NULL the number stands there before the thread
// begins.
long __kit_thread_make(void *(*function)(void *), void *argument, int state, uint64_t *where);
// The thread of a number, where it was made and nobody has joined it; else NULL.
struct thread *__kit_thread_of(unsigned long number);
// Waits for a thread's end and gives its stack back: its result.
void *__kit_thread_reap(struct thread *thread);
_Noreturn void __kit_thread_end(void *result);

// Called where a thread ends, and where the program does; set by the files that need it.
extern void (*__kit_at_thread_end)(void);
extern void (*__kit_at_exit)(void);

// ---- announcements

void __tsan_func_entry(void *);
void __tsan_func_exit(void);
void __tsan_read1(void *);
void __tsan_read8(void *);
void __tsan_write1(void *);
void __tsan_write8(void *);
void __tsan_read_range(void *, unsigned long);
void __tsan_write_range(void *, unsigned long);
uint8_t __tsan_atomic8_load(const volatile uint8_t *, int);
void __tsan_acquire(void *);
void __tsan_release(void *);
void __tsan_mutex_destroy(void *, unsigned);
void __tsan_mutex_post_lock(void *, unsigned, int);
int __tsan_mutex_pre_unlock(void *, unsigned);

// A function of the kit stands as a frame between these two.
#define ENTER() __tsan_func_entry(__builtin_return_address(0))
#define LEAVE() __tsan_func_exit()

#define ALWAYS_INLINE static inline __attribute__((always_inline))

// Announces an access to `size` bytes whose place is the call that returns to `back`: the place of a
// call is that of the instruction before x1. A call tells of 65,536 bytes at most.
ALWAYS_INLINE void announce_at(const void *back, long number, const void *bytes, size_t size)
{
    while (size > 0) {
        size_t now = size < 65536 ? size : 65536;
        register const void *x10 __asm__("x10") = bytes;
        register size_t x11 __asm__("x11") = now;
        register long x17 __asm__("x17") = number;
        __asm__ volatile("mv t0, ra\n\t"
                         "mv ra, %[back]\n\t"
                         "ecall\n\t"
                         "mv ra, t0"
                         :
                         : [back] "r"(back), "r"(x10), "r"(x11), "r"(x17)
                         : "t0", "memory");
        bytes = (const char *)bytes + now;
        size -= now;
    }
}

// A lock is told of after it was taken and before it is given back, as an atomic read of its first byte
// and then as a lock.
ALWAYS_INLINE void announce_lock(void *lock, unsigned flags)
{
    __tsan_atomic8_load(lock, __ATOMIC_RELAXED);
    __tsan_mutex_post_lock(lock, flags, 0);
}

ALWAYS_INLINE void announce_unlock(void *lock, unsigned flags)
{
    __tsan_atomic8_load(lock, __ATOMIC_RELAXED);
    __tsan_mutex_pre_unlock(lock, flags);
}

// ---- output

// Puts bytes, and announces nothing.
void __kit_put(const void *bytes, size_t count);
void __kit_put_text(const char *text);
size_t __kit_length(const char *text);
// Between these two no other thread writes to a stream; the second puts what was gathered.
void __kit_begin_output(void);
void __kit_end_output(void);

#endif
