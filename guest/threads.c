// Threads: stacks, beginning, end and join.
//
// A stack is used again once its thread was joined, or ended detached. Fresh stacks go first, and then
// those whose thread the creator has joined itself: whatever the new thread does is then ordered after
// all that the former one did, so their accesses to the stack are no race. Where only other stacks are
// left, the new thread begins with a join of the stack's former thread. That edge is one of the machine's
// own, and it may hide a race between these two threads; no thread but the new one gets it.
#include "guest.h"
#include "kit.h"

_Static_assert(GUEST_STACK_BYTES % 16 == 0, "GUEST_STACK_BYTES is a multiple of 16");

void _thread_start(void);

static _Alignas(16) uint8_t stacks[GUEST_STACKS][GUEST_STACK_BYTES];
// One for each stack, and the main thread's before them.
static struct thread threads[GUEST_STACKS + 1];
static uint16_t slot_of[MOST_THREADS];
static struct guard making;
static uint32_t used_stacks;
static uint32_t made_threads;
static uint32_t ended_threads;
static uint32_t next_slot;

void (*__kit_at_thread_end)(void);

static _Thread_local struct thread *self;

struct thread *__kit_thread_self(void)
{
    return self != NULL ? self : &threads[0];
}

// Whether a stack can be used again: its thread was joined, or has ended and nobody will join it.
static int is_left(const struct thread *thread)
{
    return thread->state == FREE ||
           (thread->state == DETACHED && __atomic_load_n(&thread->ended, __ATOMIC_ACQUIRE) != 0);
}

static int is_ordered(const struct thread *thread, const struct thread *creator)
{
    return thread->state == FREE && thread->joiner == creator->number;
}

// A stack for a new thread, or NULL.
static struct thread *stack_for(const struct thread *creator)
{
    if (used_stacks < GUEST_STACKS) {
        threads[used_stacks + 1].slot = used_stacks + 1;
        return &threads[used_stacks + 1];
    }
    struct thread *found = NULL;
    for (uint32_t i = 0; i < GUEST_STACKS; i += 1) {
        struct thread *thread = &threads[1 + (next_slot + i) % GUEST_STACKS];
        if (is_left(thread) && is_ordered(thread, creator)) {
            found = thread;
            break;
        }
        if (found == NULL && is_left(thread)) {
            found = thread;
        }
    }
    return found;
}

long __kit_thread_make(void *(*function)(void *), void *argument, int state, uint64_t *where)
{
    struct thread *creator = __kit_thread_self();
    guard_take(&making);
    long made = FULL;
    struct thread *thread = stack_for(creator);
    if (thread != NULL && made_threads + 1 < MOST_THREADS) {
        struct thread former = *thread;
        int is_fresh = thread->number == 0;
        thread->function = function;
        thread->argument = argument;
        thread->before = is_fresh || is_ordered(thread, creator) ? 0 : thread->number;
        thread->number = made_threads + 1;
        thread->ended = 0;
        uint8_t *end = stacks[thread->slot - 1] + GUEST_STACK_BYTES;
        thread->state = (uint32_t)state;
        // The thread may ask for itself before the call is answered here.
        slot_of[thread->number] = (uint16_t)thread->slot;
        if (where != NULL) {
            *where = thread->number;
        }
        made = call(CREATE, (uint64_t)_thread_start, (uint64_t)thread, (uint64_t)end);
        if (made >= 0) {
            made_threads += 1;
            used_stacks += is_fresh;
            next_slot = thread->slot;
        } else {
            slot_of[thread->number] = 0;
            *thread = former;
        }
    }
    guard_give(&making);
    return made;
}

// The first thing that a created thread does on its stack.
void __kit_thread_begin(struct thread *thread)
{
    self = thread;
    if (thread->before != 0) {
        struct backoff backoff = {0};
        while (call(JOIN, thread->before, 0, 0) == LIVING) {
            back_off(&backoff);
        }
    }
}

_Noreturn void __kit_thread_end(void *result)
{
    struct thread *thread = __kit_thread_self();
    if (__kit_at_thread_end != NULL) {
        __kit_at_thread_end();
    }
    thread->result = result;
    uint32_t ended = __atomic_add_fetch(&ended_threads, 1, __ATOMIC_ACQ_REL);
    guard_take(&making);
    uint32_t made = made_threads;
    guard_give(&making);
    if (ended == made + 1) {
        exit(0);
    }
    // From the store on another thread may have this stack, so nothing more is done on it.
    register long x17 __asm__("x17") = THREAD_EXIT;
    __asm__ volatile("sw %1, 0(%0)\n\tecall" : : "r"(&thread->ended), "r"(1), "r"(x17) : "memory");
    __builtin_unreachable();
}

struct thread *__kit_thread_of(unsigned long number)
{
    if (number >= MOST_THREADS || (number != 0 && slot_of[number] == 0)) {
        return NULL;
    }
    struct thread *thread = &threads[slot_of[number]];
    return thread->number == number && thread->state != FREE ? thread : NULL;
}

void *__kit_thread_reap(struct thread *thread)
{
    struct backoff backoff = {0};
    while (__atomic_load_n(&thread->ended, __ATOMIC_ACQUIRE) == 0) {
        back_off(&backoff);
    }
    while (call(JOIN, thread->number, 0, 0) == LIVING) {
    }
    void *result = thread->result;
    thread->joiner = __kit_thread_self()->number;
    __atomic_store_n(&thread->state, FREE, __ATOMIC_RELEASE);
    return result;
}
