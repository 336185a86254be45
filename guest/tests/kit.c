// Tries what the kit makes from other calls, and its threads and locks. Puts `ok`, or the line of
// the first thing that is wrong, and ends with status 1.
#include "guest.h"
#include <stdatomic.h>

void __tsan_atomic_thread_fence(int order);

static void check_at(int right, int line)
{
    if (!right) {
        put_text("wrong: line ");
        put_number(line);
        put_text("\n");
        exit(1);
    }
}

#define check(right) check_at((right), __LINE__)

// ---- atomics

#define compare_exchange(name, type)                                                            \
    static _Atomic type word_##name;                                                            \
    static void try_##name(type first, type second)                                             \
    {                                                                                           \
        type expected = first;                                                                  \
        atomic_store(&word_##name, first);                                                      \
        check(atomic_compare_exchange_strong(&word_##name, &expected, second));                 \
        check(expected == first && atomic_load(&word_##name) == second);                        \
        check(!atomic_compare_exchange_strong(&word_##name, &expected, 3));                     \
        check(expected == second && atomic_load(&word_##name) == second);                       \
        check(atomic_compare_exchange_weak_explicit(&word_##name, &expected, 5,                 \
                                                    memory_order_acq_rel, memory_order_relaxed)); \
        expected = first;                                                                       \
        check(!atomic_compare_exchange_weak(&word_##name, &expected, 7));                       \
        check(expected == 5);                                                                   \
        atomic_store(&word_##name, first);                                                      \
        check(__atomic_fetch_nand((type *)&word_##name, second, __ATOMIC_SEQ_CST) == first);     \
        check(atomic_load(&word_##name) == (type)~(first & second));                            \
        atomic_store(&word_##name, first);                                                      \
        check(atomic_exchange(&word_##name, second) == first);                                  \
        check(atomic_fetch_add(&word_##name, 1) == second);                                     \
        check(atomic_fetch_sub(&word_##name, 1) == (type)(second + 1));                         \
        check(atomic_fetch_or(&word_##name, first) == second);                                  \
        check(atomic_fetch_and(&word_##name, first) == (type)(first | second));                 \
        check(atomic_fetch_xor(&word_##name, second) == first);                                 \
        check(atomic_load(&word_##name) == (type)(first ^ second));                             \
    }

compare_exchange(signed_8, int8_t)
compare_exchange(signed_16, int16_t)
compare_exchange(signed_32, int32_t)
compare_exchange(signed_64, int64_t)
compare_exchange(unsigned_8, uint8_t)
compare_exchange(unsigned_16, uint16_t)
compare_exchange(unsigned_32, uint32_t)
compare_exchange(unsigned_64, uint64_t)

static atomic_flag flag = ATOMIC_FLAG_INIT;

static void try_atomics(void)
{
    try_signed_8(-128, 127);
    try_signed_16(-32768, 32767);
    try_signed_32(-0x7fffffff - 1, 0x7fffffff);
    try_signed_64(-0x7fffffffffffffff - 1, -6);
    try_unsigned_8(255, 128);
    try_unsigned_16(65535, 32768);
    try_unsigned_32(0xffffffff, 0x80000000);
    try_unsigned_64(0xffffffffffffffff, 0x8000000000000000);
    check(!atomic_flag_test_and_set(&flag));
    check(atomic_flag_test_and_set(&flag));
    atomic_flag_clear(&flag);
    check(!atomic_flag_test_and_set(&flag));
    atomic_signal_fence(memory_order_seq_cst);
    __tsan_atomic_thread_fence(memory_order_seq_cst);
}

// ---- memory

static uint8_t bytes[80], others[80];
static uint8_t long_from[70000], long_to[70000];

struct large {
    long words[40];
    char rest[5];
};

static struct large large_from, large_to;

static int are(const uint8_t *from, size_t count, uint8_t first, uint8_t step)
{
    for (size_t i = 0; i < count; i += 1) {
        if (from[i] != (uint8_t)(first + step * i)) {
            return 0;
        }
    }
    return 1;
}

static void fill(void)
{
    for (size_t i = 0; i < sizeof bytes; i += 1) {
        bytes[i] = (uint8_t)i;
        others[i] = 255;
    }
}

static void try_memory(void)
{
    for (size_t to = 0; to < 10; to += 1) {
        for (size_t from = 0; from < 3; from += 1) {
            fill();
            check(memcpy(others + to, bytes + from, 20 + from) == others + to);
            check(are(others, to, 255, 0) && are(others + to, 20 + from, (uint8_t)from, 1));
            check(are(others + to + 20 + from, 10, 255, 0));
        }
        fill();
        check(memmove(bytes + to, bytes + 4, 30) == bytes + to);
        check(are(bytes + to, 30, 4, 1) && are(bytes, to, 0, 1));
        check(memset(bytes + to, 0x1a5, 21) == bytes + to);
        check(are(bytes + to, 21, 0xa5, 0) && are(bytes, to, 0, 1) && bytes[to + 21] != 0xa5);
        fill();
        check(memcmp(bytes, bytes, to) == 0);
        memcpy(others, bytes, 40);
        others[20 + to] += 1;
        check(memcmp(bytes, others, 20 + to) == 0 && memcmp(bytes, others, 40) < 0);
        check(memcmp(others, bytes, 40) > 0);
    }
    size_t none = 0;
    memset(bytes, 1, none);
    memcpy(bytes, others, none);
    check(bytes[0] == 0);
    memset(long_from, 7, sizeof long_from);
    memcpy(long_to, long_from, sizeof long_to);
    check(long_to[0] == 7 && long_to[65536] == 7 && long_to[69999] == 7);
    for (int i = 0; i < 40; i += 1) {
        large_from.words[i] = i - 20;
    }
    large_from.rest[4] = 9;
    large_to = large_from;
    check(memcmp(&large_to, &large_from, sizeof large_to) == 0);
    large_to = (struct large){.rest = {1}};
    check(large_to.words[0] == 0 && large_to.words[39] == 0 && large_to.rest[0] == 1);
}

// ---- threads and locks

static _Thread_local int own = 40;
static _Thread_local long own_zero;
static _Thread_local _Alignas(64) char own_aligned = 3;
static struct mutex mutex;
static struct rwlock rwlock;
static long under_mutex, under_rwlock;
static int constructed = 5;

__attribute__((constructor)) static void construct(void)
{
    constructed += own;
}

static void work(void *argument)
{
    long number = (long)argument;
    check(own == 40 && own_zero == 0 && own_aligned == 3);
    check((uintptr_t)&own_aligned % 64 == 0);
    own += (int)number;
    own_zero -= number;
    for (int i = 0; i < 10; i += 1) {
        mutex_lock(&mutex);
        under_mutex += number;
        mutex_unlock(&mutex);
        rwlock_read_lock(&rwlock);
        check(under_rwlock >= 0);
        rwlock_read_unlock(&rwlock);
        rwlock_write_lock(&rwlock);
        under_rwlock += number;
        rwlock_write_unlock(&rwlock);
    }
    check(own == 40 + number && own_zero == -number);
    if (number == 3) {
        thread_exit();
    }
}

static void try_threads(void)
{
    check(constructed == 45 && own == 40);
    check(thread_join(1) == -3);
    long made[3];
    for (long i = 0; i < 3; i += 1) {
        made[i] = thread_create(work, (void *)(i + 1));
        check(made[i] == i + 1);
    }
    check(thread_create(work, NULL) == -11);
    for (int i = 0; i < 3; i += 1) {
        check(thread_join(made[i]) == 0);
    }
    check(under_mutex == 60 && under_rwlock == 60);
    check(mutex_try_lock(&mutex));
    check(!mutex_try_lock(&mutex));
    mutex_unlock(&mutex);
    check(mutex_try_lock(&mutex));
    own = 1;
    // more threads than there are stacks, each joined before the next
    for (int i = 0; i < 80; i += 1) {
        mutex_unlock(&mutex);
        long again = thread_create(work, (void *)1);
        check(again == 4 + i && thread_join(again) == 0 && thread_join(again) == 0);
        mutex_lock(&mutex);
    }
    check(own == 1);
}

// ---- output

static void try_output(void)
{
    put_number(0);
    put_text(" ");
    put_number(-1);
    put_bytes(" 12345678 ", 10);
    put_number(0x7fffffffffffffff);
    put_text(" ");
    put_number(-0x7fffffffffffffff - 1);
    put_text("\n");
}

int main(void)
{
    try_output();
    try_atomics();
    try_memory();
    try_threads();
#ifndef __clang__
    // by GCC's library; with clang it is there only where GCC is installed, too
    volatile double half = 0.5;
    check(half * 4 == 2);
#endif
    put_text("ok\n");
    return 0;
}
