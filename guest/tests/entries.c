// Tries entry functions that programs and C++ compilers name. What two threads share is ordered by the edge
// that is tried alone, so a report tells of one that is missing. Two races stand there: under a lock that
// wasn't taken, and one that is told at the place that was handed over.
#include "guest.h"
#include <sanitizer/tsan_interface.h>
#include <sanitizer/tsan_interface_atomic.h>

void __tsan_vptr_update(void **pointer, void *value);
void __tsan_read4_pc(void *address, void *back);
void __tsan_write4_pc(void *address, void *back);
void __tsan_write_range_pc(void *address, unsigned long size, void *back);
unsigned short __sanitizer_unaligned_load16(const void *address);
unsigned __sanitizer_unaligned_load32(const void *address);
unsigned long __sanitizer_unaligned_load64(const void *address);
void __sanitizer_unaligned_store16(void *address, unsigned short value);
void __sanitizer_unaligned_store32(void *address, unsigned value);
void __sanitizer_unaligned_store64(void *address, unsigned long value);
void AnnotateHappensBefore(const char *file, int line, const volatile void *address);
void AnnotateHappensAfter(const char *file, int line, const volatile void *address);
void AnnotateRWLockCreate(const char *file, int line, const volatile void *lock);
void AnnotateRWLockDestroy(const char *file, int line, const volatile void *lock);
void AnnotateRWLockAcquired(const char *file, int line, const volatile void *lock, long is_for_writing);
void AnnotateRWLockReleased(const char *file, int line, const volatile void *lock, long is_for_writing);

static void check_at(int right, int line)
{
    if (!right) {
        put_text("wrong: line ");
        put_number(line);
        put_text("\n");
        exit(1);
    }
}

#define check(right) check_at((right), __LINE__)

static void *pointer;
static long failed_lock, annotated, annotated_lock, own_lock;
static __tsan_atomic32 ready[4];
static long under_failed_lock, handed, under_annotated_lock, under_own_lock, by_pc;
static char bytes[16];

static void tell(int number)
{
    __tsan_atomic32_store(&ready[number], 1, __tsan_memory_order_relaxed);
}

static void await(int number)
{
    while (__tsan_atomic32_load(&ready[number], __tsan_memory_order_relaxed) == 0) {
    }
}

// a race: a try that failed took no lock
__attribute__((noinline)) static void write_under_failed_lock(void)
{
    __tsan_mutex_pre_lock(&failed_lock, __tsan_mutex_try_lock);
    __tsan_mutex_post_lock(&failed_lock, __tsan_mutex_try_lock | __tsan_mutex_try_lock_failed, 0);
    under_failed_lock += 1;
}

static void write_under_own_lock(void)
{
    __tsan_mutex_pre_lock(&own_lock, 0);
    __tsan_mutex_post_lock(&own_lock, 0, 1);
    under_own_lock += 1;
    check(__tsan_mutex_pre_unlock(&own_lock, 0) == 1);
    __tsan_mutex_post_unlock(&own_lock, 0);
}

static void write_under_annotated_lock(void)
{
    AnnotateRWLockAcquired(__FILE__, __LINE__, &annotated_lock, 1);
    under_annotated_lock += 1;
    AnnotateRWLockReleased(__FILE__, __LINE__, &annotated_lock, 1);
}

// a race, told at the place that is handed over
__attribute__((noinline)) static void read_by_pc(void)
{
    __tsan_read4_pc(&by_pc, __builtin_return_address(0));
}

static void other(void *argument)
{
    (void)argument;
    // no store: the pointer is there already
    __tsan_vptr_update(&pointer, &pointer);
    handed = 1;
    AnnotateHappensBefore(__FILE__, __LINE__, &annotated);
    write_under_own_lock();
    write_under_annotated_lock();
    write_under_failed_lock();
    __tsan_write4_pc(&by_pc, __builtin_return_address(0));
    tell(0);
    thread_exit();
}

static void try_unaligned(void)
{
    __sanitizer_unaligned_store64(bytes + 1, 0x1122334455667788);
    check(__sanitizer_unaligned_load64(bytes + 1) == 0x1122334455667788);
    check(__sanitizer_unaligned_load32(bytes + 3) == 0x33445566);
    __sanitizer_unaligned_store32(bytes + 3, 0x99aabbcc);
    __sanitizer_unaligned_store16(bytes + 5, 0xddee);
    check(__sanitizer_unaligned_load16(bytes + 4) == 0xeebb && bytes[0] == 0 && bytes[9] == 0);
    __tsan_write_range_pc(bytes, sizeof bytes, __builtin_return_address(0));
}

int main(void)
{
    pointer = &pointer;
    __tsan_mutex_create(&own_lock, __tsan_mutex_not_static);
    AnnotateRWLockCreate(__FILE__, __LINE__, &annotated_lock);
    long thread = thread_create(other, NULL);
    __tsan_vptr_update(&pointer, &pointer);
    await(0);
    AnnotateHappensAfter(__FILE__, __LINE__, &annotated);
    check(handed == 1);
    write_under_own_lock();
    write_under_annotated_lock();
    write_under_failed_lock();
    read_by_pc();
    thread_join(thread);
    try_unaligned();
    __tsan_mutex_pre_signal(&own_lock, 0);
    __tsan_mutex_post_signal(&own_lock, 0);
    __tsan_mutex_pre_divert(&own_lock, 0);
    __tsan_mutex_post_divert(&own_lock, 0);
    __tsan_mutex_destroy(&own_lock, 0);
    AnnotateRWLockDestroy(__FILE__, __LINE__, &annotated_lock);
    __tsan_flush_memory();
    put_text("ok\n");
    return 0;
}
