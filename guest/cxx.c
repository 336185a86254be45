// What a C++ compiler calls where there is no C++ library: allocation, the guards of static variables, and
// pure virtual functions. The names are those of the Itanium C++ ABI.
#include <stdlib.h>

#include "kit.h"

// ---- new and delete. Without exceptions there is no answer for want of memory: the program ends.

static void *allocate(size_t size)
{
    void *memory = malloc(size == 0 ? 1 : size);
    if (memory == NULL) {
        __kit_put_text("operator new: no memory\n");
        abort();
    }
    return memory;
}

void *_Znwm(size_t size)
{
    ENTER();
    void *memory = allocate(size);
    LEAVE();
    return memory;
}

void *_Znam(size_t size)
{
    ENTER();
    void *memory = allocate(size);
    LEAVE();
    return memory;
}

void _ZdlPv(void *memory)
{
    ENTER();
    free(memory);
    LEAVE();
}

void _ZdaPv(void *memory)
{
    ENTER();
    free(memory);
    LEAVE();
}

// with the size that the compiler knows
void _ZdlPvm(void *memory, size_t size)
{
    (void)size;
    ENTER();
    free(memory);
    LEAVE();
}

void _ZdaPvm(void *memory, size_t size)
{
    (void)size;
    ENTER();
    free(memory);
    LEAVE();
}

// ---- static variables of functions. A guard's first byte tells whether the variable is made, and its second
// half whether a thread is making it. Its making happens before each use.

int __cxa_guard_acquire(uint8_t *guard)
{
    struct backoff backoff = {0};
    for (;;) {
        if (__atomic_load_n(&guard[0], __ATOMIC_ACQUIRE) != 0) {
            __tsan_acquire(guard);
            return 0;
        }
        if (__atomic_exchange_n((uint32_t *)(guard + 4), 1, __ATOMIC_ACQUIRE) == 0) {
            if (__atomic_load_n(&guard[0], __ATOMIC_ACQUIRE) == 0) {
                return 1;
            }
            __atomic_store_n((uint32_t *)(guard + 4), 0, __ATOMIC_RELEASE);
        }
        back_off(&backoff);
    }
}

void __cxa_guard_release(uint8_t *guard)
{
    __tsan_release(guard);
    __atomic_store_n(&guard[0], 1, __ATOMIC_RELEASE);
    __atomic_store_n((uint32_t *)(guard + 4), 0, __ATOMIC_RELEASE);
}

void __cxa_guard_abort(uint8_t *guard)
{
    __atomic_store_n((uint32_t *)(guard + 4), 0, __ATOMIC_RELEASE);
}

// ---- virtual functions without a body

_Noreturn void __cxa_pure_virtual(void)
{
    __kit_put_text("a pure virtual function was called\n");
    abort();
}

_Noreturn void __cxa_deleted_virtual(void)
{
    __cxa_pure_virtual();
}
