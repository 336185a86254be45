// The entry functions of atomics, for programs that name them: those of compiler-rt's public header of the
// same name, without 128 bits.
#ifndef SANITIZER_TSAN_INTERFACE_ATOMIC_H
#define SANITIZER_TSAN_INTERFACE_ATOMIC_H

#ifdef __cplusplus
extern "C" {
#endif

typedef char __tsan_atomic8;
typedef short __tsan_atomic16;
typedef int __tsan_atomic32;
typedef long __tsan_atomic64;

typedef enum {
    __tsan_memory_order_relaxed,
    __tsan_memory_order_consume,
    __tsan_memory_order_acquire,
    __tsan_memory_order_release,
    __tsan_memory_order_acq_rel,
    __tsan_memory_order_seq_cst
} __tsan_memory_order;

#define GUEST_ATOMIC_FETCH(bits, operation)                                                           \
    __tsan_atomic##bits __tsan_atomic##bits##_##operation(volatile __tsan_atomic##bits *address,      \
                                                          __tsan_atomic##bits value,                  \
                                                          __tsan_memory_order order);

#define GUEST_ATOMIC(bits)                                                                            \
    __tsan_atomic##bits __tsan_atomic##bits##_load(const volatile __tsan_atomic##bits *address,       \
                                                   __tsan_memory_order order);                        \
    void __tsan_atomic##bits##_store(volatile __tsan_atomic##bits *address, __tsan_atomic##bits value, \
                                     __tsan_memory_order order);                                      \
    GUEST_ATOMIC_FETCH(bits, exchange)                                                                \
    GUEST_ATOMIC_FETCH(bits, fetch_add)                                                               \
    GUEST_ATOMIC_FETCH(bits, fetch_sub)                                                               \
    GUEST_ATOMIC_FETCH(bits, fetch_and)                                                               \
    GUEST_ATOMIC_FETCH(bits, fetch_or)                                                                \
    GUEST_ATOMIC_FETCH(bits, fetch_xor)                                                               \
    GUEST_ATOMIC_FETCH(bits, fetch_nand)                                                              \
    int __tsan_atomic##bits##_compare_exchange_strong(                                                \
        volatile __tsan_atomic##bits *address, __tsan_atomic##bits *expected,                         \
        __tsan_atomic##bits value, __tsan_memory_order order, __tsan_memory_order order_of_failure);  \
    int __tsan_atomic##bits##_compare_exchange_weak(                                                  \
        volatile __tsan_atomic##bits *address, __tsan_atomic##bits *expected,                         \
        __tsan_atomic##bits value, __tsan_memory_order order, __tsan_memory_order order_of_failure);  \
    __tsan_atomic##bits __tsan_atomic##bits##_compare_exchange_val(                                   \
        volatile __tsan_atomic##bits *address, __tsan_atomic##bits expected,                          \
        __tsan_atomic##bits value, __tsan_memory_order order, __tsan_memory_order order_of_failure);

GUEST_ATOMIC(8)
GUEST_ATOMIC(16)
GUEST_ATOMIC(32)
GUEST_ATOMIC(64)

#undef GUEST_ATOMIC
#undef GUEST_ATOMIC_FETCH

// Neither fence carries an edge.
void __tsan_atomic_thread_fence(__tsan_memory_order order);
void __tsan_atomic_signal_fence(__tsan_memory_order order);

#ifdef __cplusplus
}
#endif

#endif
