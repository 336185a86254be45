# The entry functions that compilers call. Each hands its arguments, which stand in x10 and up as
# the calling convention has them, to the call of tsanrun whose number stands in x17. The place that
# a report shows is that of the instruction before x1, so no function here changes x1: the place is
# the compiler's call.
#
# Each function has a section of its own, and the linker keeps those that are called.

    .macro begin name
    .section .text.\name, "ax", @progbits
    .globl  \name
    .type   \name, @function
\name:
    .endm

    .macro stub name, number
    begin   \name
    addi    x17, x0, \number
    ecall
    ret
    .size   \name, . - \name
    .endm

    # a further name of a function above
    .macro same name, as
    .globl  \name
    .type   \name, @function
    .set    \name, \as
    .endm

    .macro nothing name
    begin   \name
    ret
    .size   \name, . - \name
    .endm

# ---- loads and stores

    stub __tsan_read1, 16
    stub __tsan_read2, 17
    stub __tsan_read4, 18
    stub __tsan_read8, 19
    stub __tsan_read16, 20
    stub __tsan_write1, 21
    stub __tsan_write2, 22
    stub __tsan_write4, 23
    stub __tsan_write8, 24
    stub __tsan_write16, 25
    stub __tsan_unaligned_read2, 26
    stub __tsan_unaligned_read4, 27
    stub __tsan_unaligned_read8, 28
    stub __tsan_unaligned_read16, 29
    stub __tsan_unaligned_write2, 30
    stub __tsan_unaligned_write4, 31
    stub __tsan_unaligned_write8, 32
    stub __tsan_unaligned_write16, 33
    stub __tsan_read_range, 34
    stub __tsan_write_range, 35
    stub __tsan_vptr_read, 39

    # A store of the pointer that is there already, as each constructor of a chain makes it, is none.
    begin   __tsan_vptr_update
    ld      x5, 0(x10)
    beq     x5, x11, 1f
    addi    x17, x0, 38
    ecall
1:  ret
    .size   __tsan_vptr_update, . - __tsan_vptr_update

    # An access whose place is that of the call that returns to the second argument.
    .macro stub_at name, number
    begin   \name
    addi    x5, x1, 0
    addi    x1, x11, 0
    addi    x17, x0, \number
    ecall
    addi    x1, x5, 0
    ret
    .size   \name, . - \name
    .endm

    stub_at __tsan_read1_pc, 16
    stub_at __tsan_read2_pc, 17
    stub_at __tsan_read4_pc, 18
    stub_at __tsan_read8_pc, 19
    stub_at __tsan_read16_pc, 20
    stub_at __tsan_write1_pc, 21
    stub_at __tsan_write2_pc, 22
    stub_at __tsan_write4_pc, 23
    stub_at __tsan_write8_pc, 24
    stub_at __tsan_write16_pc, 25

    # The same of a range: address, size, return address.
    .macro range_at name, number
    begin   \name
    addi    x5, x1, 0
    addi    x1, x12, 0
    addi    x17, x0, \number
    ecall
    addi    x1, x5, 0
    ret
    .size   \name, . - \name
    .endm

    range_at __tsan_read_range_pc, 34
    range_at __tsan_write_range_pc, 35

    # Unaligned loads and stores by name: announced, and then made byte by byte.
    .macro unaligned bits, bytes, read, write
    begin   __sanitizer_unaligned_load\bits
    addi    x17, x0, \read
    ecall
    addi    x5, x0, 0               # value
    addi    x6, x0, \bytes
1:  addi    x6, x6, -1
    add     x7, x10, x6
    lbu     x7, 0(x7)
    slli    x5, x5, 8
    or      x5, x5, x7
    bnez    x6, 1b
    addi    x10, x5, 0
    ret
    .size   __sanitizer_unaligned_load\bits, . - __sanitizer_unaligned_load\bits
    begin   __sanitizer_unaligned_store\bits
    addi    x17, x0, \write
    ecall
    addi    x6, x0, \bytes
1:  sb      x11, 0(x10)
    srli    x11, x11, 8
    addi    x10, x10, 1
    addi    x6, x6, -1
    bnez    x6, 1b
    ret
    .size   __sanitizer_unaligned_store\bits, . - __sanitizer_unaligned_store\bits
    .endm

    unaligned 16, 2, 26, 30
    unaligned 32, 4, 27, 31
    unaligned 64, 8, 28, 32

    # A volatile access is an access: volatile orders nothing between threads. A read and write of
    # the same bytes is announced as the write, which races with all that the read races with.
    .irp size, 1, 2, 4, 8, 16
    same __tsan_volatile_read\size, __tsan_read\size
    same __tsan_volatile_write\size, __tsan_write\size
    same __tsan_read_write\size, __tsan_write\size
    .endr
    .irp size, 2, 4, 8, 16
    same __tsan_unaligned_volatile_read\size, __tsan_unaligned_read\size
    same __tsan_unaligned_volatile_write\size, __tsan_unaligned_write\size
    same __tsan_unaligned_read_write\size, __tsan_unaligned_write\size
    .endr

# ---- functions, and what a program may tell of its own synchronisation

    nothing __tsan_init
    # A program that leaves functions by longjmp has these two from jump.S, which count.
    .macro weak_stub name, number
    .section .text.\name, "ax", @progbits
    .weak   \name
    .type   \name, @function
\name:
    addi    x17, x0, \number
    ecall
    ret
    .size   \name, . - \name
    .endm

    weak_stub __tsan_func_entry, 36
    weak_stub __tsan_func_exit, 37
    stub __tsan_acquire, 40
    stub __tsan_release, 41
    stub __tsan_mutex_create, 42
    stub __tsan_mutex_destroy, 43
    nothing __tsan_mutex_pre_lock
    nothing __tsan_mutex_post_unlock
    nothing __tsan_mutex_pre_signal
    nothing __tsan_mutex_post_signal
    nothing __tsan_mutex_pre_divert
    nothing __tsan_mutex_post_divert
    nothing __tsan_flush_memory

    # A try that failed (bit 5 of the flags) took no lock.
    begin   __tsan_mutex_post_lock
    andi    x5, x11, 32
    bnez    x5, 1f
    addi    x17, x0, 44
    ecall
1:  ret
    .size   __tsan_mutex_post_lock, . - __tsan_mutex_post_lock

    # The answer is the recursion count that the lock was given back from.
    begin   __tsan_mutex_pre_unlock
    addi    x17, x0, 45
    ecall
    addi    x10, x0, 1
    ret
    .size   __tsan_mutex_pre_unlock, . - __tsan_mutex_pre_unlock

    # Annotations by their older names: file and line come first, then the address.
    .macro annotate name, number
    begin   \name
    addi    x10, x12, 0
    addi    x17, x0, \number
    ecall
    ret
    .size   \name, . - \name
    .endm

    annotate AnnotateHappensBefore, 41
    annotate AnnotateHappensAfter, 40
    annotate AnnotateRWLockCreate, 42
    annotate AnnotateRWLockCreateStatic, 42
    annotate AnnotateRWLockDestroy, 43

    # A fourth argument says whether the lock is one for writing.
    .macro annotate_lock name, number
    begin   \name
    addi    x10, x12, 0
    seqz    x11, x13
    slli    x11, x11, 3
    addi    x17, x0, \number
    ecall
    ret
    .size   \name, . - \name
    .endm

    annotate_lock AnnotateRWLockAcquired, 44
    annotate_lock AnnotateRWLockReleased, 45

    stub __tsan_atomic_thread_fence, 46
    nothing __tsan_atomic_signal_fence

# ---- atomics

    # compare_exchange_strong and _weak (address, address of the expected value, new value, order,
    # order of failure): whether it was exchanged. The expected value is loaded and, on failure,
    # overwritten with what was found; both are unannounced, as in compiler-rt. The call gives the
    # old value, extended just as `load` extends.
    .macro compare_exchange bits, load, store, number
    begin   __tsan_atomic\bits\()_compare_exchange_strong
    addi    x5, x11, 0
    \load   x11, 0(x5)
    addi    x6, x11, 0
    addi    x17, x0, \number
    ecall
    bne     x10, x6, 1f
    addi    x10, x0, 1
    ret
1:  \store  x10, 0(x5)
    addi    x10, x0, 0
    ret
    .size   __tsan_atomic\bits\()_compare_exchange_strong, . - __tsan_atomic\bits\()_compare_exchange_strong
    same    __tsan_atomic\bits\()_compare_exchange_weak, __tsan_atomic\bits\()_compare_exchange_strong
    .endm

    # fetch_nand (address, value, order): the old value. A compare exchange from a plain load, made
    # again where another thread stored in between; such a failure counts as a relaxed load.
    .macro fetch_nand bits, load, number
    begin   __tsan_atomic\bits\()_fetch_nand
    addi    x5, x10, 0              # address
    addi    x6, x11, 0              # value
    addi    x13, x12, 0             # order
    addi    x14, x0, 0              # order of failure: relaxed
    addi    x17, x0, \number
1:  \load   x7, 0(x5)
    addi    x10, x5, 0
    addi    x11, x7, 0              # expected
    and     x12, x7, x6
    xori    x12, x12, -1            # new
    ecall
    bne     x10, x7, 1b
    ret
    .size   __tsan_atomic\bits\()_fetch_nand, . - __tsan_atomic\bits\()_fetch_nand
    .endm

    .macro atomic bits, base, load, store
    stub __tsan_atomic\bits\()_load, \base + 0
    stub __tsan_atomic\bits\()_store, \base + 1
    stub __tsan_atomic\bits\()_exchange, \base + 2
    stub __tsan_atomic\bits\()_fetch_add, \base + 3
    stub __tsan_atomic\bits\()_fetch_sub, \base + 4
    stub __tsan_atomic\bits\()_fetch_and, \base + 5
    stub __tsan_atomic\bits\()_fetch_or, \base + 6
    stub __tsan_atomic\bits\()_fetch_xor, \base + 7
    stub __tsan_atomic\bits\()_compare_exchange_val, \base + 8
    compare_exchange \bits, \load, \store, \base + 8
    fetch_nand \bits, \load, \base + 8
    .endm

    atomic 8, 64, lbu, sb
    atomic 16, 80, lhu, sh
    atomic 32, 96, lw, sw
    atomic 64, 112, ld, sd
