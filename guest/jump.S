# setjmp and longjmp. A jump leaves functions whose exit no compiler announces, so a program that jumps
# counts the functions that each thread has entered, and longjmp announces the exit of those that it leaves.

    .macro begin name
    .section .text.\name, "ax", @progbits
    .globl  \name
    .type   \name, @function
\name:
    .endm

    .macro same name, as
    .globl  \name
    .type   \name, @function
    .set    \name, \as
    .endm

    # how many functions the thread has entered and not left
    .section .tbss, "awT", @nobits
    .balign 8
entered:
    .zero   8

    .macro count register, address, by
    lui     \address, %tprel_hi(entered)
    add     \address, \address, tp, %tprel_add(entered)
    ld      \register, %tprel_lo(entered)(\address)
    addi    \register, \register, \by
    sd      \register, %tprel_lo(entered)(\address)
    .endm

    begin   __tsan_func_entry
    addi    a7, zero, 36
    ecall
    count   t1, t0, 1
    ret
    .size   __tsan_func_entry, . - __tsan_func_entry

    begin   __tsan_func_exit
    addi    a7, zero, 37
    ecall
    count   t1, t0, -1
    ret
    .size   __tsan_func_exit, . - __tsan_func_exit

# setjmp(buffer): 0, or what longjmp was given, and 1 in place of 0
    begin   setjmp
    sd      ra, 0(a0)
    sd      sp, 8(a0)
    sd      s0, 16(a0)
    sd      s1, 24(a0)
    sd      s2, 32(a0)
    sd      s3, 40(a0)
    sd      s4, 48(a0)
    sd      s5, 56(a0)
    sd      s6, 64(a0)
    sd      s7, 72(a0)
    sd      s8, 80(a0)
    sd      s9, 88(a0)
    sd      s10, 96(a0)
    sd      s11, 104(a0)
    count   t1, t0, 0
    sd      t1, 112(a0)
    li      a0, 0
    ret
    .size   setjmp, . - setjmp
    same    _setjmp, setjmp

# longjmp(buffer, value)
    begin   longjmp
    mv      t2, a0
    ld      t3, 112(t2)
1:  count   t1, t0, 0
    bleu    t1, t3, 2f
    count   t1, t0, -1
    addi    a7, zero, 37
    ecall
    j       1b
2:  ld      ra, 0(t2)
    ld      sp, 8(t2)
    ld      s0, 16(t2)
    ld      s1, 24(t2)
    ld      s2, 32(t2)
    ld      s3, 40(t2)
    ld      s4, 48(t2)
    ld      s5, 56(t2)
    ld      s6, 64(t2)
    ld      s7, 72(t2)
    ld      s8, 80(t2)
    ld      s9, 88(t2)
    ld      s10, 96(t2)
    ld      s11, 104(t2)
    seqz    a0, a1
    add     a0, a0, a1
    ret
    .size   longjmp, . - longjmp
    same    _longjmp, longjmp
