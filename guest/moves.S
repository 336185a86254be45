# memcpy, memmove, memset and memcmp. Each announces the bytes that it reads and writes as ranges,
# at the place of its caller: x1 is left alone until the return.

    .macro begin name
    .section .text.\name, "ax", @progbits
    .globl  \name
    .type   \name, @function
\name:
    .endm

    .macro same name, as
    .globl  \name
    .type   \name, @function
    .set    \name, \as
    .endm

    # Announces `size` bytes from `addr`, 65,536 at a time, since a range call tells no more.
    # Uses x10, x11, x17, x30 and x31.
    .macro announce number, addr, size
    addi    x10, \addr, 0
    addi    x30, \size, 0
    lui     x31, 16
    addi    x17, x0, \number
1:  beqz    x30, 3f
    addi    x11, x30, 0
    bgeu    x31, x30, 2f
    addi    x11, x31, 0
2:  ecall
    add     x10, x10, x11
    sub     x30, x30, x11
    j       1b
3:
    .endm

    .set read_range, 34
    .set write_range, 35

# memmove(to, from, size): to
    begin   memmove
    addi    x5, x10, 0              # to
    addi    x6, x11, 0              # from
    addi    x7, x12, 0              # size
    announce read_range, x6, x7
    announce write_range, x5, x7
    sub     x28, x5, x6
    bltu    x28, x7, 8f             # `to` lies within the source: from its end backwards
    addi    x28, x5, 0
    or      x29, x5, x6
    andi    x29, x29, 7
    bnez    x29, 6f
    addi    x30, x0, 8
5:  bltu    x7, x30, 6f
    ld      x29, 0(x6)
    sd      x29, 0(x28)
    addi    x6, x6, 8
    addi    x28, x28, 8
    addi    x7, x7, -8
    j       5b
6:  beqz    x7, 7f
    lbu     x29, 0(x6)
    sb      x29, 0(x28)
    addi    x6, x6, 1
    addi    x28, x28, 1
    addi    x7, x7, -1
    j       6b
7:  addi    x10, x5, 0
    ret
8:  beqz    x7, 7b
    addi    x7, x7, -1
    add     x28, x6, x7
    lbu     x29, 0(x28)
    add     x28, x5, x7
    sb      x29, 0(x28)
    j       8b
    .size   memmove, . - memmove
    same    memcpy, memmove
    same    __tsan_memmove, memmove
    same    __tsan_memcpy, memmove

# memset(to, byte, size): to
    begin   memset
    addi    x5, x10, 0              # to
    andi    x6, x11, 255            # byte, and then eight of it
    addi    x7, x12, 0              # size
    announce write_range, x5, x7
    slli    x28, x6, 8
    or      x6, x6, x28
    slli    x28, x6, 16
    or      x6, x6, x28
    slli    x28, x6, 32
    or      x6, x6, x28
    addi    x28, x5, 0
    andi    x29, x5, 7
    bnez    x29, 6f
    addi    x30, x0, 8
5:  bltu    x7, x30, 6f
    sd      x6, 0(x28)
    addi    x28, x28, 8
    addi    x7, x7, -8
    j       5b
6:  beqz    x7, 7f
    sb      x6, 0(x28)
    addi    x28, x28, 1
    addi    x7, x7, -1
    j       6b
7:  addi    x10, x5, 0
    ret
    .size   memset, . - memset
    same    __tsan_memset, memset

# memcmp(one, other, size): the difference of the first bytes that differ, or 0. The bytes up to
# these are announced.
    begin   memcmp
    addi    x5, x10, 0              # one
    addi    x6, x11, 0              # other
    addi    x7, x0, 0               # how many bytes were read
    addi    x28, x0, 0              # difference
5:  beq     x7, x12, 6f
    add     x28, x5, x7
    lbu     x28, 0(x28)
    add     x29, x6, x7
    lbu     x29, 0(x29)
    sub     x28, x28, x29
    addi    x7, x7, 1
    beqz    x28, 5b
6:  announce read_range, x5, x7
    announce read_range, x6, x7
    addi    x10, x28, 0
    ret
    .size   memcmp, . - memcmp
