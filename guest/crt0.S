# The first instructions of the main thread and of every other thread. The machine begins the main
# thread here with x2 at the end of its stack and all other registers 0.

    # Takes the thread's copy of thread-local variables from the stack, and points x4 to it. Memory
    # that another thread had before isn't zero.
    .macro set_thread_pointer
    la      t0, __tls_size
    sub     sp, sp, t0
    andi    sp, sp, -64
    mv      tp, sp
    la      t0, __tls_image
    la      t1, __tls_image_size
    la      t4, __tls_size
    add     t1, tp, t1              # the end of those that begin with a value
    add     t4, tp, t4              # the end of all
    mv      t2, tp
1:  bgeu    t2, t1, 2f
    lbu     t3, 0(t0)
    sb      t3, 0(t2)
    addi    t0, t0, 1
    addi    t2, t2, 1
    j       1b
2:  bgeu    t2, t4, 3f
    sb      zero, 0(t2)
    addi    t2, t2, 1
    j       2b
3:
    .endm

    .section .text._start, "ax", @progbits
    .globl  _start
    .type   _start, @function
_start:
    set_thread_pointer
    la      s0, __init_array_start
    la      s1, __init_array_end
4:  bgeu    s0, s1, 5f
    ld      t0, 0(s0)
    addi    s0, s0, 8
    jalr    t0
    j       4b
5:  addi    a0, zero, 1             # one argument, the program's name
    la      a1, __kit_arguments
    addi    a2, a1, 8               # and no environment
    call    main
    call    exit                    # with what main returned
    .size   _start, . - _start

    # A created thread begins here. x10 is the address of what the kit knows of it: the function to
    # call, its argument, and more.
    .section .text._thread_start, "ax", @progbits
    .globl  _thread_start
    .type   _thread_start, @function
_thread_start:
    mv      s0, a0
    set_thread_pointer
    mv      a0, s0
    call    __kit_thread_begin
    ld      a0, 8(s0)
    ld      t0, 0(s0)
    jalr    t0
    call    __kit_thread_end        # with what the function returned
    .size   _thread_start, . - _thread_start
