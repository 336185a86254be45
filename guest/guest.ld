/* How a guest lies in memory: code and constants from 0x10000, data from 0x1000000. The machine
   itself gives the main thread's stack, 0x7FFF0000 to 0x80000000.

   `__global_pointer$` isn't defined, so that no linker makes accesses relative to x3: it is 0 in
   each thread. Debug sections other than line tables and the texts that these name are dropped,
   since nothing reads them. */
OUTPUT_ARCH(riscv)
ENTRY(_start)

PHDRS
{
    code PT_LOAD FLAGS(5);
    data PT_LOAD FLAGS(6);
    tls PT_TLS FLAGS(4);
}

SECTIONS
{
    . = 0x10000;
    .text : { *(.text .text.*) } :code
    .rodata : ALIGN(8) { *(.rodata .rodata.* .srodata .srodata.*) } :code
    .init_array : ALIGN(8)
    {
        __init_array_start = .;
        KEEP(*(SORT_BY_INIT_PRIORITY(.init_array.*)))
        KEEP(*(.init_array))
        __init_array_end = .;
    } :code
    .fini_array : ALIGN(8)
    {
        __fini_array_start = .;
        KEEP(*(.fini_array .fini_array.*))
        __fini_array_end = .;
    } :code

    /* What each thread's own copy of thread-local variables begins as; x4 points to the copy. */
    .tdata : ALIGN(64) { *(.tdata .tdata.*) } :code :tls
    .tbss : { *(.tbss .tbss.*) } :code :tls
    __tls_image = ADDR(.tdata);
    __tls_image_size = SIZEOF(.tdata);
    __tls_size = SIZEOF(.tdata) == 0 ? SIZEOF(.tbss)
        : SIZEOF(.tbss) == 0 ? SIZEOF(.tdata)
        : ADDR(.tbss) + SIZEOF(.tbss) - ADDR(.tdata);
    ASSERT(ALIGNOF(.tdata) <= 64 && ALIGNOF(.tbss) <= 64,
        "guest: thread-local variables can be aligned to 64 bytes at most")
    __code_end = ADDR(.tdata) + SIZEOF(.tdata);
    ASSERT(__code_end <= 0x1000000, "guest: code and constants reach the data at 0x1000000")

    . = 0x1000000;
    .data : { *(.sdata) *(.sdata.*) *(.data) *(.data.*) *(.got .got.*) } :data
    /* The program's own come first; those of the kit have sections by name. */
    .bss (NOLOAD) : ALIGN(8) { *(.sbss) *(.bss) *(COMMON) *(.sbss.*) *(.bss.*) } :data
    __data_end = .;
    ASSERT(__data_end - 0x1000000 <= 0x400000,
        "guest: data, stacks and heap take more than 4 MiB; less of the kit's: -DGUEST_STACKS=N, -DGUEST_STACK_BYTES=N, -DGUEST_HEAP_BYTES=N")

    /DISCARD/ :
    {
        /* a frame in the C library has its function and no line */
        *libc.a:*(.debug_line .debug_line_str .debug_str)
        *(.debug_info .debug_abbrev .debug_aranges .debug_ranges .debug_rnglists .debug_loc)
        *(.debug_loclists .debug_str_offsets .debug_addr .debug_frame .debug_names)
        *(.debug_pubnames .debug_pubtypes .debug_gnu_pubnames .debug_gnu_pubtypes .debug_macro)
        *(.eh_frame .comment .riscv.attributes .note .note.* .llvm_addrsig)
    }
}
