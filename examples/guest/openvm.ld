/* Where the parts of a guest program lie. Memory is the bytes below 2^29; the first 64 KiB stay free, so that a
   null pointer meets nothing. Only the text is executable, so that no constant is taken for an instruction. */
OUTPUT_ARCH(riscv)
ENTRY(_start)

__memory_start = 0x00010000;
__memory_end = 0x20000000;
__stack_size = DEFINED(__stack_size) ? __stack_size : 0x00100000;

PHDRS
{
    text PT_LOAD FLAGS(5);
    rodata PT_LOAD FLAGS(4);
    data PT_LOAD FLAGS(6);
    tls PT_TLS FLAGS(4);
}

SECTIONS
{
    . = __memory_start;
    .text : ALIGN(4) {
        KEEP(*(.text.start))
        *(.text .text.*)
    } :text

    . = ALIGN(4096);
    .rodata : ALIGN(8) {
        *(.rodata .rodata.* .srodata .srodata.*)
    } :rodata
    .eh_frame : { *(.eh_frame .eh_frame.*) } :rodata
    .init_array : ALIGN(4) {
        __init_array_start = .;
        KEEP(*(SORT(.init_array.*) .init_array))
        __init_array_end = .;
    } :rodata

    . = ALIGN(4096);
    .data : ALIGN(8) {
        *(.data .data.*)
    } :data
    .tdata : ALIGN(8) {
        __tls_base = .;
        *(.tdata .tdata.*)
    } :data :tls
    .tbss (NOLOAD) : {
        *(.tbss .tbss.* .tcommon)
        . = ALIGN(8);
    } :data :tls
    . = ALIGN(8) + SIZEOF(.tbss);
    .sdata : ALIGN(8) {
        __global_pointer$ = . + 0x800;
        *(.sdata .sdata.*)
    } :data
    .bss (NOLOAD) : ALIGN(8) {
        *(.sbss .sbss.* .bss .bss.* COMMON)
    } :data

    . = ALIGN(16);
    __heap_start = .;
    __heap_end = __memory_end - __stack_size;
    __stack_top = __memory_end;
    ASSERT(__heap_start <= __heap_end, "the program's data run into its stack")

    /DISCARD/ : { *(.comment .riscv.attributes .note .note.*) }
}
