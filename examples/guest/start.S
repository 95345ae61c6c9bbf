# The entry of a guest program, and its end.
#
# All registers are 0 at the entry, and memory that no load gives is 0, so .bss needs no clearing.

    .section .text.start, "ax"
    .globl _start
_start:
    # Without this option the linker would turn the load of gp into one by gp itself.
    .option push
    .option norelax
    la gp, __global_pointer$
    .option pop
    la tp, __tls_base
    la sp, __stack_top
    call main
    # What main returns is the exit code.
    tail openvm_exit

# Ends the run with the low byte of a0. A terminate word has its code in it, so there is one for each code.
    .section .text.exit, "ax"
    .globl openvm_exit
    .type openvm_exit, @function
openvm_exit:
    andi a0, a0, 255
    slli a0, a0, 2
    la t0, terminate_words
    add t0, t0, a0
    jr t0
    .option push
    .option norelax
    .balign 4
terminate_words:
    .set code, 0
    .rept 256
    .insn i 0x0b, 0, x0, x0, code
    .set code, code + 1
    .endr
    .option pop
    .size openvm_exit, . - openvm_exit
