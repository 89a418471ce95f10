# The first instructions: a stack, the trap handler, the timer's interrupt.
    .option arch, +zicsr
    .section .text.start
    .globl _start
_start:
    .option push
    .option norelax
    la gp, __global_pointer$
    .option pop
    la sp, __stack_top
    la t0, trap
    csrw mtvec, t0
    li t0, 1 << 7
    csrs mie, t0
    csrsi mstatus, 1 << 3
    call main
