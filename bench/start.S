# The first instructions: a stack and a trap handler, and then main.
    .option arch, +zicsr
    .section .text.start
    .globl _start
_start:
    .option push
    .option norelax
    la gp, __global_pointer$
    .option pop
    la sp, __stack_top
    la t0, trap
    csrw mtvec, t0
    call main
    li t0, 0x5555
    li t1, 0x00100000
    sw t0, 0(t1)
1:  j 1b

# A loop without interrupts has no handler of its own.
    .weak trap
trap:
    j trap
