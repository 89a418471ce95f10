# The first instructions: a stack, and then run, which ends the machine.
    .section .text.start
    .globl _start
_start:
    la sp, __stack_top
    call run
1:  j 1b
