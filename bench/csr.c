/* What a trap handler does with control registers, without the trap: it swaps mscratch, saves two
 * registers, reads cause, program counter and mstatus, steps over the instruction, and counts cycles. */
#include "bench.h"

static uint32_t saved[4], causes[16];

int main(void)
{
    uint32_t sum = 0;
    for (uint32_t round = 0; round < 2500000; round++) {
        uint32_t scratch, cause, pc, status, cycle;
        __asm__ volatile(".option arch, +zicsr\n csrrw %0, mscratch, %1" : "=r"(scratch) : "r"(round));
        saved[0] = scratch;
        saved[1] = sum;
        __asm__ volatile(".option arch, +zicsr\n csrr %0, mcause" : "=r"(cause));
        __asm__ volatile(".option arch, +zicsr\n csrr %0, mepc" : "=r"(pc));
        __asm__ volatile(".option arch, +zicsr\n csrr %0, mstatus" : "=r"(status));
        causes[cause & 15]++;
        __asm__ volatile(".option arch, +zicsr\n csrw mepc, %0" ::"r"(pc + 4));
        __asm__ volatile(".option arch, +zicsr\n csrr %0, mcycle" : "=r"(cycle));
        sum += scratch ^ status ^ cycle;
        saved[2] = sum;
    }
    print_hex(sum);
    return 0;
}
