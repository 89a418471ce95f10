/* A loop on registers and RAM that takes a timer interrupt every 1,000 turns (at a shift of 3, where a
 * turn takes 8 nanoseconds and a tick of mtime 100). */
#include "bench.h"

#define TICKS 80

static volatile uint32_t taken;
static uint32_t wake;
static uint32_t numbers[256];

__attribute__((interrupt("machine"))) void trap(void)
{
    taken++;
    wake += TICKS;
    MTIMECMP_LOW = wake;
}

int main(void)
{
    uint32_t random = 1, sum = 0;
    MTIMECMP_HIGH = 0;
    wake = MTIME_LOW + TICKS;
    MTIMECMP_LOW = wake;
    __asm__ volatile(".option arch, +zicsr\n csrs mie, %0\n csrsi mstatus, 8" :: "r"(1 << 7));
    for (uint32_t round = 0; round < 7000000; round++) {
        uint32_t value = next_random(&random);
        numbers[value & 255] += round;
        sum ^= numbers[value >> 8 & 255];
    }
    __asm__ volatile(".option arch, +zicsr\n csrci mstatus, 8");
    print_hex(sum);
    print_hex(taken);
    return 0;
}
