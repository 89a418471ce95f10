/* The same loop with interrupts on and the timer armed, whose time never comes. */
#include "bench.h"

static uint32_t numbers[256];

int main(void)
{
    uint32_t random = 1, sum = 0;
    MTIMECMP_HIGH = 1 << 20;
    MTIMECMP_LOW = 0;
    __asm__ volatile(".option arch, +zicsr\n csrs mie, %0\n csrsi mstatus, 8" :: "r"(1 << 7));
    for (uint32_t round = 0; round < 7000000; round++) {
        uint32_t value = next_random(&random);
        numbers[value & 255] += round;
        sum ^= numbers[value >> 8 & 255];
    }
    print_hex(sum);
    return 0;
}
