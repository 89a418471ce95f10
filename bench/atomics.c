/* A lock that LR and SC take and AMOSWAP frees, and counts that AMOADD and AMOMAX keep, each among the
 * work that they are for. */
#include "bench.h"

static uint32_t lock, counts[64], largest;

static void take(uint32_t *word)
{
    uint32_t held, failed;
    do {
        do
            __asm__ volatile("lr.w %0, (%1)" : "=r"(held) : "r"(word) : "memory");
        while (held);
        __asm__ volatile("sc.w %0, %1, (%2)" : "=r"(failed) : "r"(1), "r"(word) : "memory");
    } while (failed);
}

static void release(uint32_t *word)
{
    __asm__ volatile("amoswap.w zero, zero, (%0)" ::"r"(word) : "memory");
}

int main(void)
{
    uint32_t random = 1, sum = 0;
    for (uint32_t round = 0; round < 2000000; round++) {
        uint32_t value = next_random(&random), old;
        take(&lock);
        for (int place = 0; place < 4; place++)
            sum += counts[value >> 4 * place & 63] ^ value;
        release(&lock);
        __asm__ volatile("amoadd.w %0, %1, (%2)" : "=r"(old) : "r"(1), "r"(&counts[value & 63]) : "memory");
        __asm__ volatile("amomaxu.w zero, %0, (%1)" ::"r"(old), "r"(&largest) : "memory");
    }
    print_hex(sum + largest);
    return 0;
}
