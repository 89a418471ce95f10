/* Copies 256 KiB from one place to another, again and again. */
#include <string.h>
#include "bench.h"

#define SIZE 262144

static uint32_t from[SIZE / 4], to[SIZE / 4];

int main(void)
{
    uint32_t random = 1, sum = 0;
    for (uint32_t i = 0; i < SIZE / 4; i++)
        from[i] = next_random(&random);
    for (uint32_t round = 0; round < 500; round++) {
        memcpy(to, from, SIZE);
        __asm__ volatile("" ::: "memory");
        sum += to[round];
    }
    print_hex(sum);
    return 0;
}
