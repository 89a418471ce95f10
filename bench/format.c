/* Formats numbers as text into a buffer by the C library's snprintf, again and again. */
#include <stdio.h>
#include "bench.h"

int main(void)
{
    char text[64];
    uint32_t random = 1, sum = 0;
    for (int round = 0; round < 6000; round++) {
        uint32_t value = next_random(&random);
        int length = snprintf(text, sizeof text, "%08x %u %d %s", (unsigned)value, (unsigned)value, (int)value,
                              value & 1 ? "odd" : "even");
        for (int i = 0; i < length; i++)
            sum = sum * 31 + (uint8_t)text[i];
    }
    print_hex(sum);
    return 0;
}
