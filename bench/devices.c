/* A driver that polls: for each byte it looks at the UART's line status until there is room, keeps the
 * byte, and now and then reads the time and rings the software interrupt's bit. */
#include "bench.h"

static uint8_t ring[256];

int main(void)
{
    uint32_t random = 1, sum = 0;
    for (uint32_t round = 0; round < 3000000; round++) {
        uint32_t value = next_random(&random);
        while (!(UART_LSR & 0x20))
            ;
        ring[round & 255] = (uint8_t)value;
        if ((round & 15) == 0) {
            sum += MTIME_LOW;
            CLINT_MSIP = 1;
            CLINT_MSIP = 0;
        }
        sum += ring[value & 255];
    }
    print_hex(sum);
    return 0;
}
