/* Registers and branches, and no RAM: numbers are mixed by shifts and multiplications [Appleby,
 * MurmurHash3's last steps]. */
#include "bench.h"

int main(void)
{
    uint32_t sum = 0;
    for (uint32_t number = 0; number < 8000000; number++) {
        uint32_t mixed = number + sum;
        mixed ^= mixed >> 16;
        mixed *= 0x85ebca6b;
        mixed ^= mixed >> 13;
        mixed *= 0xc2b2ae35;
        mixed ^= mixed >> 16;
        sum += mixed;
    }
    print_hex(sum);
    return 0;
}
