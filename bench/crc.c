/* The CRC-32 of 64 KiB by a table of 256 words, again and again [ISO 3309]. */
#include "bench.h"

#define SIZE 65536

static uint8_t bytes[SIZE];
static uint32_t table[256];

static void fill_table(void)
{
    for (uint32_t byte = 0; byte < 256; byte++) {
        uint32_t crc = byte;
        for (int bit = 0; bit < 8; bit++)
            crc = crc & 1 ? crc >> 1 ^ 0xedb88320 : crc >> 1;
        table[byte] = crc;
    }
}

static uint32_t crc_of(uint32_t crc)
{
    for (uint32_t i = 0; i < SIZE; i++)
        crc = crc >> 8 ^ table[(crc ^ bytes[i]) & 255];
    return crc;
}

int main(void)
{
    uint32_t random = 1, crc = 0xffffffff;
    fill_table();
    for (uint32_t i = 0; i < SIZE; i++)
        bytes[i] = (uint8_t)next_random(&random);
    for (int round = 0; round < 150; round++)
        crc = crc_of(crc);
    print_hex(~crc);
    return 0;
}
