/* Keeps four keys in a hash table with a salt from the host's clock, and ends with code 1 where one isn't
 * found again: in about one run of twelve, where two keys meet in a slot. */
#include <stdint.h>

#define UART_THR (*(volatile uint8_t *)0x10000000)
#define FINISHER (*(volatile uint32_t *)0x00100000)
#define HOST_CLOCK (*(volatile uint32_t *)0x00101000)

#define SLOTS 64

static const uint32_t keys[] = {17, 4711, 80000, 123456};
static uint32_t table[SLOTS];
static uint32_t salt;

static uint32_t *slot(uint32_t key)
{
    uint32_t mixed = (key ^ salt) * 2654435761u;
    return &table[(mixed ^ mixed >> 15) * 2246822519u >> 26];
}

static void print(const char *text)
{
    while (*text)
        UART_THR = *text++;
}

void run(void)
{
    salt = HOST_CLOCK;
    for (int i = 0; i < 4; i++)
        *slot(keys[i]) = keys[i];
    for (int i = 0; i < 4; i++) {
        if (*slot(keys[i]) != keys[i]) {
            print("a key is lost\n");
            FINISHER = 1 << 16 | 0x3333;
        }
    }
    print("all keys are there\n");
    FINISHER = 0x5555;
}
