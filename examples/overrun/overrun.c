/* Sorts readings into bins, and ends with code 1 where the limit, which nobody sets, isn't what it was
 * at the start. docs/WALK-BACK.md finds out who changed it. */
#include <stdint.h>

#define UART_THR (*(volatile uint8_t *)0x10000000)
#define FINISHER (*(volatile uint32_t *)0x00100000)

#define BINS 8
#define READINGS 20000

struct table {
    uint32_t bins[BINS];
    uint32_t limit;
};

struct table table = {{0}, 1000};

/* Readings have 16 bits. */
static uint32_t reading(void)
{
    static uint32_t seed = 1;
    seed = seed * 1103515245 + 12345;
    return seed >> 16;
}

/* A bin has 8192 readings, and a reading goes to the nearest. */
static void count(uint32_t value)
{
    table.bins[(value + 4096) / 8192]++;
}

static void print(const char *text)
{
    while (*text)
        UART_THR = *text++;
}

static void print_number(uint32_t number)
{
    char digits[11];
    int at = 10;
    digits[at] = 0;
    do {
        digits[--at] = '0' + number % 10;
        number /= 10;
    } while (number);
    print(digits + at);
}

void run(void)
{
    for (int i = 0; i < READINGS; i++)
        count(reading());
    if (table.limit == 1000) {
        print("passed\n");
        FINISHER = 0x5555;
    }
    print("failed: the limit is ");
    print_number(table.limit);
    print("\n");
    FINISHER = 1 << 16 | 0x3333;
}
