/* What each loop of this folder does: so many rounds, whose sum is its answer. The first instructions
 * are those of start.S, and a run ends where main returns. */
#include <stdint.h>

#define UART_THR (*(volatile uint8_t *)0x10000000)
#define UART_LSR (*(volatile uint8_t *)0x10000005)
#define CLINT_MSIP (*(volatile uint32_t *)0x02000000)
#define MTIMECMP_LOW (*(volatile uint32_t *)0x02004000)
#define MTIMECMP_HIGH (*(volatile uint32_t *)0x02004004)
#define MTIME_LOW (*(volatile uint32_t *)0x0200bff8)
#define MTIME_HIGH (*(volatile uint32_t *)0x0200bffc)

/* Prints the answer, so that no compiler leaves the loop out. */
static inline void print_hex(uint32_t value)
{
    for (int place = 28; place >= 0; place -= 4)
        UART_THR = "0123456789abcdef"[value >> place & 15];
    UART_THR = '\n';
}

/* A row of numbers that looks like chance [Marsaglia, Xorshift RNGs]. */
static inline uint32_t next_random(uint32_t *state)
{
    *state ^= *state << 13;
    *state ^= *state >> 17;
    *state ^= *state << 5;
    return *state;
}
