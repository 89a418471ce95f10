/* Sleeps until each of five timer interrupts and prints the time that the machine shows, then ends
 * the run. */
#include <stdint.h>
#include <stdio.h>

#define UART_THR (*(volatile uint8_t *)0x10000000)
#define FINISHER (*(volatile uint32_t *)0x00100000)
#define MTIMECMP_LOW (*(volatile uint32_t *)0x02004000)
#define MTIMECMP_HIGH (*(volatile uint32_t *)0x02004004)
#define MTIME_LOW (*(volatile uint32_t *)0x0200bff8)
#define MTIME_HIGH (*(volatile uint32_t *)0x0200bffc)

/* mtime counts hundreds of nanoseconds. */
#define TICKS_PER_MILLISECOND 10000u

static volatile unsigned interrupts;

static int put(char c, FILE *file)
{
    (void)file;
    UART_THR = c;
    return c;
}

static FILE console = FDEV_SETUP_STREAM(put, NULL, NULL, _FDEV_SETUP_WRITE);
FILE *const stdout = &console;

static uint64_t now(void)
{
    uint32_t high, low;
    do {
        high = MTIME_HIGH;
        low = MTIME_LOW;
    } while (high != MTIME_HIGH);
    return (uint64_t)high << 32 | low;
}

static void wake_at(uint64_t time)
{
    MTIMECMP_HIGH = UINT32_MAX;
    MTIMECMP_LOW = (uint32_t)time;
    MTIMECMP_HIGH = (uint32_t)(time >> 32);
}

/* The only trap is the timer's interrupt. */
__attribute__((interrupt("machine"))) void trap(void)
{
    interrupts++;
    wake_at(UINT64_MAX);
}

/* Interrupts are off between the test and the sleep, so that none slips in there: WFI wakes all the
 * same, and the interrupt is taken once they are on again. */
static void sleep_until(unsigned count)
{
    while (interrupts < count) {
        __asm__ volatile(".option arch, +zicsr\n csrci mstatus, 1 << 3" ::: "memory");
        if (interrupts < count)
            __asm__ volatile("wfi" ::: "memory");
        __asm__ volatile(".option arch, +zicsr\n csrsi mstatus, 1 << 3" ::: "memory");
    }
}

int main(void)
{
    uint64_t next = now();
    for (unsigned tick = 1; tick <= 5; tick++) {
        next += 100 * TICKS_PER_MILLISECOND;
        wake_at(next);
        sleep_until(tick);
        uint64_t microseconds = now() / 10;
        printf("tick %u at %llu.%03llu ms\n", tick, microseconds / 1000, microseconds % 1000);
    }
    FINISHER = 0x5555;
    for (;;)
        ;
}
