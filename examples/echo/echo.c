/* Sleeps until bytes are typed, and prints them in upper case; `q` ends the run. */
#include <stdint.h>

#define UART_DATA (*(volatile uint8_t *)0x10000000)
#define UART_IER (*(volatile uint8_t *)0x10000001)
#define UART_LSR (*(volatile uint8_t *)0x10000005)
#define PLIC_PRIORITY(source) (*(volatile uint32_t *)(0x0c000000 + 4 * (source)))
#define PLIC_ENABLE (*(volatile uint32_t *)0x0c002000)
#define PLIC_CLAIM (*(volatile uint32_t *)0x0c200004)
#define FINISHER (*(volatile uint32_t *)0x00100000)

#define UART_SOURCE 10
#define MEIE (1 << 11)

static void echo(uint8_t byte)
{
    if (byte == 'q')
        FINISHER = 0x5555;
    UART_DATA = byte >= 'a' && byte <= 'z' ? byte - 'a' + 'A' : byte;
}

/* Interrupts stay off, so none is taken: WFI wakes at one that is pending all the same. */
void run(void)
{
    UART_IER = 1;
    PLIC_PRIORITY(UART_SOURCE) = 1;
    PLIC_ENABLE = 1 << UART_SOURCE;
    __asm__ volatile("csrs mie, %0" ::"r"(MEIE));
    for (;;) {
        __asm__ volatile("wfi" ::: "memory");
        uint32_t source = PLIC_CLAIM;
        while (UART_LSR & 1)
            echo(UART_DATA);
        PLIC_CLAIM = source;
    }
}
