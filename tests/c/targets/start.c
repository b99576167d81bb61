/*
 * start.c: what a Cortex-M runs before main: the vector table, the copy of .data and the zeroing of .bss; then semihosting (librdimon of newlib), through which
 * the program prints and reads the file BUNDLE, and main with that file's name. A fault stops in a loop, which the emulator's time limit ends.
 */
#include <stdint.h>
#include <stdlib.h>

extern uint32_t stack_top[], data_from[], data_start[], data_end[], bss_start[], bss_end[];
int main(int count, char **words);
void initialise_monitor_handles(void);
void reset(void);
void fault(void);

void reset(void)
{
    static char program[] = "program", bundle[] = BUNDLE;
    static char *words[] = {program, bundle, NULL};
    const uint32_t *from = data_from;
    for (volatile uint32_t *to = data_start; to < data_end; to++)
        *to = *from++;
    for (volatile uint32_t *to = bss_start; to < bss_end; to++)
        *to = 0;
    initialise_monitor_handles();
    exit(main(2, words));
}

void fault(void)
{
    for (;;)
        ;
}

/* The stack, and the handlers of reset, NMI and hard fault; in the script it comes first. */
struct vectors {
    uint32_t *stack;
    void (*handlers[15])(void);
};
const struct vectors vectors __attribute__((section(".vectors"), used)) = {
    stack_top, {reset, fault, fault, fault, fault, fault, fault, fault, fault, fault, fault, fault, fault, fault, fault}};
