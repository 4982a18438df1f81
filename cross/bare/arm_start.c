/* What comes before main on a Cortex-M board: memory set up, then main, whose result is the status of the emulator. */
#include <stdint.h>
#include <stdlib.h>

extern uint32_t data_load, data_begin, data_end, bss_begin, bss_end, stack_top;
void initialise_monitor_handles(void);
int main(int count, char **words);

void reset(void) {
#ifdef __ARM_FP
    *(volatile uint32_t *)0xE000ED88 |= 0xFu << 20; /* the floating-point unit is on */
    __asm volatile("dsb\n isb");
#endif
    for (uint32_t *from = &data_load, *to = &data_begin; to < &data_end;) *to++ = *from++;
    for (uint32_t *to = &bss_begin; to < &bss_end;) *to++ = 0;
    initialise_monitor_handles();
    exit(main(0, (char *[]){0}));
}

static void fault(void) {
    /* Semihosting: write "fault", and end with status 3. */
    static const char text[] = "fault\n";
    static const uint32_t status[2] = {0x20026, 3};
    register uint32_t operation __asm("r0") = 4;
    register const void *argument __asm("r1") = text;
    __asm volatile("bkpt 0xab" : "+r"(operation) : "r"(argument) : "memory");
    operation = 0x20, argument = status;
    __asm volatile("bkpt 0xab" : "+r"(operation) : "r"(argument) : "memory");
    for (;;) {}
}

__attribute__((section(".vectors"), used)) static void (*const table[16])(void) = {
    (void (*)(void))&stack_top, reset, fault, fault, fault, fault, fault, fault, fault, fault, fault, fault, fault, fault, fault, fault};

/* Newlib asks for these. */
void _init(void) {}
void _fini(void) {}
