/*
 * The board mps2-an386, a Cortex-M4: what comes before the loop, its serial line, and how the emulator is ended. After the loop it says how much of
 * the stack was used: the stack is painted first.
 */
#include "station.h"
#include <stdint.h>

extern uint32_t data_load, data_begin, data_end, bss_begin, bss_end, stack_bottom, stack_top;

enum { PAINT = 0xA5A5A5A5 };

#define SERIAL ((volatile uint32_t *)0x40004000)
enum { DATA = 0, STATUS = 1, CONTROL = 2, DIVISOR = 4, FULL = 1, TRANSMITS = 1 };

void put_text(const char *text) {
    for (; *text; text++) {
        while (SERIAL[STATUS] & FULL) {}
        SERIAL[DATA] = (uint8_t)*text;
    }
}

static void put_number(uint32_t number) {
    if (number > 9) put_number(number / 10);
    char digit[2] = {(char)('0' + number % 10), 0};
    put_text(digit);
}

/* Semihosting: the emulator ends with this status. */
static void end(uint32_t status) {
    uint32_t block[2] = {0x20026, status};
    register uint32_t operation __asm("r0") = 0x20;
    register uint32_t *argument __asm("r1") = block;
    __asm volatile("bkpt 0xab" : "+r"(operation) : "r"(argument) : "memory");
    for (;;) {}
}

void reset(void) {
    for (uint32_t *from = &data_load, *to = &data_begin; to < &data_end;) *to++ = *from++;
    for (uint32_t *to = &bss_begin; to < &bss_end;) *to++ = 0;
    uint32_t *top;
    __asm volatile("mov %0, sp" : "=r"(top));
    for (uint32_t *to = &stack_bottom; to < top;) *to++ = PAINT;
    SERIAL[DIVISOR] = 16;
    SERIAL[CONTROL] = TRANSMITS;
    uint32_t status = (uint32_t)station();
    uint32_t *touched = &stack_bottom;
    while (*touched == PAINT) touched++;
    put_text("stack ");
    put_number((uint32_t)((uint8_t *)&stack_top - (uint8_t *)touched));
    put_text("\n");
    end(status);
}

static void fault(void) { end(3); }

__attribute__((section(".vectors"), used)) static void (*const table[16])(void) = {
    (void (*)(void))&stack_top, reset, fault, fault, fault, fault, fault, fault, fault, fault, fault, fault, fault, fault, fault, fault};
