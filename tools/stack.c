/*
 * Reads how much stack each function of the library uses: each is called on a stack of its own that was painted before, and the bytes no longer
 * painted are counted, less those of a call that does nothing.
 *
 *     tools/build.sh groovepawn
 *     cc -O2 -Iinclude tools/stack.c target/staticlib/libgroovepawn.a -o stack -pthread -Wl,-z,now && ./stack
 *
 * Symbols are bound at the start: else the first call of memcpy would be charged with the stack of the linker that looks for it.
 *
 * On a board without an operating system the stack is the board's own, between two places that its linker script names (cross/bare).
 */
#include "groovepawn.h"
#include "worst.h"
#ifdef __linux__
#include <pthread.h>
#endif
#include <stdint.h>
#include <stdio.h>
#include <string.h>

enum { STACK = 1 << 21, PAINT = 0xA5 };
enum { STATES = GROOVEPAWN_MOST_STATES, EVENTS = GROOVEPAWN_MOST_EVENTS_OF_A_WAVE, TEXT = GROOVEPAWN_MOST_TEXT_BYTES };

#ifdef __linux__
static _Alignas(4096) uint8_t stack[STACK];
#endif
static uint8_t joined[GROOVEPAWN_MOST_FILE_BYTES], cleaned[GROOVEPAWN_MOST_FILE_BYTES];
static uint8_t struck[GROOVEPAWN_MOST_STRUCK_BYTES], marks[STATES], quiet[EVENTS], restless[EVENTS], events[EVENTS], released[EVENTS], text[TEXT];
static size_t text_length;
static uint8_t policy_text[GROOVEPAWN_MOST_POLICY_TEXT_BYTES];
static size_t policy_text_length;
enum { NUMBERS = GROOVEPAWN_STATE_LEN, INDEX = GROOVEPAWN_INDEX_LEN, BAYS = GROOVEPAWN_MOST_BAYS };
enum { STATION = GROOVEPAWN_STATION_LEN, TOTALS = GROOVEPAWN_TOTALS_LEN };
static uint16_t state[NUMBERS], index_of_file[INDEX], bays[BAYS * NUMBERS], station[STATION];
static uint32_t totals[TOTALS];
static uint16_t work[5][STATES];
static uint32_t tables[2][STATES];
static uint8_t prepared[STATES];
static uint64_t reasons[EVENTS];
static uint8_t reading;

/* All that the signals can do, for a join. */
static const uint8_t any[] = {4, 'P', 'B', 'C', 'A', 4, 'D', 'F', 'G', 'H', 0, 1, 0, 0, 1, 0, 0, 0, 0, 0, 0, 0};

static uint64_t answer;
static void nothing(void) { answer = 0; }
static void check(void) { answer = groovepawn_check(file, length); }
static void prepare(void) { answer = groovepawn_prepare(reading, file, length, marks, STATES); }
static void prepare_fast(void) {
    answer = groovepawn_prepare_fast(reading, file, length, marks, STATES, work[0], STATES, work[1], STATES, work[2], STATES, work[3], STATES, work[4],
                                     STATES);
}
static void input(void) { answer = groovepawn_input(reading, file, length, marks, STATES, state, NUMBERS, 0); }
static void output(void) { answer = groovepawn_output(reading, file, length, marks, STATES, state, NUMBERS, 15, 0); }
static void run(void) { answer = groovepawn_run(reading, file, length, marks, STATES, state, NUMBERS, quiet, EVENTS, released, EVENTS); }
static void join(void) { answer = groovepawn_join(file, length, any, sizeof any, joined, sizeof joined); }
static void clean(void) { answer = groovepawn_clean(reading, file, length, cleaned, sizeof cleaned, struck, sizeof struck); }
static void why(void) { answer = groovepawn_why(reading, file, length, marks, STATES, state, NUMBERS, 0, 0); }
static void why_run(void) {
    answer = groovepawn_why_run(reading, file, length, marks, STATES, state, NUMBERS, quiet, EVENTS, reasons, EVENTS, tables[0], STATES, tables[1], STATES,
                                prepared, STATES, work[0], STATES, work[1], STATES, work[2], STATES, work[3], STATES, work[4], STATES);
}
static void ticks(void) { answer = groovepawn_ticks(12345, 100, 1); }
static void wave_write(void) { text_length = (answer = groovepawn_wave_write(file, length, restless, EVENTS, text, TEXT)) >> 8; }
static void wave_read(void) { answer = groovepawn_wave_read(file, length, text, text_length, events, EVENTS); }
static void build(void) { answer = groovepawn_index(file, length, index_of_file, INDEX); }
static void input_indexed(void) { answer = groovepawn_input_indexed(reading, file, length, index_of_file, INDEX, marks, STATES, state, NUMBERS, 0); }
static void output_indexed(void) { answer = groovepawn_output_indexed(reading, file, length, index_of_file, INDEX, marks, STATES, state, NUMBERS, 15, 0); }

static void bays_new(void) { answer = groovepawn_bays_new(bays, BAYS * NUMBERS); }
static void bay_input(void) { answer = groovepawn_bay_input(reading, file, length, marks, STATES, bays, BAYS * NUMBERS, BAYS - 1, 0); }
static void bay_output(void) { answer = groovepawn_bay_output(reading, file, length, marks, STATES, bays, BAYS * NUMBERS, BAYS - 1, 15, 0); }
static void meter_new(void) { answer = groovepawn_meter_new(station, STATION, totals, TOTALS, 65530); }
static void meter_input(void) { answer = groovepawn_meter_input(reading, file, length, marks, STATES, station, STATION, 4, 0); }
static void meter_output(void) { answer = groovepawn_meter_output(reading, file, length, marks, STATES, station, STATION, totals, TOTALS, 4, 15, 0); }

/* The text is that of the policy: its last rule, signal, clock and location are asked for. */
static void text_write(void) { policy_text_length = (answer = groovepawn_text_write(file, length, policy_text, sizeof policy_text)) >> 8; }
static void text_read(void) { answer = groovepawn_text_read(policy_text, policy_text_length, joined, sizeof joined); }
static void text_line_of_rule(void) { answer = groovepawn_text_line_of_rule(policy_text, policy_text_length, RULES - 1); }
static void text_name_of_signal(void) { answer = groovepawn_text_name_of_signal(policy_text, policy_text_length, 7); }
static void text_name_of_clock(void) { answer = groovepawn_text_name_of_clock(policy_text, policy_text_length, 3); }
static void text_name_of_location(void) { answer = groovepawn_text_name_of_location(policy_text, policy_text_length, 1); }

static const struct { const char *name; void (*call)(void); } calls[] = {
    {"groovepawn_check", check}, {"groovepawn_prepare", prepare}, {"groovepawn_prepare_fast", prepare_fast}, {"groovepawn_index", build},
    {"groovepawn_input", input}, {"groovepawn_output", output}, {"groovepawn_run", run},
    {"groovepawn_input_indexed", input_indexed}, {"groovepawn_output_indexed", output_indexed},
    {"groovepawn_bays_new", bays_new}, {"groovepawn_bay_input", bay_input}, {"groovepawn_bay_output", bay_output},
    {"groovepawn_meter_new", meter_new}, {"groovepawn_meter_input", meter_input}, {"groovepawn_meter_output", meter_output},
    {"groovepawn_join", join}, {"groovepawn_clean", clean}, {"groovepawn_why", why}, {"groovepawn_why_run", why_run},
    {"groovepawn_ticks", ticks},
    {"groovepawn_wave_write", wave_write}, {"groovepawn_wave_read", wave_read},
    {"groovepawn_text_write", text_write}, {"groovepawn_text_read", text_read}, {"groovepawn_text_line_of_rule", text_line_of_rule},
    {"groovepawn_text_name_of_signal", text_name_of_signal}, {"groovepawn_text_name_of_clock", text_name_of_clock},
    {"groovepawn_text_name_of_location", text_name_of_location},
};
enum { CALLS = sizeof calls / sizeof *calls };

#ifdef __linux__
static void *on_the_stack(void *call) {
    (*(void (**)(void))call)();
    return NULL;
}

static size_t used(void (*call)(void)) {
    pthread_attr_t attributes;
    pthread_t thread;
    memset(stack, PAINT, STACK);
    pthread_attr_init(&attributes);
    pthread_attr_setstack(&attributes, stack, STACK);
    pthread_create(&thread, &attributes, on_the_stack, &call);
    pthread_join(thread, NULL);
    size_t untouched = 0;
    while (untouched < STACK && stack[untouched] == PAINT) untouched++;
    return STACK - untouched;
}
#else
extern uint8_t stack_bottom[];

/* Whatever is below the stack pointer is painted, and then looked at: no interrupt comes between. */
static __attribute__((noinline)) size_t used(void (*call)(void)) {
    uint8_t *top;
#ifdef __riscv
    __asm volatile("mv %0, sp" : "=r"(top));
#else
    __asm volatile("mov %0, sp" : "=r"(top));
#endif
    for (volatile uint8_t *byte = stack_bottom; byte < top; byte++) *byte = PAINT;
    call();
    uint8_t *untouched = stack_bottom;
    while (untouched < top && *untouched == PAINT) untouched++;
    return (size_t)(top - untouched);
}
#endif

int main(void) {
    size_t most[CALLS] = {0};
    size_t none = used(nothing);
    for (int i = 0; i < EVENTS; i++) restless[i] = i % 2 ? 0xFF : 0;
    for (int policy = 0; policy < 2; policy++) {
        for (reading = 1; reading <= 2; reading++) {
            (policy ? barred : nested)();
            for (int i = 0; i < CALLS; i++) {
                memset(state, 0, sizeof state);
                size_t bytes = used(calls[i].call) - none;
                if (most[i] < bytes) most[i] = bytes;
                if (answer & 255) printf("%s refused %d\n", calls[i].name, (int)(answer & 255));
            }
        }
    }
    for (int i = 0; i < CALLS; i++) printf("%-32s %6lu bytes\n", calls[i].name, (unsigned long)most[i]);
    return 0;
}
