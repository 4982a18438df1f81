/*
 * A controller's loop over the policy "after R, C at latest on the fourth tick", under reading 1. The controller never gives C by itself.
 * Then the same ticks in one call, under each reading; and once more tick by tick, with an index that is built once.
 *
 * Each answer is looked at before anything is made of it. On a refusal the loop puts out what is safe and stops: a refused input half gives no x',
 * so the output half is not called. With the marks of prepare this loop is never refused; called with an argument, it clears them after the third
 * tick, as a fault of the memory would, to show what happens then.
 */
#include <stdio.h>
#include <string.h>

#include "groovepawn_policy.h"

static const uint8_t file[] = {
    1, 'R',                                              /* inputs */
    1, 'C',                                              /* outputs */
    1, 0x00, 0x03,                                       /* clocks: the ceiling is 3 */
    2, 0, 0,                                             /* locations: 0 quiet, 1 waiting for C */
    0, 4,                                                /* rules */
    0x00, 1, 1, 0, 0, 1, 0x01, 0x00, 0x00, 0xff, 0xff,   /* quiet, R: now waiting, the clock at 0 */
    0x00, 0, 0, 0, 0, 1, 0x00, 0x00, 0x00, 0xff, 0xff,   /* quiet: stays so */
    0x01, 0, 0, 1, 1, 1, 0x00, 0x00, 0x00, 0xff, 0xff,   /* waiting, C: quiet again */
    0x01, 0, 0, 1, 0, 0, 0x01, 0x00, 0x00, 0x00, 0x02,   /* waiting, no C: while the clock is at most 2 */
};

/* What the sensor reads, tick by tick. */
static const uint8_t sensor[] = {1, 0, 0, 0, 0};

/* The controller, which forgets C. */
static uint8_t controller(uint8_t x)
{
    (void)x;
    return 0;
}

/* The wiring of the outputs, and what is safe there: here, all off. What is safe is for each station to say. */
#define SAFE_OUTPUT 0
static uint8_t wiring;

static void put_out(uint8_t y)
{
    wiring = y;
}

/* To be asked of every answer, before anything is made of it. */
static int refused(uint64_t answer)
{
    if (GROOVEPAWN_REFUSAL(answer) == GROOVEPAWN_NOT_REFUSED) {
        return 0;
    }
    put_out(SAFE_OUTPUT);
    printf("refused %u: output %u, stopped\n", (unsigned)GROOVEPAWN_REFUSAL(answer), (unsigned)wiring);
    return 1;
}

/* The marks belong to the reading they were made under. */
static uint8_t marks[GROOVEPAWN_MOST_STATES];

/* Five ticks by the two halves, with the marks spoilt after the third if so asked. */
static int loop(const struct groovepawn_policy *policy, int spoil)
{
    struct groovepawn_state state = GROOVEPAWN_START;

    for (size_t tick = 0; tick < sizeof sensor; tick++) {
        uint32_t input = groovepawn_policy_input(policy, &state, sensor[tick]);
        if (refused(input)) {
            return 1;
        }
        uint8_t x = (uint8_t)GROOVEPAWN_VALUE(input);
        uint8_t wanted = controller(x);
        uint32_t output = groovepawn_policy_output(policy, &state, x, wanted);
        if (refused(output)) {
            return 1;
        }
        put_out((uint8_t)GROOVEPAWN_VALUE(output));
        printf("tick %u: input %u passed as %u, output %u put out as %u, event %02X, then location %u and clock %u\n", (unsigned)(tick + 1),
               (unsigned)sensor[tick], (unsigned)x, (unsigned)wanted, (unsigned)wiring, (unsigned)(x | wiring << 4), (unsigned)state.numbers[0],
               (unsigned)state.numbers[1]);
        if (spoil && tick == 2) {
            memset(marks, 0, sizeof marks);
        }
    }
    return 0;
}

/* The same five ticks in one call: R, and four quiet ticks. */
static int run_under(uint8_t reading)
{
    static const uint8_t events[] = {0x01, 0x00, 0x00, 0x00, 0x00};
    uint8_t released[sizeof events];
    struct groovepawn_policy policy;
    struct groovepawn_state state = GROOVEPAWN_START;

    if (refused(groovepawn_policy_prepare(&policy, reading, file, sizeof file, marks, sizeof marks)) ||
        refused(groovepawn_policy_run(&policy, &state, events, released, sizeof events))) {
        return 1;
    }
    printf("reading %u:", (unsigned)reading);
    for (size_t tick = 0; tick < sizeof released; tick++) {
        printf(" %02X", (unsigned)released[tick]);
    }
    printf("\n");
    return 0;
}

/* By the halves that use an index, which is built once. */
static int loop_with_index(uint8_t reading)
{
    struct groovepawn_policy policy;
    struct groovepawn_rule_index index;
    struct groovepawn_state state = GROOVEPAWN_START;
    uint8_t released[sizeof sensor];

    if (refused(groovepawn_policy_prepare(&policy, reading, file, sizeof file, marks, sizeof marks)) ||
        refused(groovepawn_policy_index(&policy, &index))) {
        return 1;
    }
    for (size_t tick = 0; tick < sizeof sensor; tick++) {
        uint32_t input = groovepawn_policy_input_indexed(&policy, &index, &state, sensor[tick]);
        if (refused(input)) {
            return 1;
        }
        uint8_t x = (uint8_t)GROOVEPAWN_VALUE(input);
        uint32_t output = groovepawn_policy_output_indexed(&policy, &index, &state, x, controller(x));
        if (refused(output)) {
            return 1;
        }
        put_out((uint8_t)GROOVEPAWN_VALUE(output));
        released[tick] = (uint8_t)(x | wiring << 4);
    }
    printf("reading %u, by an index:", (unsigned)reading);
    for (size_t tick = 0; tick < sizeof released; tick++) {
        printf(" %02X", (unsigned)released[tick]);
    }
    printf("\n");
    return 0;
}

int main(int arguments, char **words)
{
    struct groovepawn_policy policy;

    (void)words;
    uint64_t prepared = groovepawn_policy_prepare(&policy, GROOVEPAWN_READING_AT_START, file, sizeof file, marks, sizeof marks);
    if (refused(prepared)) {
        return 1;
    }
    printf("verdict %u states %u live %u\n", (unsigned)GROOVEPAWN_VERDICT(prepared), (unsigned)GROOVEPAWN_STATES(prepared),
           (unsigned)GROOVEPAWN_LIVE(prepared));
    return loop(&policy, arguments > 1) || run_under(GROOVEPAWN_READING_AT_START) || run_under(GROOVEPAWN_READING_AFTER_COUNTING) ||
           loop_with_index(GROOVEPAWN_READING_AFTER_COUNTING);
}
