/*
 * Three filling bays under one policy, "after R, C at latest on the fourth tick", with one set of marks and a list of three states. R comes to each
 * bay at another tick, and no controller ever gives C by itself: in each bay the fourth tick after its R is corrected.
 */
#include <stdio.h>

#include "groovepawn_policy.h"

static const uint8_t file[] = {
    1, 'R',                                              /* inputs */
    1, 'C',                                              /* outputs */
    1, 0x00, 0x03,                                       /* clocks: the ceiling is 3 */
    2, 0, 0,                                             /* locations: 0 quiet, 1 waiting for C */
    0, 4,                                                /* rules */
    0x00, 1, 1, 0, 0, 1, 0x01, 0x00, 0x00, 0xff, 0xff,   /* quiet, R: now waiting, the clock at 0 */
    0x00, 0, 0, 0, 0, 1, 0x00, 0x00, 0x00, 0xff, 0xff,   /* quiet: stays so */
    0x01, 0, 0, 1, 1, 1, 0x00, 0x00, 0x00, 0xff, 0xff,   /* waiting, C: quiet again */
    0x01, 0, 0, 1, 0, 0, 0x01, 0x00, 0x00, 0x00, 0x02,   /* waiting, no C: while the clock is at most 2 */
};

#define BAYS 3
#define TICKS 8

/* What the sensor of each bay reads, tick by tick: bay 2 never sees R. */
static const uint8_t sensor[BAYS][TICKS] = {
    {1, 0, 0, 0, 0, 0, 0, 0},
    {0, 0, 1, 0, 0, 0, 0, 0},
    {0, 0, 0, 0, 0, 0, 0, 0},
};

/* The controller of each bay, which forgets C. */
static uint8_t controller(uint32_t bay, uint8_t x)
{
    (void)bay;
    (void)x;
    return 0;
}

/* The outputs of each bay as the wiring has them. What is safe is for each station to say: here, all off. */
#define SAFE_OUTPUT 0
static uint8_t wiring[BAYS];

static void put_out(uint32_t bay, uint8_t y)
{
    wiring[bay] = y;
}

/* To be asked of every answer, before anything is made of it. On a refusal this station stops all bays: they share the policy and the marks. */
static int refused(uint64_t answer)
{
    if (GROOVEPAWN_REFUSAL(answer) == GROOVEPAWN_NOT_REFUSED) {
        return 0;
    }
    for (uint32_t bay = 0; bay < BAYS; bay++) {
        put_out(bay, SAFE_OUTPUT);
    }
    printf("refused %u: all bays stopped\n", (unsigned)GROOVEPAWN_REFUSAL(answer));
    return 1;
}

static uint8_t marks[GROOVEPAWN_MOST_STATES];

int main(void)
{
    struct groovepawn_policy policy;
    struct groovepawn_bays bays;
    uint8_t released[BAYS][TICKS];

    if (refused(groovepawn_policy_prepare(&policy, GROOVEPAWN_READING_AT_START, file, sizeof file, marks, sizeof marks)) ||
        refused(groovepawn_policy_bays_new(&bays, BAYS))) {
        return 1;
    }
    for (size_t tick = 0; tick < TICKS; tick++) {
        for (uint32_t bay = 0; bay < BAYS; bay++) {
            uint32_t input = groovepawn_policy_bay_input(&policy, &bays, bay, sensor[bay][tick]);
            if (refused(input)) {
                return 1;
            }
            uint8_t x = (uint8_t)GROOVEPAWN_VALUE(input);
            uint32_t output = groovepawn_policy_bay_output(&policy, &bays, bay, x, controller(bay, x));
            if (refused(output)) {
                return 1;
            }
            put_out(bay, (uint8_t)GROOVEPAWN_VALUE(output));
            released[bay][tick] = (uint8_t)(x | wiring[bay] << 4);
        }
    }
    for (uint32_t bay = 0; bay < BAYS; bay++) {
        printf("bay %u:", (unsigned)bay);
        for (size_t tick = 0; tick < TICKS; tick++) {
            printf(" %02X", (unsigned)released[bay][tick]);
        }
        printf("\n");
    }
    return 0;
}
