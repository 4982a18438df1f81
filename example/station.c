/*
 * A transfer station: a meter's register of 16 bits, a valve that the output D opens, and a controller between the two halves of a tick. The policy
 * says that the valve is never open while the emergency input E is on. The register rolls over on the way, and what leaks while the valve is shut is
 * counted too, but not billed.
 */
#include <stdio.h>

#include "groovepawn_policy.h"

static const uint8_t file[] = {
    2, 'E', 'P',                        /* inputs: emergency, pulses */
    1, 'D',                             /* outputs: delivery */
    0,                                  /* no clocks */
    1, 0,                               /* one location */
    0, 2,                               /* rules */
    0x00, 1, 1, 1, 1, 0, 0xff,          /* E with D: the violation */
    0x00, 0, 0, 0, 0, 0, 0x00,          /* all else */
};

#define EMERGENCY 1
#define DELIVERY 1

/* The register as it is read, tick by tick: it rolls over after the second tick. */
static const uint16_t meter[] = {65500, 65530, 4, 30, 33, 33};
/* The emergency input. */
static const uint8_t sensor[] = {0, 0, 0, 0, EMERGENCY, 0};

/* The controller keeps the valve open, except on the first and the last tick. */
static uint8_t controller(size_t tick)
{
    return tick == 0 || tick + 1 == sizeof sensor ? 0 : DELIVERY;
}

/* The valve as the wiring has it. What is safe is for each station to say: here, shut. */
#define SAFE_OUTPUT 0
static uint8_t valve;

static void put_out(uint8_t y)
{
    valve = y;
}

/* To be asked of every answer, before anything is made of it. A refused tick has changed no total, no register and no state. */
static int refused(uint64_t answer)
{
    if (GROOVEPAWN_REFUSAL(answer) == GROOVEPAWN_NOT_REFUSED) {
        return 0;
    }
    put_out(SAFE_OUTPUT);
    printf("refused %u: valve %u, stopped\n", (unsigned)GROOVEPAWN_REFUSAL(answer), (unsigned)valve);
    return 1;
}

static uint8_t marks[GROOVEPAWN_MOST_STATES];

int main(void)
{
    struct groovepawn_policy policy;
    struct groovepawn_station station;

    if (refused(groovepawn_policy_prepare(&policy, GROOVEPAWN_READING_AT_START, file, sizeof file, marks, sizeof marks))) {
        return 1;
    }
    groovepawn_policy_meter_new(&station, 65490);
    for (size_t tick = 0; tick < sizeof sensor; tick++) {
        uint32_t input = groovepawn_policy_meter_input(&policy, &station, meter[tick], sensor[tick]);
        if (refused(input)) {
            return 1;
        }
        uint8_t x = (uint8_t)GROOVEPAWN_VALUE(input);
        uint32_t output = groovepawn_policy_meter_output(&policy, &station, meter[tick], x, controller(tick));
        if (refused(output)) {
            return 1;
        }
        put_out((uint8_t)GROOVEPAWN_VALUE(output));
        printf("tick %u: register %u, input %u, valve %u, billed %lu, unbilled %lu\n", (unsigned)(tick + 1), (unsigned)meter[tick], (unsigned)x,
               (unsigned)valve, (unsigned long)station.totals[0], (unsigned long)station.totals[1]);
    }
    return 0;
}
