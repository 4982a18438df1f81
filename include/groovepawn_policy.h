/*
 * groovepawn_policy.h: shorter calls over the functions of groovepawn.h.
 *
 * What goes together in each call stands in one struct: a policy is its reading, its file and its marks. States, bays and stations are structs too, so
 * that no length can be wrong. Each function here is one call of the function of groovepawn.h that it names, with the same answer: what that one
 * says of refusals, of what is written and of slices that must not overlap holds here as well. Nothing else is done, and nothing is kept.
 *
 *     static uint8_t marks[GROOVEPAWN_MOST_STATES];
 *     struct groovepawn_policy policy;
 *     struct groovepawn_state state = GROOVEPAWN_START;
 *
 *     once:       answer = groovepawn_policy_prepare(&policy, 1, file, sizeof file, marks, sizeof marks);
 *     each tick:  answer = groovepawn_policy_input(&policy, &state, x);
 *                 answer = groovepawn_policy_output(&policy, &state, x_passed_on, y);
 *
 * Marks that were made before, at a desk for instance, may be constant: then fill in the five fields, with the reading they were made under.
 * These functions are plain C and not proved; they are compiled into the file that includes this one.
 */
#ifndef GROOVEPAWN_POLICY_H
#define GROOVEPAWN_POLICY_H

#include "groovepawn.h"

#ifdef __cplusplus
extern "C" {
#endif

/* A policy that was prepared: what its halves go by. The bytes stay the caller's. No pointer is NULL. */
struct groovepawn_policy {
    uint8_t reading;
    const uint8_t *file;
    size_t file_len;
    const uint8_t *marks;
    size_t marks_len;
};

/* The location, then the four clock values. */
struct groovepawn_state {
    uint16_t numbers[GROOVEPAWN_STATE_LEN];
};
#define GROOVEPAWN_START {{0, 0, 0, 0, 0}}

/* The states of 1 to 8 bays, of which the first count are in use. */
struct groovepawn_bays {
    size_t count;
    uint16_t states[GROOVEPAWN_MOST_BAYS * GROOVEPAWN_STATE_LEN];
};

/* A station with a meter: its state and the register as last accepted; the pulses billed, the pulses not billed. */
struct groovepawn_station {
    uint16_t numbers[GROOVEPAWN_STATION_LEN];
    uint32_t totals[GROOVEPAWN_TOTALS_LEN];
};

/* The first rule of each location and how many it has. */
struct groovepawn_rule_index {
    uint16_t numbers[GROOVEPAWN_INDEX_LEN];
};

/* groovepawn_prepare. The policy is filled in whatever the answer is; with a refusal its marks are not those of a policy that can be enforced. */
GROOVEPAWN_LOOK_AT_ANSWER
static inline uint64_t groovepawn_policy_prepare(struct groovepawn_policy *policy, uint8_t reading, const uint8_t *file, size_t file_len,
                                                 uint8_t *marks, size_t marks_len)
{
    policy->reading = reading;
    policy->file = file;
    policy->file_len = file_len;
    policy->marks = marks;
    policy->marks_len = marks_len;
    return groovepawn_prepare(reading, file, file_len, marks, marks_len);
}

/* groovepawn_input */
GROOVEPAWN_LOOK_AT_ANSWER
static inline uint32_t groovepawn_policy_input(const struct groovepawn_policy *policy, const struct groovepawn_state *state, uint8_t x)
{
    return groovepawn_input(policy->reading, policy->file, policy->file_len, policy->marks, policy->marks_len, state->numbers,
                            GROOVEPAWN_STATE_LEN, x);
}

/* groovepawn_output */
GROOVEPAWN_LOOK_AT_ANSWER
static inline uint32_t groovepawn_policy_output(const struct groovepawn_policy *policy, struct groovepawn_state *state, uint8_t x, uint8_t y)
{
    return groovepawn_output(policy->reading, policy->file, policy->file_len, policy->marks, policy->marks_len, state->numbers,
                             GROOVEPAWN_STATE_LEN, x, y);
}

/* groovepawn_run, into a slice as long as the events. */
GROOVEPAWN_LOOK_AT_ANSWER
static inline uint64_t groovepawn_policy_run(const struct groovepawn_policy *policy, struct groovepawn_state *state, const uint8_t *events,
                                             uint8_t *released, size_t len)
{
    return groovepawn_run(policy->reading, policy->file, policy->file_len, policy->marks, policy->marks_len, state->numbers,
                          GROOVEPAWN_STATE_LEN, events, len, released, len);
}

/* groovepawn_index */
GROOVEPAWN_LOOK_AT_ANSWER
static inline uint32_t groovepawn_policy_index(const struct groovepawn_policy *policy, struct groovepawn_rule_index *index)
{
    return groovepawn_index(policy->file, policy->file_len, index->numbers, GROOVEPAWN_INDEX_LEN);
}

/* groovepawn_input_indexed */
GROOVEPAWN_LOOK_AT_ANSWER
static inline uint32_t groovepawn_policy_input_indexed(const struct groovepawn_policy *policy, const struct groovepawn_rule_index *index,
                                                       const struct groovepawn_state *state, uint8_t x)
{
    return groovepawn_input_indexed(policy->reading, policy->file, policy->file_len, index->numbers, GROOVEPAWN_INDEX_LEN, policy->marks,
                                    policy->marks_len, state->numbers, GROOVEPAWN_STATE_LEN, x);
}

/* groovepawn_output_indexed */
GROOVEPAWN_LOOK_AT_ANSWER
static inline uint32_t groovepawn_policy_output_indexed(const struct groovepawn_policy *policy, const struct groovepawn_rule_index *index,
                                                        struct groovepawn_state *state, uint8_t x, uint8_t y)
{
    return groovepawn_output_indexed(policy->reading, policy->file, policy->file_len, index->numbers, GROOVEPAWN_INDEX_LEN, policy->marks,
                                     policy->marks_len, state->numbers, GROOVEPAWN_STATE_LEN, x, y);
}

/* groovepawn_bays_new, of so many bays. With a count that is not 1 to 8 there is no bay, and the answer is 25. */
GROOVEPAWN_LOOK_AT_ANSWER
static inline uint32_t groovepawn_policy_bays_new(struct groovepawn_bays *bays, size_t count)
{
    bays->count = count <= GROOVEPAWN_MOST_BAYS ? count : 0;
    return groovepawn_bays_new(bays->states, bays->count * GROOVEPAWN_STATE_LEN);
}

/* groovepawn_bay_input */
GROOVEPAWN_LOOK_AT_ANSWER
static inline uint32_t groovepawn_policy_bay_input(const struct groovepawn_policy *policy, const struct groovepawn_bays *bays, uint32_t bay,
                                                   uint8_t x)
{
    return groovepawn_bay_input(policy->reading, policy->file, policy->file_len, policy->marks, policy->marks_len, bays->states,
                                bays->count * GROOVEPAWN_STATE_LEN, bay, x);
}

/* groovepawn_bay_output */
GROOVEPAWN_LOOK_AT_ANSWER
static inline uint32_t groovepawn_policy_bay_output(const struct groovepawn_policy *policy, struct groovepawn_bays *bays, uint32_t bay, uint8_t x,
                                                    uint8_t y)
{
    return groovepawn_bay_output(policy->reading, policy->file, policy->file_len, policy->marks, policy->marks_len, bays->states,
                                 bays->count * GROOVEPAWN_STATE_LEN, bay, x, y);
}

/* groovepawn_meter_new. It is never refused: the lengths are right. */
static inline void groovepawn_policy_meter_new(struct groovepawn_station *station, uint16_t reading_of_register)
{
    uint32_t answer = groovepawn_meter_new(station->numbers, GROOVEPAWN_STATION_LEN, station->totals, GROOVEPAWN_TOTALS_LEN, reading_of_register);
    (void)answer;
}

/* groovepawn_meter_input */
GROOVEPAWN_LOOK_AT_ANSWER
static inline uint32_t groovepawn_policy_meter_input(const struct groovepawn_policy *policy, const struct groovepawn_station *station,
                                                     uint16_t reading_of_register, uint8_t x)
{
    return groovepawn_meter_input(policy->reading, policy->file, policy->file_len, policy->marks, policy->marks_len, station->numbers,
                                  GROOVEPAWN_STATION_LEN, reading_of_register, x);
}

/* groovepawn_meter_output */
GROOVEPAWN_LOOK_AT_ANSWER
static inline uint32_t groovepawn_policy_meter_output(const struct groovepawn_policy *policy, struct groovepawn_station *station,
                                                      uint16_t reading_of_register, uint8_t x, uint8_t y)
{
    return groovepawn_meter_output(policy->reading, policy->file, policy->file_len, policy->marks, policy->marks_len, station->numbers,
                                   GROOVEPAWN_STATION_LEN, station->totals, GROOVEPAWN_TOTALS_LEN, reading_of_register, x, y);
}

/* groovepawn_why: a tool, with 1.25 MB of stack. */
GROOVEPAWN_LOOK_AT_ANSWER
static inline uint64_t groovepawn_policy_why(const struct groovepawn_policy *policy, const struct groovepawn_state *state, uint8_t x, uint8_t y)
{
    return groovepawn_why(policy->reading, policy->file, policy->file_len, policy->marks, policy->marks_len, state->numbers,
                          GROOVEPAWN_STATE_LEN, x, y);
}

#ifdef __cplusplus
}
#endif

#endif
