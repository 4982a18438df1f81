/*
 * groovepawn.h: the entries of libgroovepawn.a for a controller in C or C++.
 *
 * Once: groovepawn_prepare checks a policy and marks the states that have a future.
 * Each tick: read the input x, hand it to groovepawn_input, and act on the x' that comes back; then hand that x' and your answer y to
 * groovepawn_output, and put out the y' that comes back. groovepawn_run does the same for many ticks at once.
 * Look at the refusal of each answer before you use what stands above it: example/ shows a loop that does, and what it does on a refusal.
 * groovepawn_policy.h, beside this file, has shorter calls over the same functions.
 *
 * Slices. Each pointer is followed by its length, in elements. It points to that many elements, is never NULL, not even where the length is 0, and
 * is aligned for its type. A slice that is not const is written: it overlaps no other slice of the same call, and nothing else touches it during the
 * call. No call keeps a pointer or anything else, so that calls over different slices may run at the same time. Every call checks the bytes that it
 * is given anew, whatever they are, and always returns.
 *
 *   file    the policy file: at most 5,974 bytes
 *   marks   one byte for each state, 1 live and 0 not: 65,536 bytes are always enough, and those past the number of states stay. groovepawn_check
 *           says how many a policy has: its locations times the product of (ceiling + 1) over its clocks
 *   state   five numbers: the location, then the four clock values, unused ones 0. The start state is { 0, 0, 0, 0, 0 }
 *   x, y    an input, an output: bit 0 is the first signal of its section of the file
 *   event   one byte: input x in the low four bits, output y in the high four
 *   text    a wave: a Value Change Dump (IEEE 1364) of a stream. 508,119 bytes are always enough. Of a function groovepawn_text_..: a policy as text
 *           (docs/POLICY-TEXT.md), and 39,420 bytes are always enough for one that is written
 *   states  a list of bays: five numbers for each of 1 to 8 bays, one bay after the other
 *   station six numbers of 16 bits or more: a state, then the meter's register as last accepted; what stands past them stays
 *   totals  two numbers of 32 bits or more: the pulses billed, the pulses not billed; what stands past them stays
 *   work    scratch of the second engine: one number of 16 bits for each state, 65,536 are always enough
 *   reasons one number of 64 bits for each event of groovepawn_why_run; ticks, rests and prepared are scratch of its own, with an entry for each state
 *   index   128 numbers: for each of 64 locations the number of its first rule, counted from 0, and how many rules it has
 *
 * Readings. Contracts read a deadline in two ways, and the caller names one, by the number 1 or 2, as the first argument:
 *
 *   reading 1   the clock is read at the start of a tick: bounds are tested against its value then
 *   reading 2   the clock is read after the tick is counted: bounds are tested against that value plus one, stopped at the ceiling
 *
 * The rest is the same: after the tick each clock is 0, or one above its value at the start and no further than its ceiling. Joins carry no reading
 * of their own: the joined file read in one way is the join of its parts read in that way. Marks belong to the reading they were made under. With
 * marks of the other reading groovepawn_input, groovepawn_output and groovepawn_run answer by the marks as given; that the policy is enforced is
 * then not promised, and 17 may come. So name one reading for a policy, and keep to it.
 *
 * Answers. The low eight bits are the number of a refusal, or 0 for none; the fields above hold then. With a refusal they are 0, except for the count
 * of groovepawn_run. With a refusal nothing is written, with these exceptions: refusal 11 of groovepawn_prepare and of groovepawn_prepare_fast
 * leaves the marks as success does, and the work slices of the second with anything in them, as 20 and 15 leave those of groovepawn_why_run;
 * refusal 17 of groovepawn_run leaves the events released before it, and the state there. The refusals and their words are the enum groovepawn_refusal below.
 *
 * Where several hold, the first in this order is given: 22, 1 to 9 as they come in the file, 26 or 28, 10, 23 or 24, 11, 14, 16, 20, 15, 17, 27. A join
 * asks 1 to 9 of its first file, then of its second, then 12, 13, 14. A conversion asks 18, then 19. After 1 to 9 the writer of waves asks 29, 15,
 * 14, their reader 21, 14. The text of a policy is read line by line, and the first line that breaks a rule gives 4, 7 or one of 30 to 34; then come
 * 2, 9, and at last 14 or 35. Each function's own order stands with it. With the marks of groovepawn_prepare under the same reading and a live
 * state, groovepawn_input and groovepawn_run never give 17.
 *
 * Stack. Each function says what it was seen to use, in the archive as it is compiled for x86-64 (tools/stack.c); these are readings and no promise.
 * It is less than 2.5 KiB for each but these, which are tools and no part of a station's loop: groovepawn_clean (67,129 bytes), groovepawn_why
 * (1,247,432), groovepawn_why_run (2,872), groovepawn_text_read (7,400), groovepawn_text_line_of_rule (7,464),
 * groovepawn_text_name_of_signal (7,544), groovepawn_text_name_of_clock (7,544), groovepawn_text_name_of_location (7,544). No heap and
 * no global data.
 */
#ifndef GROOVEPAWN_H
#define GROOVEPAWN_H

#include <stddef.h>
#include <stdint.h>

/* The version of what this file declares. The first number rises when something goes or means something else, the second when something is added. */
#define GROOVEPAWN_VERSION_MAJOR 1
#define GROOVEPAWN_VERSION_MINOR 2
#define GROOVEPAWN_VERSION_PATCH 0
#define GROOVEPAWN_VERSION (GROOVEPAWN_VERSION_MAJOR * 10000 + GROOVEPAWN_VERSION_MINOR * 100 + GROOVEPAWN_VERSION_PATCH)

/* Stands before each function: gcc and clang warn where an answer is thrown away. Elsewhere it is empty; you may define it before this file. */
#ifndef GROOVEPAWN_LOOK_AT_ANSWER
#if defined(__GNUC__) || defined(__clang__)
#define GROOVEPAWN_LOOK_AT_ANSWER __attribute__((warn_unused_result))
#else
#define GROOVEPAWN_LOOK_AT_ANSWER
#endif
#endif

/* The two readings of a deadline. */
#define GROOVEPAWN_READING_AT_START 1
#define GROOVEPAWN_READING_AFTER_COUNTING 2

/* How many numbers a state, a station with a meter, its totals and an index have. */
#define GROOVEPAWN_STATE_LEN 5
#define GROOVEPAWN_STATION_LEN 6
#define GROOVEPAWN_TOTALS_LEN 2
#define GROOVEPAWN_INDEX_LEN 128

/* The most that there can be: so many elements are always enough for a slice. */
#define GROOVEPAWN_MOST_FILE_BYTES 5974
#define GROOVEPAWN_MOST_STATES 65536
#define GROOVEPAWN_MOST_BAYS 8
#define GROOVEPAWN_MOST_EVENTS_OF_A_WAVE 16384
#define GROOVEPAWN_MOST_TEXT_BYTES 508119
#define GROOVEPAWN_MOST_STRUCK_BYTES 957
#define GROOVEPAWN_MOST_POLICY_TEXT_BYTES 39420
#define GROOVEPAWN_MOST_NAME_BYTES 16

/* The refusals. */
enum groovepawn_refusal {
    GROOVEPAWN_NOT_REFUSED = 0,
    GROOVEPAWN_REFUSED_CUT_SHORT = 1,         /* a count or its section is cut short */
    GROOVEPAWN_REFUSED_COUNT = 2,             /* a count is outside its limits */
    GROOVEPAWN_REFUSED_TAG = 3,               /* a tag is not A to Z or is repeated */
    GROOVEPAWN_REFUSED_CEILING = 4,           /* a ceiling is 0 or above 1,001 */
    GROOVEPAWN_REFUSED_LOCATION = 5,          /* a location byte is above 1 */
    GROOVEPAWN_REFUSED_RULE = 6,              /* a rule's first seven bytes break the rules of the file */
    GROOVEPAWN_REFUSED_BOUNDS = 7,            /* a rule's bounds break them */
    GROOVEPAWN_REFUSED_LEFT_OVER = 8,         /* bytes are left over */
    GROOVEPAWN_REFUSED_TOO_MANY_STATES = 9,   /* more than 65,536 states */
    GROOVEPAWN_REFUSED_MARKS_SHORT = 10,      /* the mark slice is shorter than the number of states */
    GROOVEPAWN_REFUSED_HOPELESS = 11,         /* the start is not live */
    GROOVEPAWN_REFUSED_OTHER_SIGNALS = 12,    /* two policies differ in signal tags or their order */
    GROOVEPAWN_REFUSED_JOIN_TOO_LARGE = 13,   /* a join has over 64 locations, 4 clocks, 256 rules or 65,536 states */
    GROOVEPAWN_REFUSED_SLICE_SHORT = 14,      /* the slice to be written is too short */
    GROOVEPAWN_REFUSED_BEYOND_SIGNALS = 15,   /* an event, x or y has a bit beyond its signals */
    GROOVEPAWN_REFUSED_STATE = 16,            /* a state is not five numbers, has a location or clock value out of range, an unused clock not 0, or */
                                              /* a mark other than 1 */
    GROOVEPAWN_REFUSED_NO_WAY_ON = 17,        /* no input, or for the given x' no output, reaches a state marked 1 */
    GROOVEPAWN_REFUSED_TICK_LENGTH = 18,      /* the tick length is 0 */
    GROOVEPAWN_REFUSED_TICK_COUNT = 19,       /* the tick count is above 1,000 */
    GROOVEPAWN_REFUSED_OTHER_MARKS = 20,      /* the marks are not those of groovepawn_prepare under this reading */
    GROOVEPAWN_REFUSED_TEXT = 21,             /* a text is not one that groovepawn_wave_write makes, or holds a time above 16,384 */
    GROOVEPAWN_REFUSED_READING = 22,          /* the reading is neither 1 nor 2 */
    GROOVEPAWN_REFUSED_WORK_SHORT = 23,       /* a work slice has fewer entries than there are states */
    GROOVEPAWN_REFUSED_NO_SUCH_BAY = 24,      /* the list has no such bay */
    GROOVEPAWN_REFUSED_BAYS = 25,             /* a list of bays is not five numbers for each of 1 to 8 bays */
    GROOVEPAWN_REFUSED_NO_METER_SIGNALS = 26, /* the policy has no input P or no output D */
    GROOVEPAWN_REFUSED_TOTAL_FULL = 27,       /* a total would pass 4,294,967,295 */
    GROOVEPAWN_REFUSED_INDEX = 28,            /* the index is not that of the file, or not 128 numbers */
    GROOVEPAWN_REFUSED_TOO_MANY_EVENTS = 29,  /* a stream to be written as a wave has over 16,384 events */
    GROOVEPAWN_REFUSED_LINE = 30,             /* a line or a word of a policy's text is not of the form, or comes in the wrong place */
    GROOVEPAWN_REFUSED_NAME = 31,             /* a name or letter is taken, unknown, or said twice in one rule */
    GROOVEPAWN_REFUSED_NUMBER = 32,           /* a number is above 65,535 */
    GROOVEPAWN_REFUSED_NO_ROOM = 33,          /* there are more of something than a file has room for */
    GROOVEPAWN_REFUSED_AT_BEFORE = 34,        /* an `at` names a location that stands before the one named last */
    GROOVEPAWN_REFUSED_NO_SUCH = 35           /* the text has no rule, signal, clock or location of this number */
};

/* The kinds of a reason of groovepawn_why. */
enum groovepawn_reason {
    GROOVEPAWN_NOT_EDITED = 0,
    GROOVEPAWN_RULE_FORBIDS = 1,   /* the rule of this number sent it to 255 */
    GROOVEPAWN_NO_RULE_MATCHES = 2,
    GROOVEPAWN_TICKS_LEFT = 3,     /* the stream could have gone on for at most so many more ticks after it */
    GROOVEPAWN_RESTS_LEFT = 4      /* the stream could have gone on for ever, with at most so many later events ending at rest */
};

/* The kinds of what groovepawn_clean strikes out. */
enum groovepawn_struck {
    GROOVEPAWN_STRUCK_LOCATION = 1, /* a location that no permitted stream from the start leads to */
    GROOVEPAWN_STRUCK_WITH_IT = 2,  /* a rule of such a location */
    GROOVEPAWN_STRUCK_RULE = 3      /* another rule that decides no event in any state that such a stream leads to */
};

#ifdef __cplusplus
extern "C" {
#endif

/* The number of a refusal, 0 for none; and what stands above it. */
#define GROOVEPAWN_REFUSAL(answer) ((answer) & 0xff)
#define GROOVEPAWN_VALUE(answer) ((answer) >> 8)

/* The three numbers of groovepawn_prepare. */
#define GROOVEPAWN_VERDICT(answer) (((answer) >> 8) & 0xff)
#define GROOVEPAWN_STATES(answer) (((answer) >> 16) & 0xffffff)
#define GROOVEPAWN_LIVE(answer) ((answer) >> 40)

/* The reasons of groovepawn_why: for the input, for the output. */
#define GROOVEPAWN_INPUT_KIND(answer) (((answer) >> 8) & 0xff)
#define GROOVEPAWN_INPUT_NUMBER(answer) (((answer) >> 16) & 0xffff)
#define GROOVEPAWN_OUTPUT_KIND(answer) (((answer) >> 32) & 0xff)
#define GROOVEPAWN_OUTPUT_NUMBER(answer) ((answer) >> 40)

/* The two lengths of groovepawn_clean. */
#define GROOVEPAWN_LENGTH(answer) (((answer) >> 8) & 0xffffff)
#define GROOVEPAWN_LIST_LENGTH(answer) ((answer) >> 32)

/* A line or the place of a name in a policy's text, and the length of a file or of a name. Lines are counted from 1,
 * places from 0; both are held modulo 2 to the 32nd. */
#define GROOVEPAWN_TEXT_LINE(answer) (((answer) >> 8) & 0xffffffffu)
#define GROOVEPAWN_TEXT_PLACE(answer) (((answer) >> 8) & 0xffffffffu)
#define GROOVEPAWN_TEXT_LENGTH(answer) ((answer) >> 40)

/*
 * Checks the policy alone, and says how many states it has: so many marks are enough for it, under either reading.
 * Refusals in this order: 1 to 9, as they come in the file. Stack: 328 bytes.
 * Returns refusal | states << 8. Nothing is written.
 */
GROOVEPAWN_LOOK_AT_ANSWER
uint64_t groovepawn_check(const uint8_t *file, size_t file_len);

/*
 * Checks the policy and writes one mark for each state, under the reading named.
 * Refusals in this order: 22, 1 to 9, 10, 11. Stack: 1,257 bytes.
 * Returns refusal | verdict << 8 | states << 16 | live << 40: how many states there are and how many are live.
 * Verdict 0: every state that some permitted stream from the start leads to is live. Verdict 1: the start is live and one such state is not.
 * Refusal 22 and refusals 1 to 10 leave marks as it was. Refusal 11 leaves it as success does.
 */
GROOVEPAWN_LOOK_AT_ANSWER
uint64_t groovepawn_prepare(uint8_t reading, const uint8_t *file, size_t file_len, uint8_t *marks, size_t marks_len);

/*
 * The input half of a tick: the input x' to act on. It is x where some output then leads to a state marked 1, else the input of this kind that
 * differs from x in the fewest bits; among equals, at the first signal in which two differ, the one that leaves that signal as read.
 * Refusals in this order: 22, 1 to 9, 10, 16, 15, 17. Stack: 1,176 bytes.
 * Returns refusal | x' << 8. Nothing is written: the state moves with the output half.
 */
GROOVEPAWN_LOOK_AT_ANSWER
uint32_t groovepawn_input(uint8_t reading, const uint8_t *file, size_t file_len, const uint8_t *marks, size_t marks_len, const uint16_t *state,
                          size_t state_len, uint8_t x);

/*
 * The output half of a tick, given the x' of the input half and the controller's answer y: the output y' to put out, chosen
 * likewise among the outputs that with x' lead to a state marked 1.
 * Refusals in this order: 22, 1 to 9, 10, 16, 15, 17. Stack: 1,398 bytes.
 * Returns refusal | y' << 8. The state becomes the next one; with a refusal it stays as given.
 */
GROOVEPAWN_LOOK_AT_ANSWER
uint32_t groovepawn_output(uint8_t reading, const uint8_t *file, size_t file_len, const uint8_t *marks, size_t marks_len, uint16_t *state,
                           size_t state_len, uint8_t x, uint8_t y);

/*
 * Many ticks: for each event one is released.
 * Refusals in this order: 22, 1 to 9, 10, 14 (released is shorter than events), 16, 15, 17. Stack: 1,096 bytes.
 * Returns refusal | count << 8: how many events were released. (The count is held modulo 2 to the 56th, which no slice reaches.)
 * The state becomes the one after the events released, and these stand in front in released, whose other bytes stay.
 * That is so with refusal 17 too: the run stops before the event that it cannot answer. With every other refusal the count is 0, and state and
 * released stay as given.
 */
GROOVEPAWN_LOOK_AT_ANSWER
uint64_t groovepawn_run(uint8_t reading, const uint8_t *file, size_t file_len, const uint8_t *marks, size_t marks_len, uint16_t *state,
                        size_t state_len, const uint8_t *events, size_t events_len, uint8_t *released, size_t released_len);

/*
 * Joins two policies over the same signals into one that asks what both ask.
 * Refusals in this order: 1 to 9 of a, 1 to 9 of b, 12, 13, 14. Stack: 712 bytes.
 * Returns refusal | length << 8: how many bytes of out the joined file takes; the other bytes stay. 5,974 bytes are always enough.
 * With a refusal out stays as given. A joined file is a policy like any other, to be handed to groovepawn_prepare under either reading.
 */
GROOVEPAWN_LOOK_AT_ANSWER
uint64_t groovepawn_join(const uint8_t *a, size_t a_len, const uint8_t *b, size_t b_len, uint8_t *out, size_t out_len);

/*
 * A time in milliseconds as ticks of so many milliseconds, rounded down where up is 0, else up.
 * Refusals in this order: 18, 19. Stack: none. Returns refusal | ticks << 8.
 */
GROOVEPAWN_LOOK_AT_ANSWER
uint32_t groovepawn_ticks(uint32_t milliseconds, uint32_t tick_length, uint8_t up);

/*
 * A released stream as a text for wave viewers: 100 ms for each event, and for each signal, inputs first in file order, a wire with its tag as name.
 * Refusals in this order: 1 to 9, 29, 15, 14. Stack: 456 bytes.
 * Returns refusal | length << 8: how many bytes the text takes; the other bytes stay. There is no zero byte at its end.
 * With a refusal text stays as given. The policy's rules do not matter here: no marks are taken, and a policy without a live start is not refused.
 */
GROOVEPAWN_LOOK_AT_ANSWER
uint64_t groovepawn_wave_write(const uint8_t *file, size_t file_len, const uint8_t *events, size_t events_len, uint8_t *text, size_t text_len);

/*
 * The stream of such a text. It takes exactly the texts that groovepawn_wave_write makes with this policy's signals, byte for byte, and each gives
 * the stream it was made of.
 * Refusals in this order: 1 to 9, 21, 14. Stack: 824 bytes.
 * Returns refusal | count << 8: how many events there are; they stand in front in events, whose other bytes stay. 16,384 bytes are always enough.
 * With a refusal events stays as given.
 */
GROOVEPAWN_LOOK_AT_ANSWER
uint64_t groovepawn_wave_read(const uint8_t *file, size_t file_len, const uint8_t *text, size_t text_len, uint8_t *events, size_t events_len);

/*
 * The index of a policy, to be built once and kept beside it: index[2 * l] is the number of the first rule of location l, which is always the count of
 * rules with a lower source, and index[2 * l + 1] is how many rules l has. Past the locations both are 0. It takes no reading: a file has one index.
 * Refusals in this order: 1 to 9, 14 (fewer than 128 numbers). Stack: 376 bytes.
 * Returns the refusal. The first 128 numbers are written, and those past them stay; with a refusal all stay.
 */
GROOVEPAWN_LOOK_AT_ANSWER
uint32_t groovepawn_index(const uint8_t *file, size_t file_len, uint16_t *index, size_t index_len);

/*
 * The halves of a tick with an index, so that the rules of the location need not be looked for: the same answers as groovepawn_input and
 * groovepawn_output give for the same arguments. An index that is not that of the file is refused by 28 and never followed; that each call compares
 * it costs more than it saves: see docs/C-INTERFACE.md before you choose them.
 * Refusals in this order: 22, 1 to 9, 28, 10, 16, 15, 17. Stack: 984 and 1,126 bytes.
 * Return refusal | x' << 8 and refusal | y' << 8. The first writes nothing; with a refusal of the second the state stays as given.
 */
GROOVEPAWN_LOOK_AT_ANSWER
uint32_t groovepawn_input_indexed(uint8_t reading, const uint8_t *file, size_t file_len, const uint16_t *index, size_t index_len,
                                  const uint8_t *marks, size_t marks_len, const uint16_t *state, size_t state_len, uint8_t x);
GROOVEPAWN_LOOK_AT_ANSWER
uint32_t groovepawn_output_indexed(uint8_t reading, const uint8_t *file, size_t file_len, const uint16_t *index, size_t index_len,
                                   const uint8_t *marks, size_t marks_len, uint16_t *state, size_t state_len, uint8_t x, uint8_t y);

/*
 * Makes a list of bays that share one policy and one set of marks, and starts every bay afresh: all numbers become 0.
 * Refusals: 25 for a length that is not five numbers for each of 1 to 8 bays; it leaves the numbers as given. Stack: none. Returns the refusal.
 */
GROOVEPAWN_LOOK_AT_ANSWER
uint32_t groovepawn_bays_new(uint16_t *states, size_t states_len);

/*
 * The halves of a tick of one bay, counted from 0: what groovepawn_input and groovepawn_output do with the five numbers of that bay. The numbers of
 * the other bays are neither looked at nor changed. The policy, the marks and the reading stay the same while the list lives.
 * Refusals in this order: 22, 1 to 9, 10, 24 (the bay is not below the count, or what is lent is no list), 16, 15, 17. Stack: 1,192 and 1,382 bytes.
 * Return refusal | x' << 8 and refusal | y' << 8. The first writes nothing; with a refusal of the second the list stays as given.
 */
GROOVEPAWN_LOOK_AT_ANSWER
uint32_t groovepawn_bay_input(uint8_t reading, const uint8_t *file, size_t file_len, const uint8_t *marks, size_t marks_len,
                              const uint16_t *states, size_t states_len, uint32_t bay, uint8_t x);
GROOVEPAWN_LOOK_AT_ANSWER
uint32_t groovepawn_bay_output(uint8_t reading, const uint8_t *file, size_t file_len, const uint8_t *marks, size_t marks_len,
                               uint16_t *states, size_t states_len, uint32_t bay, uint8_t x, uint8_t y);

/*
 * Sets up a station with a meter: its state is the start, the first reading of the meter's register is given, and both totals are 0.
 * Refusals: 14 if station has fewer than six numbers or totals fewer than two; both are then left as given. Stack: none. Returns the refusal.
 */
GROOVEPAWN_LOOK_AT_ANSWER
uint32_t groovepawn_meter_new(uint16_t *station, size_t station_len, uint32_t *totals, size_t totals_len, uint16_t reading_of_register);

/*
 * The halves of a tick of a station with a meter. The pulses of the tick are this register less the last accepted one, modulo 65,536.
 * groovepawn_meter_input sets the input P in x exactly when pulses is not 0, clears it otherwise, and then is groovepawn_input.
 * Refusals in this order: 22, 1 to 9, 26, 10, 16 (also for a station of fewer than six numbers), 15, 17. Stack: 1,224 bytes.
 * Returns refusal | x' << 8. Nothing is written.
 * groovepawn_meter_output takes the same register, that x' and the controller's answer y, and is groovepawn_output; then it adds the pulses to the
 * first total if the output D is on in the y' released, else to the second, and keeps the register.
 * Refusals in this order: 22, 1 to 9, 26, 10, 14 (fewer than six numbers, or fewer than two totals), 16, 15, 17, 27. Stack: 1,430 bytes.
 * Returns refusal | y' << 8. With a refusal station and totals stay as given.
 */
GROOVEPAWN_LOOK_AT_ANSWER
uint32_t groovepawn_meter_input(uint8_t reading, const uint8_t *file, size_t file_len, const uint8_t *marks, size_t marks_len,
                                const uint16_t *station, size_t station_len, uint16_t reading_of_register, uint8_t x);
GROOVEPAWN_LOOK_AT_ANSWER
uint32_t groovepawn_meter_output(uint8_t reading, const uint8_t *file, size_t file_len, const uint8_t *marks, size_t marks_len,
                                 uint16_t *station, size_t station_len, uint32_t *totals, size_t totals_len, uint16_t reading_of_register,
                                 uint8_t x, uint8_t y);

/*
 * The second engine: what groovepawn_prepare answers and writes, for every policy and both readings, and on large tables faster. It works in five
 * slices that the caller lends, each with an entry for each state or more. They may hold anything, and what they hold afterwards is not said.
 * Refusals in this order: 22, 1 to 9, 10, 23 (a work slice has fewer entries than there are states), 11. Stack: 2,248 bytes.
 * Returns what groovepawn_prepare returns. With 22, 1 to 10 and 23 neither the marks nor the work slices are written; 11 leaves the marks as success
 * does.
 */
GROOVEPAWN_LOOK_AT_ANSWER
uint64_t groovepawn_prepare_fast(uint8_t reading, const uint8_t *file, size_t file_len, uint8_t *marks, size_t marks_len, uint16_t *work_1,
                                 size_t work_1_len, uint16_t *work_2, size_t work_2_len, uint16_t *work_3, size_t work_3_len, uint16_t *work_4,
                                 size_t work_4_len, uint16_t *work_5, size_t work_5_len);

/*
 * Cleans a policy under the reading named: writes it without the locations that cannot be entered and the rules that never decide, and a list of what
 * went. Locations that stay keep their order, the start stays, and targets are renumbered. The cleaned policy is hopeless exactly when the old one is,
 * and releases the same for every stream under that reading. An entry of the list is three bytes, the kind and the old number from 0, high byte first;
 * locations come first, then rules, each in file order:
 *
 *   1  a location that no permitted stream from the start leads to
 *   2  a rule of such a location
 *   3  another rule that decides no event in any state that such a stream leads to
 *
 * A tool, and no part of a station's loop. Refusals in this order: 22, 1 to 9, 14 (either slice is too short; both are then left as given).
 * Stack: 67,129 bytes, for a small policy too.
 * Returns refusal | length << 8 | length of the list << 32. Bytes past both lengths stay. 5,974 bytes are always enough for cleaned, and 957 for
 * struck.
 */
GROOVEPAWN_LOOK_AT_ANSWER
uint64_t groovepawn_clean(uint8_t reading, const uint8_t *file, size_t file_len, uint8_t *cleaned, size_t cleaned_len, uint8_t *struck,
                          size_t struck_len);

/*
 * Why an event as read, x and y, is edited in a state: a reason for each half that is. The output is judged with the x' that the input half gives.
 * A reason is a kind and a number:
 *
 *   0  the half is not edited; the number is 0
 *   1  the rule of this number, counted from 0 in the file, sent it to 255
 *   2  no rule matched; the number is 0
 *   3  the stream could have gone on for at most so many more ticks after it
 *   4  the stream could have gone on for ever, with at most so many later events ending at rest
 *
 * For an input: 4 with the greatest number over all outputs, if with some output the stream could have gone on for ever; else 3 with the greatest
 * number, if some output is no violation; else the reason for the output 0. Each number is exact: some permitted stream has it, and none has more.
 * A tool, and no part of a station's loop: it prepares the policy anew and goes over all states.
 * Refusals in this order: 22, 1 to 9, 10, 16, 20 (a byte for a state is not the mark of groovepawn_prepare under this reading), 15. 17 never comes.
 * Stack: 1,247,432 bytes, for a small policy too.
 * Returns refusal | input's kind << 8 | its number << 16 | output's kind << 32 | its number << 40.
 */
GROOVEPAWN_LOOK_AT_ANSWER
uint64_t groovepawn_why(uint8_t reading, const uint8_t *file, size_t file_len, const uint8_t *marks, size_t marks_len, const uint16_t *state,
                        size_t state_len, uint8_t x, uint8_t y);

/*
 * The reasons for a run of events, for a record of many: the counts of all states are made once for the call. reasons[i] is what groovepawn_why
 * answers for event i in the state that groovepawn_run has before it, with no refusal in its low byte: 0 where neither half is edited. The macros of
 * groovepawn_why read it. The state moves as with groovepawn_run, so that a long record can be handed over in pieces.
 * The last eight slices are scratch, each with an entry for each state or more: two tables of 32 bits, the marks as bytes, and five slices of 16 bits.
 * They may hold anything, and what they hold afterwards is not said.
 * A tool, and no part of a station's loop: it prepares the policy anew and goes over all states.
 * Refusals in this order: 22, 1 to 9, 10, 23 (a work slice has fewer entries than there are states), 14 (reasons has fewer than there are events),
 * 16, 20, 15. 17 never comes. Stack: 2,872 bytes.
 * Returns refusal | events << 8, the number of all events; with a refusal it is 0, and state and reasons stay as given. The work slices are not
 * written with 22, 1 to 10, 23, 14 and 16. Entries past the events stay.
 */
GROOVEPAWN_LOOK_AT_ANSWER
uint64_t groovepawn_why_run(uint8_t reading, const uint8_t *file, size_t file_len, const uint8_t *marks, size_t marks_len, uint16_t *state,
                            size_t state_len, const uint8_t *events, size_t events_len, uint64_t *reasons, size_t reasons_len, uint32_t *ticks,
                            size_t ticks_len, uint32_t *rests, size_t rests_len, uint8_t *prepared, size_t prepared_len, uint16_t *work_1,
                            size_t work_1_len, uint16_t *work_2, size_t work_2_len, uint16_t *work_3, size_t work_3_len, uint16_t *work_4,
                            size_t work_4_len, uint16_t *work_5, size_t work_5_len);

/*
 * The file of a policy that is written as text (docs/POLICY-TEXT.md). A text has no reading: its file is read under either.
 * Refusals: the first line that breaks a rule gives 4, 7 or one of 30 to 34; then, with line 0, in this order: 2 (no location), 9, 14 (the slice for
 * the file is too short). A tool, and no part of a station's loop. Stack: 7,400 bytes.
 * Returns refusal | line << 8 | length << 40: the line of the refusal, counted from 1, or how many bytes of file the policy takes; the other bytes
 * stay. 5,974 bytes are always enough. With a refusal the length is 0, and file stays as given.
 */
GROOVEPAWN_LOOK_AT_ANSWER
uint64_t groovepawn_text_read(const uint8_t *text, size_t text_len, uint8_t *file, size_t file_len);

/*
 * The text of a policy file, with letters for the signals, t0, t1, .. for the clocks and q0, q1, .. for the locations. groovepawn_text_read gives the
 * same file back.
 * Refusals in this order: 1 to 9, 14 (the slice for the text is too short). A tool, and no part of a station's loop. Stack: 712 bytes.
 * Returns refusal | length << 8: how many bytes the text takes; the other bytes stay. There is no zero byte at its end. 39,420 bytes are always
 * enough. With a refusal text stays as given.
 */
GROOVEPAWN_LOOK_AT_ANSWER
uint64_t groovepawn_text_write(const uint8_t *file, size_t file_len, uint8_t *text, size_t text_len);

/*
 * The line of a rule, counted from 0 as in the file, so that a reason of groovepawn_why or an entry of groovepawn_clean leads back to its line.
 * Refusals: as groovepawn_text_read, but for 14; then, with line 0, 35 (the text has no such rule). A tool, and no part of a station's loop.
 * Stack: 7,464 bytes.
 * Returns refusal | line << 8: the line of the refusal or of the rule, counted from 1. Nothing is written.
 */
GROOVEPAWN_LOOK_AT_ANSWER
uint64_t groovepawn_text_line_of_rule(const uint8_t *text, size_t text_len, uint32_t rule);

/*
 * Where a text declares the name of a signal, the inputs first and then the outputs, counted from 0 as in the file.
 * Refusals: as groovepawn_text_line_of_rule, 35 where the text has no such signal. A tool, and no part of a station's loop. Stack: 7,544 bytes.
 * Returns refusal | place << 8 | length << 40: the line of the refusal, with the length 0; or the byte of the text at which the name begins, counted
 * from 0, and how many bytes it has, at most 16. A signal that has its letter alone has no name: both are then 0. Nothing is written.
 */
GROOVEPAWN_LOOK_AT_ANSWER
uint64_t groovepawn_text_name_of_signal(const uint8_t *text, size_t text_len, uint32_t signal);

/*
 * The same for a clock, which always has a name. Stack: 7,544 bytes.
 */
GROOVEPAWN_LOOK_AT_ANSWER
uint64_t groovepawn_text_name_of_clock(const uint8_t *text, size_t text_len, uint32_t clock);

/*
 * The same for a location, which always has a name. Stack: 7,544 bytes.
 */
GROOVEPAWN_LOOK_AT_ANSWER
uint64_t groovepawn_text_name_of_location(const uint8_t *text, size_t text_len, uint32_t location);

#ifdef __cplusplus
}
#endif

#endif
