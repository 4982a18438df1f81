/*
 * Calls one half so many times, under an emulator that counts instructions: the difference between two numbers of calls is what the calls took.
 * Compile with -DPOLICY=example, nested or barred, -DHALF=input, output, input_indexed or output_indexed, and -DCALLS=n.
 * The event stands in the example, and is edited in both halves of the worst policies.
 */
#include "groovepawn.h"
#include "worst.h"

static uint8_t marks[GROOVEPAWN_MOST_STATES];
static uint16_t state[GROOVEPAWN_STATE_LEN], rules[GROOVEPAWN_INDEX_LEN];
static uint8_t passed_on;

/* After R, C at latest on the fourth tick: sample D of the scope. Every state is live. */
void example(void) {
    static const uint8_t bytes[] = {1, 'R', 1, 'C', 1, 0, 3, 2, 0, 0, 0, 4, 0, 1, 1, 0, 0, 1, 1, 0, 0, 255, 255, 0, 0, 0, 0, 0, 1, 0, 0, 0, 255, 255,
                                    1, 0, 0, 1, 1, 1, 0, 0, 0, 255, 255, 1, 0, 0, 1, 0, 0, 1, 0, 0, 0, 2};
    memcpy(file, bytes, sizeof bytes);
    length = sizeof bytes;
    memset(marks, 1, sizeof marks);
}

/* Of the worst policies location 0 is live, and location 1 is not: each has 256 states. The input half makes this x' of the input 0. */
void worst(uint8_t x) {
    memset(marks, 1, 256);
    passed_on = x;
}

#define LENT file, length, marks, sizeof marks, state, GROOVEPAWN_STATE_LEN
#define INDEXED file, length, rules, GROOVEPAWN_INDEX_LEN, marks, sizeof marks, state, GROOVEPAWN_STATE_LEN
uint32_t input(void) { return groovepawn_input(1, LENT, 0); }
uint32_t output(void) { return groovepawn_output(1, LENT, passed_on, 0); }
uint32_t input_indexed(void) { return groovepawn_input_indexed(1, INDEXED, 0); }
uint32_t output_indexed(void) { return groovepawn_output_indexed(1, INDEXED, passed_on, 0); }

/* Those of the two policies that this build does not use. */
void (*const policies[])(void) = {example, nested, barred};

int main(void) {
    POLICY();
    if (POLICY == nested) worst(8);
    if (POLICY == barred) worst(15);
    if (GROOVEPAWN_REFUSAL(groovepawn_index(file, length, rules, GROOVEPAWN_INDEX_LEN)) != 0) return 1;
    for (int call = 0; call < CALLS; call++) {
        memset(state, 0, sizeof state);
        if (GROOVEPAWN_REFUSAL(HALF()) != 0) return 1;
    }
    return 0;
}
