/*
 * A station's loop: policy, marks and index stand in flash, and the one state in memory. Each half's refusal is looked at before its answer is used;
 * on a refusal the valve is shut and the loop ends.
 */
#include "constants.h"
#include "groovepawn.h"
#include "policy.h"
#include "station.h"

enum { READING = 1, SHUT = 0, OPEN = 1, CREDIT = 1, PULSE = 2 };

/* What the wiring gives, tick by tick: a credit, and pulses while the valve is open. */
static const uint8_t wiring[] = {0, CREDIT, PULSE, PULSE, PULSE, PULSE, PULSE, PULSE, 0, 0};

/* The controller opens the valve on the tick after a credit, and forgets to shut it. */
static uint8_t controller(uint8_t x) {
    static uint8_t valve = SHUT;
    uint8_t now = valve;
    if (x & CREDIT) valve = OPEN;
    return now;
}

static void put_number(unsigned number) {
    char digits[12], *at = digits + sizeof digits;
    *--at = 0;
    do *--at = (char)('0' + number % 10); while (number /= 10);
    put_text(at);
}

static void say(const char *words, unsigned number) {
    put_text(words);
    put_number(number);
}

#define LENT policy, sizeof policy, rule_index, GROOVEPAWN_INDEX_LEN, marks, sizeof marks, state, GROOVEPAWN_STATE_LEN

int station(void) {
    uint16_t state[GROOVEPAWN_STATE_LEN] = {0};
    for (unsigned tick = 0; tick < sizeof wiring; tick++) {
        uint32_t input = groovepawn_input_indexed(READING, LENT, wiring[tick]);
        if (GROOVEPAWN_REFUSAL(input) != 0) {
            say("valve shut: refused ", (unsigned)GROOVEPAWN_REFUSAL(input));
            put_text("\n");
            return 1;
        }
        uint8_t x = (uint8_t)GROOVEPAWN_VALUE(input);
        uint8_t wanted = controller(x);
        uint32_t output = groovepawn_output_indexed(READING, LENT, x, wanted);
        if (GROOVEPAWN_REFUSAL(output) != 0) {
            say("valve shut: refused ", (unsigned)GROOVEPAWN_REFUSAL(output));
            put_text("\n");
            return 1;
        }
        say("tick ", tick + 1);
        say(": read ", wiring[tick]);
        say(", passed on ", x);
        say("; wanted ", wanted);
        say(", put out ", (unsigned)GROOVEPAWN_VALUE(output));
        put_text("\n");
    }
    return 0;
}
