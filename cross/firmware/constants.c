/*
 * At the desk: prepares the policy, builds its index, and prints both as constants of C, so that a station has them in flash and prepares nothing.
 */
#include "groovepawn.h"
#include "policy.h"
#include <stdio.h>

static uint8_t marks[GROOVEPAWN_MOST_STATES];
static uint16_t rule_index[GROOVEPAWN_INDEX_LEN];

int main(void) {
    uint64_t prepared = groovepawn_prepare(1, policy, sizeof policy, marks, sizeof marks);
    uint32_t built = groovepawn_index(policy, sizeof policy, rule_index, GROOVEPAWN_INDEX_LEN);
    if (GROOVEPAWN_REFUSAL(prepared) != 0 || GROOVEPAWN_REFUSAL(built) != 0) {
        fprintf(stderr, "refused %u, %u\n", (unsigned)GROOVEPAWN_REFUSAL(prepared), (unsigned)GROOVEPAWN_REFUSAL(built));
        return 1;
    }
    printf("/* Made at a desk of policy.h, under reading 1. */\n#include <stdint.h>\nstatic const uint8_t marks[] = {");
    for (uint64_t state = 0; state < GROOVEPAWN_STATES(prepared); state++) printf("%s%u", state ? ", " : "", (unsigned)marks[state]);
    printf("};\nstatic const uint16_t rule_index[] = {");
    for (int i = 0; i < GROOVEPAWN_INDEX_LEN; i++) printf("%s%u", i ? ", " : "", (unsigned)rule_index[i]);
    printf("};\n");
    return 0;
}
