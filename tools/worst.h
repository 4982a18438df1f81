/* The policies with the worst ticks that were thought of, those of bench/: each is laid into `file`, and its length into `length`. */
#ifndef WORST_H
#define WORST_H

#include "groovepawn.h"
#include <string.h>

enum { RULES = 256 };

static uint8_t file[GROOVEPAWN_MOST_FILE_BYTES];
static size_t length;

/* 256 rules at location 0 that hold and each take one event, over 4 clocks; those to location 1, which has no rules, lead nowhere. */
static void nested(void) {
    static const uint8_t head[] = {4, 'P', 'B', 'C', 'A', 4, 'D', 'F', 'G', 'H', 4, 0, 3, 0, 3, 0, 3, 0, 3, 2, 0, 0, 1, 0};
    memcpy(file, head, sizeof head);
    length = sizeof head;
    for (int event = 0; event < RULES; event++) {
        int x = event >> 4, y = event & 15;
        uint8_t rule[] = {0, (uint8_t)(15 & ~x), 0, (uint8_t)(15 & ~y), 0, 15, x == 0 || event == 128, 0, 0, 0, 2, 0, 0, 0, 2, 0, 0, 0, 2, 0, 0, 0, 2};
        memcpy(file + length, rule, sizeof rule);
        length += sizeof rule;
    }
}

/* The same with bounds that fail last, but for the last rule, which takes the event 15, 15 alone. */
static void barred(void) {
    nested();
    for (int i = 0; i < RULES; i++) {
        uint8_t *rule = file + length - (RULES - i) * 23;
        uint8_t last = i == RULES - 1 ? 15 : 0;
        memset(rule + 1, last, 4);
        rule[6] = 0;
        for (int clock = 0; clock < 4; clock++) memcpy(rule + 7 + 4 * clock, (uint8_t[]){0, 0, 0xFF, 0xFF}, 4);
        if (last == 0) rule[20] = 2;
    }
}

#endif
