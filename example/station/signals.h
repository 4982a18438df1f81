/* The signals of the station, as station.text lists them, and how its two programs talk: one byte for each half of a tick. */
#ifndef SIGNALS_H
#define SIGNALS_H

#include <stdio.h>
#include <stdlib.h>
#include <unistd.h>

enum { CARD = 1, CREDIT = 2, PULSE = 4 }; /* inputs */
enum { VALVE = 1 };                       /* outputs */

/* A program that loses its partner ends: on a station that is where the valve is shut. */
static inline void put(int to, unsigned char byte) {
    if (write(to, &byte, 1) != 1) exit(1);
}

static inline unsigned char get(int from) {
    unsigned char byte;
    if (read(from, &byte, 1) != 1) exit(1);
    return byte;
}

#endif
