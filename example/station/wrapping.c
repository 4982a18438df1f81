/*
 * The clause about credits as one would write it by hand: a credit is good while at most 300 ticks have gone by since the card. The ticks are counted
 * in sixteen bits, and 65,536 ticks after the card the count is 0 again.
 *
 *     wrapping     reads x, writes x', reads y, writes y', as `groovepawn live` does
 */
#include "signals.h"
#include <stdint.h>

int main(void) {
    uint16_t age = 0;
    int card = 0;
    unsigned char x, y;
    while (read(0, &x, 1) == 1) {
        if (x & CREDIT && !(card && age <= 300)) x &= (unsigned char)~CREDIT;
        age++;
        if (x & CARD) card = 1, age = 0;
        put(1, x);
        if (read(0, &y, 1) != 1) return 1;
        put(1, y);
    }
    return 0;
}
