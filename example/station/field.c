/*
 * The field: a card, a credit, and a meter that gives a pulse for each tick with the valve open. Long after the card, in the middle of the transfer,
 * the credit's relay sticks and gives one pulse more.
 *
 *     field TICKS LOG     writes each input to standard output, reads the output that was put out from standard input
 */
#include "signals.h"

enum { CARD_AT = 5, CREDIT_AT = 10, STALE_AT = CARD_AT + 65600 };

int main(int argc, char **argv) {
    if (argc != 3) return 2;
    long ticks = atol(argv[1]), delivered = 0, shut_at = 0;
    FILE *log = fopen(argv[2], "w");
    if (!log) return 1;
    unsigned char valve = 0;
    for (long tick = 1; tick <= ticks; tick++) {
        unsigned char x = valve ? PULSE : 0;
        if (tick == CARD_AT) x |= CARD;
        if (tick == CREDIT_AT || tick == STALE_AT) x |= CREDIT;
        fprintf(log, "%s%s%s\n", x & CARD ? "A " : "", x & CREDIT ? "K " : "", x & PULSE ? "P" : "");
        put(1, x);
        unsigned char before = valve;
        valve = get(0) & VALVE;
        delivered += valve;
        if (before && !valve) shut_at = tick;
    }
    if (fclose(log) != 0) return 1;
    fprintf(stderr, "%ld pulses of 70000 paid for; the valve ", delivered);
    if (valve) fprintf(stderr, "is still open after %ld ticks\n", ticks);
    else fprintf(stderr, "was shut at tick %ld\n", shut_at);
    return 0;
}
