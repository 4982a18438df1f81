/*
 * The controller, sealed: nobody can change it. Each credit is worth 70,000 pulses, and the valve is open while some are left. It takes every credit
 * pulse that it sees for a new one.
 *
 *     controller TICKS LOG     reads the enforcer's answers from standard input, writes its outputs to file 3, and drives the valve by standard output
 */
#include "signals.h"

enum { WORTH = 70000, TO_ENFORCER = 3 };

int main(int argc, char **argv) {
    if (argc != 3) return 2;
    long ticks = atol(argv[1]), left = 0, paid = 0;
    FILE *log = fopen(argv[2], "w");
    if (!log) return 1;
    for (long tick = 1; tick <= ticks; tick++) {
        unsigned char x = get(0);
        if (x & PULSE && left > 0) left--;
        unsigned char y = left > 0 ? VALVE : 0;
        if (x & CREDIT) left += WORTH, paid++;
        fprintf(log, "%s\n", y ? "V" : "");
        put(TO_ENFORCER, y);
        put(1, get(0));
    }
    if (fclose(log) != 0) return 1;
    fprintf(stderr, "the controller saw %ld credit%s\n", paid, paid == 1 ? "" : "s");
    return 0;
}
