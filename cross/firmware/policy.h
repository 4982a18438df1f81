/* V opens only after a credit, and stays open at most 5 ticks after it (reading 1); what is open must be closed again. Inputs C (credit) and P (pulse), output V. */
#ifndef POLICY_H
#define POLICY_H

#include <stdint.h>

static const uint8_t policy[] = {
    2, 'C', 'P',                                        /* inputs */
    1, 'V',                                             /* outputs */
    1, 0x00, 0x06,                                      /* the clock: ticks since the credit, up to 6 */
    2, 0, 1,                                            /* locations: 0 idle, 1 open, which must be left */
    0, 5,                                               /* rules */
    0, 1, 1, 1, 0, 1, 1, 0x00, 0x00, 0xff, 0xff,        /* idle, C and not V: open, the clock at 0 */
    0, 0, 0, 1, 1, 0, 0xff, 0x00, 0x00, 0xff, 0xff,     /* idle, V: the violation */
    0, 0, 0, 0, 0, 0, 0, 0x00, 0x00, 0xff, 0xff,        /* idle: stays so */
    1, 0, 0, 1, 1, 0, 1, 0x00, 0x00, 0x00, 0x04,        /* open, V while the clock is at most 4: open */
    1, 0, 0, 1, 0, 0, 0, 0x00, 0x00, 0xff, 0xff,        /* open, not V: idle */
};

#endif
