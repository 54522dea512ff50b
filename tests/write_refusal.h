/* Why the paper refuses a register write, straight off the state's image: the one list that the tests hold a program to. */
#ifndef WRITE_REFUSAL_H
#define WRITE_REFUSAL_H

#include "modes.h"

#include <stdint.h>

/* The first refusal that applies, in the order 1, 2, 3, 8, 9, or 0; bytes that are no state's are refused with 6 before. */
static unsigned write_refusal(const uint8_t *state, uint32_t number, unsigned value)
{
    enum { CON1 = 2, CON2 = 3, CON3 = 4, MSK = 6, LAST = 7, SSPEN = 0x20, SSPM = 0x0F, NO_MASK = 0xFF };

    if (number > LAST)
        return 1;
    if ((number == CON2 && (value & 0x1E)) || (number == CON3 && (value & 0x10)))
        return 2;
    if (number == MSK)
        return mode_runs_ten(state[CON1]) && value != NO_MASK ? 9 : 0;
    if (number != CON1 || !(value & SSPEN))
        return 0;
    if (!mode_can_run(value))
        return 3;
    if ((state[CON1] & SSPEN) && ((state[CON1] ^ value) & SSPM))
        return 8;
    return mode_is_ten(value) && state[MSK] != NO_MASK ? 9 : 0;
}

#endif
