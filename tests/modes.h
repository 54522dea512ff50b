/* The modes by SSPM, the low half of CON1: which can run, and which have ten address bits. */
#ifndef MODES_H
#define MODES_H

#include <stdint.h>

/* Seven or ten address bits; in the flagged ones every Start and Stop sets SSPIF. */
enum { MODE_SEVEN = 0x06, MODE_TEN = 0x07, MODE_SEVEN_FLAGGED = 0x0E, MODE_TEN_FLAGGED = 0x0F };

/* The four that can run. */
enum { MODES = 4 };
static const uint8_t modes_all[MODES] = {MODE_SEVEN, MODE_SEVEN_FLAGGED, MODE_TEN, MODE_TEN_FLAGGED};

/* Whether SSPM of a CON1 is one of the four. */
static inline int mode_can_run(unsigned con1)
{
    int i;

    for (i = 0; i < MODES; i++)
        if ((con1 & 0x0F) == modes_all[i])
            return 1;
    return 0;
}

/* Whether SSPM of a CON1 says ten bits. */
static inline int mode_is_ten(unsigned con1)
{
    return (con1 & 0x0F) == MODE_TEN || (con1 & 0x0F) == MODE_TEN_FLAGGED;
}

/* Whether ten bits run with this CON1: SSPEN is 1 beside it. */
static inline int mode_runs_ten(unsigned con1)
{
    return (con1 & 0x20) != 0 && mode_is_ten(con1);
}

#endif
