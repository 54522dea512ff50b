/* The three cases of an acknowledge slot: as a state's image numbers them, as a view shows them, and how often a test has
   come to each. And which byte a phase of ten bits belongs to. */
#ifndef SLOTS_H
#define SLOTS_H

#include <stdio.h>

/* Where an image has what only three phases have: data whether it is held, a hold before acknowledge whether it is refused, a
   slot its case. In a slot any other number than these three is no state's. Declined is also the slot of a low byte that does
   not match. */
enum { PART_AT = 11, SLOT_PULLING = 1, SLOT_REFUSED, SLOT_DECLINED, SLOT_CASES };

/* Where an image has which byte an address, a hold before acknowledge or a slot belongs to, or what follows the hold for ADD,
   each with its numbers; and where it has the full match. */
enum { WHICH_AT = 14, FULL_AT = 15 };
enum { BYTE_OTHER, BYTE_HIGH, BYTE_LOW, BYTE_HIGH_TO_SEND, BYTES };
enum { NEXT_QUIET, NEXT_LOW_BYTE, NEXT_DATA, NEXTS };

/* The case that two fields of a view show; 0 where they show none: no slot pulls and is refused. */
static inline unsigned slot_case(unsigned sda_pulled, unsigned refused)
{
    if (sda_pulled + refused > 1)
        return 0;
    if (sda_pulled)
        return SLOT_PULLING;
    return refused ? SLOT_REFUSED : SLOT_DECLINED;
}

/* Whether a test has come to slots of each case. */
static inline int slots_all(const unsigned long *times)
{
    return times[SLOT_PULLING] > 0 && times[SLOT_REFUSED] > 0 && times[SLOT_DECLINED] > 0;
}

/* Tells how often, inside a line. */
static inline void slots_tell(const unsigned long *times)
{
    printf("slots pulling %lu refused %lu declined %lu", times[SLOT_PULLING], times[SLOT_REFUSED], times[SLOT_DECLINED]);
}

#endif
