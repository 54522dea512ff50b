/* Which address a first byte hits, straight off the state's image: the one reading that the tests hold a program to, the bytes
   worth asking about, and how often a test has come to each answer. */
#ifndef HITS_H
#define HITS_H

#include "modes.h"

#include <stdint.h>
#include <stdio.h>

/* None, its own, the general call. */
enum { HIT_NONE, HIT_OWN, HIT_GENERAL_CALL, HITS };

/* Whether a byte fits, bit by bit from 7 down to 1: where MSK has a 1, it has ADD's bit. */
static inline int hit_fits(unsigned byte, unsigned add, unsigned msk)
{
    unsigned place;

    for (place = 7; place >= 1; place--)
        if ((msk >> place & 1) == 1 && (byte >> place & 1) != (add >> place & 1))
            return 0;
    return 1;
}

/* Which of the three, by SSPM, ADD, MSK and GCEN of an image. Ten bits know no mask and no general call. */
static inline unsigned hit_of(const uint8_t *image, unsigned byte)
{
    enum { CON1 = 2, CON2 = 3, ADD = 5, MSK = 6, GCEN = 0x80, NO_MASK = 0xFF };

    if (mode_is_ten(image[CON1]))
        return hit_fits(byte, image[ADD], NO_MASK) ? HIT_OWN : HIT_NONE;
    if (hit_fits(byte, image[ADD], image[MSK]))
        return HIT_OWN;
    if (byte == 0x00 && (image[CON2] & GCEN))
        return HIT_GENERAL_CALL;
    return HIT_NONE;
}

/* A byte worth asking about, by a number below HIT_BYTES: the one that look shows, any, 00, 01, ADD in both directions, ADD but
   for one bit, or but for bits that MSK does not ask for. */
enum { HIT_SHOWN, HIT_BYTES = 8 };

static inline uint8_t hit_byte(const uint8_t *image, unsigned pick, unsigned any)
{
    enum { ADD = 5, MSK = 6, BYTE = 10 };
    const unsigned add = image[ADD], bytes[HIT_BYTES] = {image[BYTE], any, 0x00, 0x01, add, add ^ 1u, add ^ 1u << any % 8,
                                                         add ^ (any & ~(unsigned)image[MSK])};

    return (uint8_t)bytes[pick];
}

/* Whether a test has come to each of the three. */
static inline int hits_all(const unsigned long *times)
{
    return times[HIT_NONE] > 0 && times[HIT_OWN] > 0 && times[HIT_GENERAL_CALL] > 0;
}

/* Tells how often, inside a line. */
static inline void hits_tell(const unsigned long *times)
{
    printf("hits none %lu own %lu general call %lu", times[HIT_NONE], times[HIT_OWN], times[HIT_GENERAL_CALL]);
}

#endif
