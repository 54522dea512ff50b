/* A round of steps on both programs, kept from its setup on, so that one with a difference can be cut short and told. */
#ifndef ROUND_H
#define ROUND_H

#include "pair.h"

enum { ROUND_STEPS = 2048 };

/* How a round began, and its steps. */
typedef struct {
    uint8_t add;
    uint16_t n;
    uint64_t start;               /* of the window that an h without more stands for */
    uint8_t buffer[PAIR_BUFFER];
    int spoiled;                  /* as in the pair */
    size_t count;
    pair_step steps[ROUND_STEPS];
} round_of_steps;

/* Makes the whole round again; answers how many steps led to the first difference, 0 where there is none. */
size_t round_again(const round_of_steps *r, pair *p);

/* Drops and splits steps as long as a difference stays; the last step is then the one that shows it. */
void round_shrink(round_of_steps *r);

/* Tells the round in the form of tests/vectors, with what the second program gives; returns the number of steps. */
size_t round_tell(const round_of_steps *r);

#endif
