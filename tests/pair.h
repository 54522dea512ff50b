/* The archive and the second program side by side: a step is made on both, and what they give is compared. */
#ifndef PAIR_H
#define PAIR_H

#include "second.h"

#include <stddef.h>
#include <stdint.h>

/* An image with guard bytes around it; the longest length lent for it; a buffer; a step's own bytes; lanes, more than any step
   is lent. */
enum { PAIR_IMAGE = 48, PAIR_GUARD = 16, PAIR_LONGEST = 64, PAIR_ROOM = PAIR_GUARD + PAIR_LONGEST + PAIR_GUARD };
enum { PAIR_BUFFER = 320, PAIR_BYTES = 64, PAIR_LANES = PAIR_BYTES + 8 };

/* What a step calls. */
enum {
    PAIR_SAMPLE, PAIR_CALL, PAIR_READ, PAIR_WRITE, PAIR_RUN, PAIR_PLACE, PAIR_SETUP, PAIR_HIT, PAIR_FIND, PAIR_DRAW, PAIR_KINDS
};

/* One step; a field that its call has no use for is 0. */
typedef struct {
    uint8_t kind;
    uint8_t number;             /* sample: the level; read, write: the register; setup: ADD */
    uint8_t value;              /* write: the byte; hit: the first byte */
    uint8_t state_length;       /* the length lent for the state */
    uint8_t count;              /* run, find, draw: how many of the bytes below */
    uint8_t lanes;              /* draw: how many lanes are lent */
    uint8_t bytes[PAIR_BYTES];  /* run: the trace; find, draw: the record; place: the image that is put in */
    uint64_t start, n;          /* call, run, draw: the window; setup: n; find: start is the item number */
    size_t buffer_length;       /* call, run, draw: how much of the buffer is lent */
} pair_step;

/* What a step gave, whichever call it was; of a drawing start is how many samples were taken, length how many words written. */
typedef struct {
    uint64_t refusal, value, item, start, length;
} pair_outcome;

/* Where the two differ; PAIR_SAME where they do not. PAIR_TEN_BITS is none of these, but a part of the view that can be
   spoiled. */
enum { PAIR_SAME, PAIR_ANSWER, PAIR_STATE, PAIR_MEMORY, PAIR_VIEW, PAIR_TEN_BITS, PAIR_WORDS };

/* One program's state and memory. */
typedef struct {
    uint8_t room[PAIR_ROOM];
    uint8_t buffer[PAIR_BUFFER];
    uint64_t lanes[PAIR_LANES]; /* of the last drawing */
    pair_outcome outcome;       /* of the last step */
    second_view view;           /* after the last step */
} pair_side;

/* Both programs, and for the test of the test the place where the archive's side is spoiled (PAIR_SAME: nowhere). */
typedef struct {
    pair_side archive, second;
    int spoiled;
} pair;

/* Sets both up with the same ADD, n and buffer; answers where they differ. */
int pair_setup(pair *p, uint8_t add, uint64_t n, const uint8_t *buffer);

/* Makes a step on both; answers where they differ. A placed image that is no state's is taken out again. */
int pair_make(pair *p, const pair_step *s);

#endif
