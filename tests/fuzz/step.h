/* One call through a door, said without the door's own types, so that two programs can be put side by side. */
#ifndef STEP_H
#define STEP_H

#include <stddef.h>
#include <stdint.h>

/* Which of the ten functions; look, find and hit change nothing. The last is none of them: a drawing by single calls. */
enum {
    STEP_SETUP, STEP_READ, STEP_WRITE, STEP_SAMPLE, STEP_CALL, STEP_RUN, STEP_LOOK, STEP_FIND, STEP_HIT, STEP_DRAW, STEPS,
    STEP_SINGLY = STEPS
};

/* What it is called with; each function takes what it knows. */
typedef struct {
    int which;
    size_t state_length;
    uint8_t number, value; /* setup: value is ADD; sample: value is the level; hit: value is the first byte */
    size_t buffer_length;
    uint64_t start, n;     /* setup: n */
    const uint8_t *bytes;  /* a trace or a record */
    size_t bytes_length;
    uint64_t item;         /* find */
    uint64_t *lanes;       /* draw */
    size_t lanes_length;
} step;

/* How many items a drawing takes: as many as record and lanes both have. */
static inline size_t step_count(const step *s)
{
    return s->bytes_length < s->lanes_length ? s->bytes_length : s->lanes_length;
}

/* What it answered; a part's start and length, a drawing's samples and items, or a view's fields, follow refusal, value and
   item. */
enum {
    SEEN_STAT = 1, SEEN_SDA_PULLED = 9, SEEN_PHASE = 10, SEEN_REFUSED = 13, SEEN_WHICH = 19, SEEN_NEXT, SEEN_FULL, SEEN
};

typedef struct {
    uint64_t refusal, value, item;
    uint64_t seen[SEEN];
} outcome;

/* Makes the call on this image and buffer. */
typedef outcome step_function(const step *s, uint8_t *image, uint8_t *buffer);

step_function second_step, wherryoar_step;

#endif
