/* The words of a drawing: where each part of a word stands, what a word has of a view, and a drawing by the single calls that
   it has to be equal to. */
#ifndef WORDS_H
#define WORDS_H

#include "door.h"

#include <stddef.h>
#include <stdint.h>

/* The first bit of each part; phase has 4 bits, STAT and BUF 8, pointer 16, every other part one. */
enum {
    WORD_SDA, WORD_SCL, WORD_SDA_PULLED, WORD_SCL_PULLED, WORD_PHASE, WORD_STAT = 8, WORD_SSPIF = 16, WORD_CKP, WORD_SSPOV,
    WORD_WCOL, WORD_ACKSTAT, WORD_ACKTIM, WORD_CALLED, WORD_STORED, WORD_START, WORD_STOP, WORD_CONFLICT, WORD_POINTER = 32,
    WORD_BUF = 48
};

/* A number at its place in a word. */
static inline uint64_t word_put(int place, unsigned value)
{
    return (uint64_t)value << place;
}

/* Whether a word has the bit at a place. */
static inline int word_has(uint64_t word, int place)
{
    return (int)(word >> place & 1);
}

/* A word without what happened at its item: what it has of the state after it. */
static inline uint64_t word_state(uint64_t word)
{
    const uint64_t happened = (uint64_t)0x1F << WORD_CALLED; /* up to the conflict */

    return word & ~happened;
}

/* What a word has of the view after its item. */
static inline uint64_t word_of_view(const door_view *v)
{
    uint64_t word = v->wire;

    word |= word_put(WORD_SDA_PULLED, v->sda_pulled) | word_put(WORD_SCL_PULLED, v->scl_pulled);
    word |= word_put(WORD_PHASE, v->phase) | word_put(WORD_STAT, v->stat) | word_put(WORD_SSPIF, v->flag);
    word |= word_put(WORD_CKP, v->con1 >> 4 & 1u) | word_put(WORD_SSPOV, v->con1 >> 6 & 1u);
    word |= word_put(WORD_WCOL, v->con1 >> 7 & 1u) | word_put(WORD_ACKSTAT, v->con2 >> 6 & 1u);
    word |= word_put(WORD_ACKTIM, v->con3 >> 7 & 1u);
    return word | word_put(WORD_POINTER, v->pointer) | word_put(WORD_BUF, v->buf);
}

/* Whether a handler call on this state stores a byte: a data byte that is no pointer, in a hold that CKP ends. */
static inline unsigned word_stores(const door_view *v)
{
    enum { RW = 0x04, DA = 0x20, CKP = 0x10 };

    return v->flag == 1 && !(v->con1 & CKP) && (v->stat & (RW | DA)) == DA && !v->due;
}

/* The Start and Stop bits of a sample on this state: a level of SDA other than the remembered one, with SCL high before and
   after and without the mark, read by an enabled module. */
static inline uint64_t word_of_condition(const door_view *v, unsigned level)
{
    unsigned scl = level >> 1 & !v->scl_pulled, sda = level & 1 & !v->sda_pulled;
    int enabled = v->con1 & 0x20, high = v->wire == 2 || v->wire == 3;

    if (!enabled || !high || !scl || v->mark || (v->wire & 1u) == sda)
        return 0;
    return word_put(sda ? WORD_STOP : WORD_START, 1);
}

/* What a drawing is made on: a state, and a buffer with its window. */
typedef struct {
    uint8_t *image, *buffer;
    size_t buffer_length;
    uint64_t start, n;
} word_scene;

/* One item of a wire record by single calls; answers its word, all ones where a call is refused. */
static inline uint64_t word_singly(const word_scene *s, uint8_t level)
{
    door_view v = door.look(s->image, DOOR_IMAGE);
    uint64_t word = 0;
    uint32_t refused = 0;

    if (v.scl_pulled && (level & 2)) {
        word = word_put(WORD_CALLED, 1) | word_put(WORD_STORED, word_stores(&v));
        refused = door.call(s->image, DOOR_IMAGE, s->buffer, s->buffer_length, s->start, s->n).refusal;
        v = door.look(s->image, DOOR_IMAGE);
    }
    word |= word_of_condition(&v, level) | word_put(WORD_CONFLICT, level == 3 && v.sda_pulled);
    refused |= door.sample(s->image, DOOR_IMAGE, level).refusal;
    v = door.look(s->image, DOOR_IMAGE);
    return refused | v.refusal ? UINT64_MAX : word | word_of_view(&v);
}

/* A drawing of the whole scene. */
static inline door_taken word_draw(const word_scene *s, const uint8_t *record, size_t record_length,
                                   uint64_t *lanes, size_t lanes_length)
{
    return door.draw(s->image, DOOR_IMAGE, s->buffer, s->buffer_length, s->start, s->n, record, record_length,
                     lanes, lanes_length);
}

/* Whether a drawing was done and took this many items. */
static inline int word_took(door_taken t, uint64_t count)
{
    return t.refusal == 0 && t.item == 0 && t.samples == count && t.items == count;
}

/* Whether a drawing was refused so, with this item. */
static inline int word_refused(door_taken t, unsigned refusal, uint64_t item)
{
    return t.refusal == refusal && t.item == item && t.samples == 0 && t.items == 0;
}

#endif
