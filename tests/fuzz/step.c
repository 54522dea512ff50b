/* Makes one call through the door; compiled once for each program, with its prefix. */
#include "step.h"
#include "words.h"

#include <string.h>

/* A view field by field. */
static void see_view(const door_view *v, uint64_t *seen)
{
    const uint64_t fields[SEEN] = {
        v->buf, v->stat, v->con1, v->con2, v->con3, v->add, v->msk, v->flag, v->scl_pulled, v->sda_pulled,
        v->phase, v->bits, v->byte, v->refused, v->wire, v->mark, v->due, v->n, v->pointer,
        v->which, v->next, v->full
    };

    memcpy(seen, fields, sizeof fields);
}

/* A drawing, or the same by single calls. */
static outcome draw(const step *s, uint8_t *image, uint8_t *buffer)
{
    word_scene scene = {image, buffer, s->buffer_length, s->start, s->n};
    outcome o;
    size_t i;

    memset(&o, 0, sizeof o);
    if (s->which == STEP_DRAW) {
        door_taken t = door.draw(image, s->state_length, buffer, s->buffer_length, s->start, s->n, s->bytes, s->bytes_length,
                                 s->lanes, s->lanes_length);

        o.refusal = t.refusal;
        o.item = t.item;
        o.seen[0] = t.samples;
        o.seen[1] = t.items;
        return o;
    }
    for (i = 0; i < step_count(s); i++)
        s->lanes[i] = word_singly(&scene, s->bytes[i]);
    return o;
}

/* The view and the part. */
static outcome see(const step *s, const uint8_t *image)
{
    outcome o;

    memset(&o, 0, sizeof o);
    if (s->which == STEP_LOOK) {
        door_view v = door.look(image, s->state_length);

        o.refusal = v.refusal;
        see_view(&v, o.seen);
    } else {
        door_part p = door.find(s->bytes, s->bytes_length, s->item);

        o.refusal = p.refusal;
        o.item = p.item;
        o.seen[0] = p.start;
        o.seen[1] = p.length;
    }
    return o;
}

/* Those that give an answer: the six that change a state, and hit. */
static door_answer ask(const step *s, uint8_t *image, uint8_t *buffer)
{
    size_t length = s->state_length;

    switch (s->which) {
    case STEP_SETUP:
        return door.setup(image, length, s->value, s->n);
    case STEP_READ:
        return door.read(image, length, s->number);
    case STEP_WRITE:
        return door.write(image, length, s->number, s->value);
    case STEP_SAMPLE:
        return door.sample(image, length, s->value);
    case STEP_CALL:
        return door.call(image, length, buffer, s->buffer_length, s->start, s->n);
    case STEP_HIT:
        return door.hit(image, length, s->value);
    default:
        return door.run(image, length, buffer, s->buffer_length, s->start, s->n, s->bytes, s->bytes_length);
    }
}

/* One call. */
outcome DOOR(step)(const step *s, uint8_t *image, uint8_t *buffer)
{
    outcome o;
    door_answer a;

    if (s->which == STEP_LOOK || s->which == STEP_FIND)
        return see(s, image);
    if (s->which == STEP_DRAW || s->which == STEP_SINGLY)
        return draw(s, image, buffer);
    memset(&o, 0, sizeof o);
    a = ask(s, image, buffer);
    o.refusal = a.refusal;
    o.value = a.value;
    o.item = a.item;
    return o;
}
