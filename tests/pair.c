/* Makes each step through both doors, the archive's and the second program's, and compares answers, bytes and views. */
#include "pair.h"
#include "wherryoar.h"

#include <string.h>

enum { FILLER = 0x5A };

/* ---- Outcomes and views in one type ---- */

/* An answer of the archive. */
static pair_outcome of_archive(wherryoar_answer a)
{
    pair_outcome o = {a.refusal, a.value, a.item, 0, 0};

    return o;
}

/* An answer of the second program. */
static pair_outcome of_second(second_answer a)
{
    pair_outcome o = {a.refusal, a.value, a.item, 0, 0};

    return o;
}

/* A part found by the archive. */
static pair_outcome part_of_archive(wherryoar_part p)
{
    pair_outcome o = {p.refusal, 0, p.item, p.start, p.length};

    return o;
}

/* A part found by the second program. */
static pair_outcome part_of_second(second_part p)
{
    pair_outcome o = {p.refusal, 0, p.item, p.start, p.length};

    return o;
}

/* How far a drawing of the archive went. */
static pair_outcome taken_of_archive(wherryoar_taken t)
{
    pair_outcome o = {t.refusal, 0, t.item, t.samples, t.items};

    return o;
}

/* How far a drawing of the second program went. */
static pair_outcome taken_of_second(second_taken t)
{
    pair_outcome o = {t.refusal, 0, t.item, t.samples, t.items};

    return o;
}

/* The archive's view, field by field. */
static second_view view_of_archive(wherryoar_view a)
{
    second_view v;

    v.refusal = a.refusal;
    v.buf = a.buf;
    v.stat = a.stat;
    v.con1 = a.con1;
    v.con2 = a.con2;
    v.con3 = a.con3;
    v.add = a.add;
    v.msk = a.msk;
    v.flag = a.flag;
    v.scl_pulled = a.scl_pulled;
    v.sda_pulled = a.sda_pulled;
    v.phase = a.phase;
    v.bits = a.bits;
    v.byte = a.byte;
    v.refused = a.refused;
    v.wire = a.wire;
    v.mark = a.mark;
    v.due = a.due;
    v.n = a.n;
    v.pointer = a.pointer;
    v.which = a.which;
    v.next = a.next;
    v.full = a.full;
    return v;
}

/* Whether two views are the same. */
static int same_view(const second_view *a, const second_view *b)
{
    return a->refusal == b->refusal && a->buf == b->buf && a->stat == b->stat && a->con1 == b->con1
        && a->con2 == b->con2 && a->con3 == b->con3 && a->add == b->add && a->msk == b->msk && a->flag == b->flag
        && a->scl_pulled == b->scl_pulled && a->sda_pulled == b->sda_pulled && a->phase == b->phase
        && a->bits == b->bits && a->byte == b->byte && a->refused == b->refused && a->wire == b->wire
        && a->mark == b->mark && a->due == b->due && a->n == b->n && a->pointer == b->pointer
        && a->which == b->which && a->next == b->next && a->full == b->full;
}

/* ---- One step on one side ---- */

/* The archive's call for a step. */
static pair_outcome archive_call(pair_side *a, const pair_step *s)
{
    uint8_t *image = a->room + PAIR_GUARD;
    size_t length = s->state_length;

    switch (s->kind) {
    case PAIR_SAMPLE:
        return of_archive(wherryoar_sample(image, length, s->number));
    case PAIR_CALL:
        return of_archive(wherryoar_call(image, length, a->buffer, s->buffer_length, s->start, s->n));
    case PAIR_READ:
        return of_archive(wherryoar_read(image, length, s->number));
    case PAIR_WRITE:
        return of_archive(wherryoar_write(image, length, s->number, s->value));
    case PAIR_RUN:
        return of_archive(wherryoar_run(image, length, a->buffer, s->buffer_length, s->start, s->n,
                                        s->bytes, s->count));
    case PAIR_SETUP:
        return of_archive(wherryoar_setup(image, length, s->number, s->n));
    case PAIR_HIT:
        return of_archive(wherryoar_hit(image, length, s->value));
    case PAIR_DRAW:
        return taken_of_archive(wherryoar_draw(image, length, a->buffer, s->buffer_length, s->start, s->n,
                                               s->bytes, s->count, a->lanes, s->lanes));
    default:
        return part_of_archive(wherryoar_find(s->bytes, s->count, s->start));
    }
}

/* The second program's call for a step. */
static pair_outcome second_call_for(pair_side *a, const pair_step *s)
{
    uint8_t *image = a->room + PAIR_GUARD;
    size_t length = s->state_length;

    switch (s->kind) {
    case PAIR_SAMPLE:
        return of_second(second_sample(image, length, s->number));
    case PAIR_CALL:
        return of_second(second_call(image, length, a->buffer, s->buffer_length, s->start, s->n));
    case PAIR_READ:
        return of_second(second_read(image, length, s->number));
    case PAIR_WRITE:
        return of_second(second_write(image, length, s->number, s->value));
    case PAIR_RUN:
        return of_second(second_run(image, length, a->buffer, s->buffer_length, s->start, s->n,
                                    s->bytes, s->count));
    case PAIR_SETUP:
        return of_second(second_setup(image, length, s->number, s->n));
    case PAIR_HIT:
        return of_second(second_hit(image, length, s->value));
    case PAIR_DRAW:
        return taken_of_second(second_draw(image, length, a->buffer, s->buffer_length, s->start, s->n,
                                           s->bytes, s->count, a->lanes, s->lanes));
    default:
        return part_of_second(second_find(s->bytes, s->count, s->start));
    }
}

/* ---- Both sides ---- */

/* For the test of the test: one bit of the archive's side turned over once a byte has been sent up to its second bit, in the
   hold for ADD what follows it, or in the last word of a drawing that called the handler there. */
static void spoil(pair *p, const pair_step *s)
{
    const second_view *v = &p->second.view;
    int sending = v->refusal == 0 && v->phase == 6 && v->bits == 1, hold_for_add = v->refusal == 0 && v->phase == 8;
    uint64_t words = s->kind == PAIR_DRAW ? p->second.outcome.length : 0;

    if (p->spoiled == PAIR_TEN_BITS && hold_for_add)
        p->archive.view.next ^= 0x01;
    if (p->spoiled == PAIR_WORDS && words > 0 && (p->second.lanes[words - 1] & WHERRYOAR_WORD_CALLED))
        p->archive.lanes[words - 1] ^= WHERRYOAR_WORD_STORED;
    if (!sending)
        return;
    if (p->spoiled == PAIR_ANSWER)
        p->archive.outcome.item ^= 1;
    else if (p->spoiled == PAIR_STATE)
        p->archive.room[PAIR_GUARD + 5] ^= 0x80;
    else if (p->spoiled == PAIR_MEMORY)
        p->archive.buffer[PAIR_BUFFER - 1] ^= 0x01;
    else if (p->spoiled == PAIR_VIEW)
        p->archive.view.pointer ^= 0x01;
}

/* Looks at both states and compares all that is to be seen after a step. */
static int compared(pair *p, const pair_step *s)
{
    pair_side *a = &p->archive, *b = &p->second;

    a->view = view_of_archive(wherryoar_look(a->room + PAIR_GUARD, PAIR_IMAGE));
    b->view = second_look(b->room + PAIR_GUARD, PAIR_IMAGE);
    spoil(p, s);
    if (memcmp(&a->outcome, &b->outcome, sizeof a->outcome) != 0)
        return PAIR_ANSWER;
    if (memcmp(a->room, b->room, PAIR_ROOM) != 0)
        return PAIR_STATE;
    if (memcmp(a->buffer, b->buffer, PAIR_BUFFER) != 0)
        return PAIR_MEMORY;
    if (s->kind == PAIR_DRAW && memcmp(a->lanes, b->lanes, sizeof a->lanes) != 0)
        return PAIR_WORDS;
    return same_view(&a->view, &b->view) ? PAIR_SAME : PAIR_VIEW;
}

/* Puts an image into both states and asks with 00 which address hits; one that is no state's is looked at and taken out
   again. */
static int place(pair *p, const pair_step *s)
{
    uint8_t before[PAIR_IMAGE];
    int differ;

    memcpy(before, p->second.room + PAIR_GUARD, PAIR_IMAGE);
    memcpy(p->archive.room + PAIR_GUARD, s->bytes, PAIR_IMAGE);
    memcpy(p->second.room + PAIR_GUARD, s->bytes, PAIR_IMAGE);
    p->archive.outcome = of_archive(wherryoar_hit(s->bytes, PAIR_IMAGE, 0));
    p->second.outcome = of_second(second_hit(s->bytes, PAIR_IMAGE, 0));
    differ = compared(p, s);
    if (differ == PAIR_SAME && p->second.outcome.refusal != 0) {
        memcpy(p->archive.room + PAIR_GUARD, before, PAIR_IMAGE);
        memcpy(p->second.room + PAIR_GUARD, before, PAIR_IMAGE);
        differ = compared(p, s);
    }
    return differ;
}

/* A step on both; a drawing on lanes without words. */
int pair_make(pair *p, const pair_step *s)
{
    if (s->kind == PAIR_PLACE)
        return place(p, s);
    if (s->kind == PAIR_DRAW) {
        memset(p->archive.lanes, FILLER, sizeof p->archive.lanes);
        memset(p->second.lanes, FILLER, sizeof p->second.lanes);
    }
    p->archive.outcome = archive_call(&p->archive, s);
    p->second.outcome = second_call_for(&p->second, s);
    return compared(p, s);
}

/* Both afresh. */
int pair_setup(pair *p, uint8_t add, uint64_t n, const uint8_t *buffer)
{
    pair_step s;

    memset(&s, 0, sizeof s);
    s.kind = PAIR_SETUP;
    s.state_length = PAIR_IMAGE;
    s.number = add;
    s.n = n;
    memset(p->archive.room, FILLER, PAIR_ROOM);
    memset(p->second.room, FILLER, PAIR_ROOM);
    memcpy(p->archive.buffer, buffer, PAIR_BUFFER);
    memcpy(p->second.buffer, buffer, PAIR_BUFFER);
    return pair_make(p, &s);
}
