/* Makes a round again, shrinks it to the few steps that show a difference, and tells it in the form of the stored cases. */
#include "round.h"

#include <stdio.h>
#include <string.h>

enum { HANDLER_CALL = 4, NO_WIRE = 255 };

/* ---- Again, and shorter ---- */

/* The whole round again. */
size_t round_again(const round_of_steps *r, pair *p)
{
    size_t i;

    p->spoiled = r->spoiled;
    if (pair_setup(p, r->add, r->n, r->buffer) != PAIR_SAME)
        return 1;
    for (i = 0; i < r->count; i++)
        if (pair_make(p, &r->steps[i]) != PAIR_SAME)
            return i + 1;
    return 0;
}

/* Takes a candidate in place of the round where it still shows a difference, up to the step that does. */
static int take_if_differing(round_of_steps *r, const round_of_steps *candidate)
{
    static pair p;
    size_t steps = round_again(candidate, &p);

    if (steps == 0)
        return 0;
    *r = *candidate;
    if (steps < r->count)
        r->count = steps;
    return 1;
}

/* Drops stretches of this many steps wherever a difference stays; answers whether any was dropped. */
static int drop_stretches(round_of_steps *r, size_t length)
{
    static round_of_steps candidate;
    size_t from = 0;
    int dropped = 0;

    while (from < r->count) {
        size_t cut = r->count - from < length ? r->count - from : length;

        candidate = *r;
        memmove(&candidate.steps[from], &candidate.steps[from + cut],
                (r->count - from - cut) * sizeof candidate.steps[0]);
        candidate.count -= cut;
        if (take_if_differing(r, &candidate))
            dropped = 1;
        else
            from += length;
    }
    return dropped;
}

/* An item of a run as a step of its own; one of a drawing as a drawing of its own. */
static pair_step single(const pair_step *whole, unsigned place)
{
    pair_step s = *whole;

    if (whole->kind == PAIR_DRAW) {
        s.bytes[0] = whole->bytes[place];
        s.count = s.lanes = 1;
        return s;
    }
    s.kind = whole->bytes[place] == HANDLER_CALL ? PAIR_CALL : PAIR_SAMPLE;
    s.number = s.kind == PAIR_SAMPLE ? whole->bytes[place] : 0;
    s.count = 0;
    return s;
}

/* How many items a run or a drawing takes; of a drawing of one, and of every other step, none can be split off. */
static unsigned items_of(const pair_step *s)
{
    unsigned drawn = s->count < s->lanes ? s->count : s->lanes;

    if (s->kind == PAIR_RUN)
        return s->count;
    return s->kind == PAIR_DRAW && drawn > 1 ? drawn : 0;
}

/* Puts the items of a run or a drawing in its place, one by one, where they fit and a difference stays. */
static int split_run(round_of_steps *r, size_t at)
{
    static round_of_steps candidate;
    unsigned items = items_of(&r->steps[at]), i;

    if (items == 0 || r->count + items - 1 > ROUND_STEPS)
        return 0;
    candidate = *r;
    memmove(&candidate.steps[at + items], &candidate.steps[at + 1],
            (r->count - at - 1) * sizeof candidate.steps[0]);
    for (i = 0; i < items; i++)
        candidate.steps[at + i] = single(&r->steps[at], i);
    candidate.count = r->count + items - 1;
    return take_if_differing(r, &candidate);
}

/* Splits the first run that can be; answers whether there was one. */
static int split_some_run(round_of_steps *r)
{
    size_t i;

    for (i = 0; i < r->count; i++)
        if (split_run(r, i))
            return 1;
    return 0;
}

/* Drops so many items in a row from a drawing, wherever a difference stays. */
static void drop_items(round_of_steps *r, size_t at, unsigned length)
{
    static round_of_steps candidate;
    pair_step *s = &candidate.steps[at];
    unsigned from = 0;

    while (at < r->count && r->steps[at].kind == PAIR_DRAW && from + length <= r->steps[at].count) {
        candidate = *r;
        s->count = (uint8_t)(s->count - length);
        memmove(s->bytes + from, s->bytes + from + length, s->count - from);
        if (!take_if_differing(r, &candidate))
            from += length;
    }
}

/* Drops items from every drawing, many in a row and then few. */
static void shorten_drawings(round_of_steps *r)
{
    unsigned length;
    size_t i;

    for (length = PAIR_BYTES / 2; length > 0; length /= 2)
        for (i = 0; i < r->count; i++)
            drop_items(r, i, length);
}

/* Drops, splits and shortens. */
void round_shrink(round_of_steps *r)
{
    static round_of_steps whole;

    whole = *r;
    if (!take_if_differing(r, &whole))
        return;
    do {
        size_t length;

        for (length = r->count / 2; length > 1; length /= 2)
            (void)drop_stretches(r, length);
        while (drop_stretches(r, 1))
            continue;
    } while (split_some_run(r));
    shorten_drawings(r);
}

/* ---- Telling ---- */

/* Bytes in hex. */
static void tell_bytes(const uint8_t *bytes, size_t length)
{
    size_t i;

    for (i = 0; i < length; i++)
        printf("%02X", bytes[i]);
}

/* The phase with its parts. */
static void tell_phase(const second_view *v)
{
    static const char *const names[9] = {"quiet", "address", "data", "before", "slot", "load", "send", "answer", "update"};

    printf("%s", v->phase < 9 ? names[v->phase] : "none");
    if (v->phase == 1)
        printf(":%u:%02X:%u", v->bits, v->byte, v->which);
    else if (v->phase == 2)
        printf(":%u:%02X:%u", v->bits, v->byte, v->scl_pulled);
    else if (v->phase == 3)
        printf(":%u:%u", v->refused, v->which);
    else if (v->phase == 4)
        printf(":%u:%u:%u", v->sda_pulled, v->refused, v->which);
    else if (v->phase == 6)
        printf(":%02X:%u", v->byte, v->bits);
    else if (v->phase == 8)
        printf(":%u", v->next);
}

/* All that is seen of a state. */
static void tell_view(const second_view *v)
{
    printf("%02X %02X %02X %02X %02X %02X %02X %02X %c%c ", v->buf, v->stat, v->con1, v->con2, v->con3, v->add,
           v->msk, v->flag, v->scl_pulled ? 'C' : '.', v->sda_pulled ? 'D' : '.');
    tell_phase(v);
    if (v->wire == NO_WIRE)
        printf(" -");
    else
        printf(" %u", v->wire);
    printf(" %u %u %u %u", v->mark, v->full, v->pointer, v->due);
}

/* The window of a call, a run or a drawing, where it is not the round's own. */
static void tell_window(const round_of_steps *r, const pair_step *s)
{
    if (s->start != r->start || s->n != r->n || s->buffer_length != PAIR_BUFFER)
        printf(" start %llu n %llu of %lu", (unsigned long long)s->start, (unsigned long long)s->n,
               (unsigned long)s->buffer_length);
}

/* The items of a run or the levels of a record. */
static void tell_items(const pair_step *s)
{
    unsigned i;

    for (i = 0; i < s->count; i++)
        printf("%s%u", i == 0 ? "" : ",", s->bytes[i]);
}

/* A drawing: its levels, how many lanes it was lent, and the words that it gave. */
static void tell_draw(const pair_step *s, const pair_side *side)
{
    uint64_t i;

    printf("d %s", s->count == 0 ? "-" : "");
    tell_items(s);
    printf(" %u", s->lanes);
    for (i = 0; i < side->outcome.length; i++)
        printf("%s%016llX", i == 0 ? " " : ",", (unsigned long long)side->lanes[i]);
}

/* What a step does; a read tells what it gave. */
static void tell_step(const round_of_steps *r, const pair_step *s, const pair_side *side)
{
    if (s->kind == PAIR_SAMPLE) {
        printf("s %u", s->number);
    } else if (s->kind == PAIR_CALL) {
        printf("h");
        tell_window(r, s);
    } else if (s->kind == PAIR_READ) {
        printf("r %u", s->number);
        if (side->outcome.refusal == 0)
            printf(" %02X", (unsigned)side->outcome.value);
    } else if (s->kind == PAIR_WRITE) {
        printf("w %u %02X", s->number, s->value);
    } else if (s->kind == PAIR_RUN) {
        printf("run ");
        tell_items(s);
        tell_window(r, s);
    } else if (s->kind == PAIR_PLACE) {
        printf("place ");
        tell_bytes(s->bytes, PAIR_IMAGE);
    } else if (s->kind == PAIR_SETUP) {
        printf("setup add %02X n %llu", s->number, (unsigned long long)s->n);
    } else if (s->kind == PAIR_HIT) {
        printf("hit %02X", s->value);
    } else if (s->kind == PAIR_DRAW) {
        tell_draw(s, side);
        tell_window(r, s);
    } else {
        printf("find %llu in ", (unsigned long long)s->start);
        tell_items(s);
    }
    if (s->state_length != PAIR_IMAGE)
        printf(" length %u", s->state_length);
}

/* What a step gave, by one side. */
static void tell_outcome(const pair_step *s, const pair_side *side)
{
    const pair_outcome *o = &side->outcome;

    if (o->refusal != 0)
        printf("refused %lu", (unsigned long)o->refusal);
    if (o->refusal == 4 && (s->kind == PAIR_RUN || s->kind == PAIR_FIND || s->kind == PAIR_DRAW))
        printf(" at %llu", (unsigned long long)o->item);
    if (o->refusal != 0)
        return;
    if (s->kind == PAIR_FIND)
        printf("start %llu length %llu", (unsigned long long)o->start, (unsigned long long)o->length);
    else if (s->kind == PAIR_HIT)
        printf("%llu", (unsigned long long)o->value);
    else
        tell_view(&side->view);
}

/* The first byte that differs. */
static void tell_byte(const char *what, const uint8_t *archive, const uint8_t *second, size_t length)
{
    size_t i = 0;

    while (i < length && archive[i] == second[i])
        i++;
    if (i < length)
        printf("# byte %lu of the %s: archive %02X, second program %02X\n", (unsigned long)i, what, archive[i], second[i]);
}

/* The first lane that differs. */
static void tell_lane(const uint64_t *archive, const uint64_t *second)
{
    size_t i = 0;

    while (i < PAIR_LANES && archive[i] == second[i])
        i++;
    if (i < PAIR_LANES)
        printf("# lane %lu: archive %016llX, second program %016llX\n", (unsigned long)i, (unsigned long long)archive[i],
               (unsigned long long)second[i]);
}

/* Where the two differ after the last step, as remarks. */
static void tell_difference(const pair *p, int differ)
{
    static const char *const places[7] = {"nothing", "the answer", "the state", "the buffer", "the view", "", "the lanes"};
    const pair_outcome *a = &p->archive.outcome, *b = &p->second.outcome;

    printf("# the last step differs in %s\n", places[differ]);
    if (differ == PAIR_ANSWER)
        printf("# refusal, value, item, start, length: archive %llu %llu %llu %llu %llu, second program"
               " %llu %llu %llu %llu %llu\n", (unsigned long long)a->refusal, (unsigned long long)a->value,
               (unsigned long long)a->item, (unsigned long long)a->start, (unsigned long long)a->length,
               (unsigned long long)b->refusal, (unsigned long long)b->value, (unsigned long long)b->item,
               (unsigned long long)b->start, (unsigned long long)b->length);
    tell_byte("room of 16 guard bytes and the state", p->archive.room, p->second.room, PAIR_ROOM);
    tell_byte("buffer", p->archive.buffer, p->second.buffer, PAIR_BUFFER);
    if (differ == PAIR_WORDS)
        tell_lane(p->archive.lanes, p->second.lanes);
    printf("# archive: ");
    tell_view(&p->archive.view);
    printf("; which %u next %u\n", p->archive.view.which, p->archive.view.next);
}

/* The line that ends a case: the places of the memory whose byte has changed, each with its byte. */
static void tell_end(const uint8_t *before, const uint8_t *after, unsigned n)
{
    unsigned i;

    printf("end changed");
    for (i = 0; i < n; i++)
        if (before[i] != after[i])
            printf(" %u:%02X", i, after[i]);
    printf("%s\n", memcmp(before, after, n) == 0 ? " -" : "");
}

/* The round as a case. */
size_t round_tell(const round_of_steps *r)
{
    static pair p;
    size_t i;
    int differ;

    p.spoiled = r->spoiled;
    differ = pair_setup(&p, r->add, r->n, r->buffer);
    printf("case 1 add %02X n %u mem ", r->add, r->n);
    tell_bytes(r->buffer + r->start, r->n);
    printf("\n");
    for (i = 0; i < r->count && differ == PAIR_SAME; i++) {
        differ = pair_make(&p, &r->steps[i]);
        tell_step(r, &r->steps[i], &p.second);
        printf(" > ");
        tell_outcome(&r->steps[i], &p.second);
        printf("\n");
    }
    tell_difference(&p, differ);
    tell_end(r->buffer + r->start, p.second.buffer + r->start, r->n);
    return r->count;
}
