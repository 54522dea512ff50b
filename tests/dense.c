/* Runs and drawings in which a level stands for many samples, as a fast scope takes them: a run through the door beside single
   steps and beside the second program's run, a drawing beside the second program's. */
#include "second.h"
#include "slots.h"
#include "traffic.h"
#include "words.h"

#include <stdio.h>
#include <stdlib.h>
#include <string.h>

enum { IMAGE = DOOR_IMAGE, LONGEST = 4096, MEMORY = 256, BUF = 0, CON1 = 2, CON2 = 3, CON3 = 4, ADD = 5, FLAG = 7 };

/* What can be spoilt: an item of a run, or a word of a drawing. */
enum { SPOILT_RUN = 1, SPOILT_WORD };

enum { LONG_RUN = 1000000 }; /* items from which on slots of every case and of every byte have to come up, and holds for ADD */

/* A state with its memory. */
typedef struct {
    uint8_t image[IMAGE], memory[MEMORY];
} device;

/* The items of a run so far, the state that it begins with, and that state after each item by itself. */
typedef struct {
    traffic source;
    uint8_t trace[LONGEST];
    size_t length;
    device before, stepped;
    int spoil;
    unsigned long items, runs, rows, calls, differences;
    unsigned long words, calls_drawn, conflicts;  /* words of drawings, those of a handler call and of a conflict */
    unsigned long slots[SLOT_CASES];   /* rows after which a slot stands, by its case */
    unsigned long bytes[BYTES];        /* the same by the byte that it belongs to */
    unsigned long holds_for_add;       /* rows after which the clock is held for ADD */
} bench;

/* ---- One item at a time ---- */

/* An item goes to the stepped state and to the end of the trace. */
static void step(bench *b, unsigned item)
{
    device *d = &b->stepped;
    uint32_t refusal = item == TRAFFIC_CALL
                           ? door.call(d->image, IMAGE, d->memory, MEMORY, 0, b->source.n).refusal
                           : door.sample(d->image, IMAGE, (uint8_t)item).refusal;

    b->trace[b->length++] = (uint8_t)item;
    if (refusal != 0)
        b->differences++;
}

/* ---- The run ---- */

/* The levels of the trace without its handler calls; answers how many. */
static size_t record_of(const bench *b, uint8_t *record)
{
    size_t length = 0, i;

    for (i = 0; i < b->length; i++)
        if (b->trace[i] != TRAFFIC_CALL)
            record[length++] = b->trace[i];
    return length;
}

/* Counts the words of a drawing. */
static void count_words(bench *b, const uint64_t *lanes, size_t length)
{
    size_t i;

    b->words += length;
    for (i = 0; i < length; i++) {
        b->calls_drawn += (unsigned long)word_has(lanes[i], WORD_CALLED);
        b->conflicts += (unsigned long)word_has(lanes[i], WORD_CONFLICT);
    }
}

/* The door's drawing and the second program's over the levels of the trace, from the state that it began with. The handler calls
   of the trace are none of theirs, so that they need not come to the stepped state. */
static void compare_drawings(bench *b)
{
    static uint8_t record[LONGEST];
    static uint64_t lanes[LONGEST], second_lanes[LONGEST];
    device drawn = b->before, second = b->before;
    word_scene s = {drawn.image, drawn.memory, MEMORY, 0, b->source.n};
    size_t length = record_of(b, record);
    int fine = word_took(word_draw(&s, record, length, lanes, LONGEST), length);

    fine = fine && second_draw(second.image, IMAGE, second.memory, MEMORY, 0, b->source.n, record, length, second_lanes,
                               LONGEST).items == length;
    if (b->spoil == SPOILT_WORD && length > 0)
        lanes[length / 2] ^= (uint64_t)1 << WORD_BUF;
    count_words(b, second_lanes, length);
    if (!fine || memcmp(&drawn, &second, sizeof drawn) != 0 || memcmp(lanes, second_lanes, length * sizeof lanes[0]) != 0)
        b->differences++;
}

/* The door's run and the second program's over the trace, from the state that it began with. */
static void compare(bench *b)
{
    device run = b->before, second = b->before;
    uint32_t refusals;

    if (b->length == 0)
        return;
    compare_drawings(b);
    if (b->spoil == SPOILT_RUN && b->trace[b->length / 2] != TRAFFIC_CALL)
        b->trace[b->length / 2] ^= TRAFFIC_SDA;
    refusals = door.run(run.image, IMAGE, run.memory, MEMORY, 0, b->source.n, b->trace, b->length).refusal;
    refusals |= second_run(second.image, IMAGE, second.memory, MEMORY, 0, b->source.n, b->trace, b->length).refusal;
    if (refusals != 0 || memcmp(&run, &b->stepped, sizeof run) != 0 || memcmp(&run, &second, sizeof run) != 0)
        b->differences++;
    b->runs++;
    b->length = 0;
    b->before = b->stepped;
}

/* What software does in the hold for ADD, between two runs: mostly it reads BUF, and it writes ADD. */
static void serve_hold(bench *b, unsigned next)
{
    uint8_t *image = b->stepped.image;
    uint32_t refusals = 0;

    compare(b);
    if (!traffic_once_in(&b->source, 4))
        refusals |= door.read(image, IMAGE, BUF).refusal;
    refusals |= door.write(image, IMAGE, ADD, traffic_update(&b->source, next)).refusal;
    b->differences += refusals != 0;
    b->before = b->stepped;
}

/* Counts what stands after a row. */
static void count_view(bench *b, const door_view *v)
{
    b->holds_for_add += v->phase == DOOR_HELD_ADD;
    if (v->phase != DOOR_SLOT)
        return;
    b->slots[slot_case(v->sda_pulled, v->refused)]++;
    b->bytes[v->which % BYTES]++;
}

/* Takes an item of the traffic: a level many times over, a handler call once. */
static int take(void *to, unsigned item)
{
    bench *b = to;
    unsigned times = item == TRAFFIC_CALL ? 1 : traffic_times(&b->source);
    door_view v;

    if (b->length + times > LONGEST)
        compare(b);
    if (item == TRAFFIC_CALL)
        b->calls++;
    else
        b->rows++;
    b->items += times;
    while (times-- > 0)
        step(b, item);
    v = door.look(b->stepped.image, IMAGE);
    count_view(b, &v);
    if (v.phase == DOOR_HELD_ADD && traffic_once_in(&b->source, 2)) {
        serve_hold(b, v.next);
        return 0;
    }
    return v.scl_pulled;
}

/* ---- Rounds ---- */

/* A fresh state, mostly with other settings than the handler's: switched off, then mostly on again with any mode. */
static int begin(bench *b)
{
    static const uint16_t lengths[4] = {1, 2, 255, 256};
    traffic *t = &b->source;
    uint32_t refusals;

    t->n = lengths[traffic_below(t, 4)];
    t->add = (uint8_t)(traffic_below(t, 128) * 2);
    traffic_choose_ten(t, traffic_once_in(t, 2));
    memset(&b->stepped, 0, sizeof b->stepped);
    refusals = door.setup(b->stepped.image, IMAGE, t->add, t->n).refusal;
    if (!traffic_once_in(t, 3)) {
        refusals |= door.write(b->stepped.image, IMAGE, CON2, (uint8_t)(traffic_below(t, 256) & 0xA1)).refusal;
        refusals |= door.write(b->stepped.image, IMAGE, CON3, (uint8_t)(traffic_below(t, 256) & 0x63)).refusal;
        refusals |= door.write(b->stepped.image, IMAGE, CON1, 0x16).refusal;
        if (!traffic_once_in(t, 8))
            refusals |= door.write(b->stepped.image, IMAGE, CON1, (traffic_once_in(t, 2) ? 0x3E : 0x36) | t->ten).refusal;
    }
    b->before = b->stepped;
    b->length = 0;
    return refusals == 0;
}

/* A run ends here; software clears SSPIF, so that the next run shows where it comes from. */
static int run_ends(bench *b)
{
    uint32_t refusal;

    compare(b);
    refusal = door.write(b->stepped.image, IMAGE, FLAG, 0).refusal;
    b->before = b->stepped;
    return refusal == 0;
}

/* Some messages and noise, in runs of their own and over each other's ends. */
static int round_of(bench *b)
{
    unsigned messages = 1 + traffic_below(&b->source, 6);
    int fine = begin(b);

    while (fine && messages-- > 0) {
        b->source.left = 400;
        if (traffic_once_in(&b->source, 6))
            traffic_noise(&b->source);
        traffic_message(&b->source);
        if (traffic_once_in(&b->source, 2))
            fine = run_ends(b);
    }
    compare(b);
    return fine;
}

/* Whether slots of every case and of every byte have come up, and holds for ADD; in drawings handler calls and conflicts. */
static int all_reached(const bench *b)
{
    int i;

    for (i = 0; i < BYTES; i++)
        if (b->bytes[i] == 0)
            return 0;
    return slots_all(b->slots) && b->holds_for_add > 0 && b->calls_drawn > 0 && b->conflicts > 0;
}

/* The arguments: about how many items, a seed, and 1 or 2 where runs or words are spoilt, which has to be found. */
int main(int argc, char **argv)
{
    static bench b;
    unsigned long items = argc > 1 ? strtoul(argv[1], NULL, 10) : 20000000ul;
    int fine = 1;

    b.source.seed = argc > 2 ? strtoul(argv[2], NULL, 10) : 1;
    b.source.seed += b.source.seed == 0;
    b.spoil = argc > 3 ? atoi(argv[3]) : 0;
    b.source.take = take;
    b.source.to = &b;
    while (b.items < items && fine && (b.spoil || b.differences == 0))
        fine = round_of(&b);
    printf("items %lu rows %lu calls %lu runs %lu words %lu of a call %lu of a conflict %lu ", b.items, b.rows, b.calls, b.runs,
           b.words, b.calls_drawn, b.conflicts);
    slots_tell(b.slots);
    printf(" of a high byte %lu low byte %lu asking to send %lu held for ADD %lu differences %lu\n", b.bytes[BYTE_HIGH],
           b.bytes[BYTE_LOW], b.bytes[BYTE_HIGH_TO_SEND], b.holds_for_add, b.differences);
    return fine && (items < LONG_RUN || all_reached(&b)) && (b.differences != 0) == (b.spoil != 0) ? 0 : 1;
}
