/* Mangles images that random traffic reached: each is refused with 6 and left alone by every call, or taken as a state. */
#include "hits.h"
#include "modes.h"
#include "slots.h"
#include "traffic.h"
#include "words.h"
#include "write_refusal.h"

#include <stdio.h>
#include <stdlib.h>
#include <string.h>

enum { REGISTERS = 8, STAT = 1, CON1 = 2, ADD = 5, MSK = 6, FLAG = 7, AT_PHASE = 8, AT_N = 16, UA = 0x02 };

/* The room that an image is laid into, guard bytes around it and a shift of up to 7 bytes before it. */
enum { GUARD = 16, SHIFTS = 8, LONGEST = 64, ROOM = GUARD + SHIFTS + LONGEST + GUARD, FILLER = 0x5A };

enum { BUFFER = 320, TRACE = 24, PER_ITEM = 3, EARLIER = 64 };

/* What a call on bytes that are no state's must have, a write that changes the mode under way, and one that masks ten bits. */
enum { NO_STATE = 6, MODE_UNDER_WAY = 8, MASKED = 9 };

/* The calls that a mangled image goes through, beside look, hit and draw. */
enum { SETUP, READ, WRITE, SAMPLE, CALL, RUN };
static const char *const names[6] = {"setup", "read", "write", "sample", "call", "run"};

/* A mangled image with the length it is lent with. */
typedef struct {
    uint8_t bytes[LONGEST];
    size_t length;
} mangled;

/* The live state that traffic drives, images it had earlier, and the room that the mangled ones are tried in. */
typedef struct {
    traffic source;
    uint8_t image[DOOR_IMAGE];
    uint8_t memory[BUFFER];       /* the live state's buffer */
    uint16_t n;
    uint8_t earlier[EARLIER][DOOR_IMAGE];
    uint8_t room[ROOM];
    uint8_t kept[ROOM];           /* the room as it was before a call */
    size_t at;                    /* where in the room the image lies */
    uint8_t buffer[BUFFER];
    uint8_t untouched[BUFFER];    /* the buffer as it was before a call */
    unsigned long wanted, mutations, taken, refused, modes, masked, calls, failures;
    unsigned long slots[SLOT_CASES];   /* mutations taken as a slot, by its case */
    unsigned long bytes[BYTES];        /* mutations taken as an address, a hold or a slot, by the byte it belongs to */
    unsigned long nexts[NEXTS];        /* mutations taken as a hold for ADD, by what follows it */
    unsigned long full;                /* mutations taken with the full match */
    unsigned long hits[HITS];          /* answers to which address a first byte hits */
} bench;

/* A window with all that a call on it needs. */
typedef struct {
    uint64_t start, n;
    size_t buffer_length;
} window;

/* The next random number below a limit. */
static unsigned below(bench *b, unsigned limit)
{
    return traffic_below(&b->source, limit);
}

/* Tells a failure with the image that showed it. */
static void fail(bench *b, const mangled *m, const char *what)
{
    size_t i;

    if (b->failures++ >= 10)
        return;
    printf("failed: %s, length %lu, image ", what, (unsigned long)m->length);
    for (i = 0; i < m->length; i++)
        printf("%02X", m->bytes[i]);
    printf("\n");
}

/* ---- Mutations ---- */

/* Turns over a few bits. */
static void flip_bits(bench *b, mangled *m)
{
    unsigned times = 1 + below(b, 3);

    while (times-- > 0)
        m->bytes[below(b, DOOR_IMAGE)] ^= (uint8_t)(1u << below(b, 8));
}

/* Changes a few bytes, to any value, by one, or to one at the edge of a range; the bytes that tell a slot's case and which byte
   it belongs to as often as all the others in a slot. */
static void change_bytes(bench *b, mangled *m)
{
    static const uint8_t edges[10] = {0, 1, 2, 3, 4, 7, 8, 9, 254, 255};
    unsigned times = 1 + below(b, 3);

    while (times-- > 0) {
        int slot = m->bytes[AT_PHASE] == DOOR_SLOT && below(b, 2);
        unsigned parts = below(b, 3) ? (unsigned)WHICH_AT : (unsigned)PART_AT;
        uint8_t *byte = &m->bytes[slot ? parts : below(b, below(b, 2) ? DOOR_IMAGE : 21)];
        unsigned pick = below(b, 4);

        if (pick == 0)
            *byte = (uint8_t)below(b, 256);
        else if (pick == 1)
            *byte = edges[below(b, 10)];
        else
            *byte = (uint8_t)(*byte + (pick == 2 ? 1 : 255));
    }
}

/* Swaps two bytes. */
static void swap_bytes(bench *b, mangled *m)
{
    unsigned first = below(b, DOOR_IMAGE), second = below(b, DOOR_IMAGE);
    uint8_t byte = m->bytes[first];

    m->bytes[first] = m->bytes[second];
    m->bytes[second] = byte;
}

/* Puts a stretch of an earlier image over this one. */
static void splice(bench *b, mangled *m)
{
    const uint8_t *other = b->earlier[below(b, EARLIER)];
    unsigned from = below(b, DOOR_IMAGE), length = below(b, DOOR_IMAGE - from + 1);

    memcpy(m->bytes + from, other + from, length);
}

/* Any bytes at all, the rarer ones with an image's zeros behind. */
static void any_bytes(bench *b, mangled *m)
{
    unsigned places = below(b, 2) ? DOOR_IMAGE : 14, i;

    for (i = 0; i < places; i++)
        m->bytes[i] = (uint8_t)below(b, 256);
}

/* The live image, mangled in one of six ways. */
static void mangle(bench *b, mangled *m)
{
    unsigned pick = below(b, 12), i;

    memset(m, 0, sizeof *m);
    memcpy(m->bytes, b->image, DOOR_IMAGE);
    m->length = DOOR_IMAGE;
    if (pick < 3) {
        flip_bits(b, m);
    } else if (pick < 6) {
        change_bytes(b, m);
    } else if (pick < 8) {
        swap_bytes(b, m);
    } else if (pick < 10) {
        splice(b, m);
    } else if (pick < 11) {
        any_bytes(b, m);
    } else {
        m->length = below(b, LONGEST + 1);
        for (i = DOOR_IMAGE; i < LONGEST; i++)
            m->bytes[i] = (uint8_t)(below(b, 2) ? 0 : below(b, 256));
    }
}

/* ---- One call on a mangled image ---- */

/* Lays the image into the room afresh and answers where. */
static uint8_t *lay(bench *b, const mangled *m)
{
    memset(b->room, FILLER, ROOM);
    memcpy(b->room + b->at, m->bytes, m->length);
    memcpy(b->kept, b->room, ROOM);
    b->calls++;
    return b->room + b->at;
}

/* Whether state, buffer and guard bytes are as they were. */
static int left_alone(const bench *b)
{
    return memcmp(b->room, b->kept, ROOM) == 0 && memcmp(b->buffer, b->untouched, BUFFER) == 0;
}

/* Whether only the image and the window have changed, and the image is a state's with the same n. */
static int well_changed(bench *b, const window *w)
{
    const uint8_t *image = b->room + b->at;
    size_t start = (size_t)w->start, after = start + (size_t)w->n, behind = b->at + DOOR_IMAGE;
    door_view v = door.look(image, DOOR_IMAGE);
    int fine = v.refusal == 0 && v.n == w->n
        && memcmp(b->room, b->kept, b->at) == 0
        && memcmp(b->room + behind, b->kept + behind, ROOM - behind) == 0
        && memcmp(b->buffer, b->untouched, start) == 0
        && memcmp(b->buffer + after, b->untouched + after, BUFFER - after) == 0;

    memcpy(b->buffer + start, b->untouched + start, (size_t)w->n);
    return fine;
}

/* Checks a call's answer and what it left, by the refusal it must have, 0 for none. */
static void check(bench *b, const mangled *m, const window *w, unsigned refusal, door_answer a, int call)
{
    int fine = a.refusal == refusal && a.item == 0;

    if (refusal != 0)
        fine = fine && a.value == 0 && left_alone(b);
    else
        fine = fine && (call == READ || a.value == 0) && well_changed(b, w);
    if (!fine)
        fail(b, m, names[call]);
}

/* Which address a first byte hits: by the registers alone on a state, else refused. */
static void check_hit(bench *b, const mangled *m, unsigned refusal)
{
    unsigned pick = below(b, HIT_BYTES), byte = hit_byte(m->bytes, pick, below(b, 256));
    unsigned which = refusal == 0 ? hit_of(m->bytes, byte) : 0;
    door_answer a = door.hit(lay(b, m), m->length, (uint8_t)byte);

    if (a.refusal != refusal || a.value != which || a.item != 0 || !left_alone(b))
        fail(b, m, "hit");
    if (refusal == 0)
        b->hits[which]++;
}

/* Register access and a sample; on a state, which has no refusal, the write can still have one. */
static void single_calls(bench *b, const mangled *m, const window *w, unsigned refusal)
{
    uint8_t number = (uint8_t)below(b, REGISTERS), value = (uint8_t)below(b, 256), level = (uint8_t)below(b, 4);
    unsigned written = refusal == 0 ? write_refusal(m->bytes, number, value) : refusal;

    if (refusal != 0 && below(b, 4) == 0) {
        number = (uint8_t)(REGISTERS + below(b, 248));
        level = value;
    }
    b->modes += written == MODE_UNDER_WAY;
    b->masked += written == MASKED;
    check(b, m, w, refusal, door.read(lay(b, m), m->length, number), READ);
    check(b, m, w, written, door.write(lay(b, m), m->length, number, value), WRITE);
    check(b, m, w, refusal, door.sample(lay(b, m), m->length, level), SAMPLE);
}

/* A drawing: refused, with the lanes left alone too, or done up to the shorter of record and lanes. */
static void check_draw(bench *b, const mangled *m, const window *w, unsigned refusal, const uint8_t *record, size_t length)
{
    uint64_t lanes[TRACE], kept_lanes[TRACE];
    size_t lent = below(b, TRACE + 1), count = refusal != 0 ? 0 : lent < length ? lent : length;
    door_taken t;
    int fine;

    memset(lanes, FILLER, sizeof lanes);
    memset(kept_lanes, FILLER, sizeof kept_lanes);
    t = door.draw(lay(b, m), m->length, b->buffer, w->buffer_length, w->start, w->n, record, length, lanes, lent);
    if (refusal != 0)
        fine = word_refused(t, refusal, 0) && left_alone(b);
    else
        fine = word_took(t, count) && well_changed(b, w);
    if (!fine || memcmp(lanes + count, kept_lanes + count, (TRACE - count) * sizeof lanes[0]) != 0)
        fail(b, m, "draw");
}

/* A handler call, a run and a drawing; bytes that are no state's get them with a wrong window and a bad item too. */
static void window_calls(bench *b, const mangled *m, const window *w, unsigned refusal)
{
    uint8_t trace[TRACE], record[TRACE];
    size_t length = below(b, TRACE + 1), i;

    for (i = 0; i < length; i++) {
        trace[i] = (uint8_t)below(b, refusal != 0 && w->n == 0 ? 256 : 5);
        record[i] = refusal != 0 ? trace[i] : trace[i] & 3;
    }
    check(b, m, w, refusal, door.call(lay(b, m), m->length, b->buffer, w->buffer_length, w->start, w->n), CALL);
    check(b, m, w, refusal,
          door.run(lay(b, m), m->length, b->buffer, w->buffer_length, w->start, w->n, trace, length), RUN);
    check_draw(b, m, w, refusal, record, length);
}

/* Whether every field of a view but the refusal is 0. */
static int is_empty(door_view v)
{
    return !(v.buf | v.stat | v.con1 | v.con2 | v.con3 | v.add | v.msk | v.flag | v.scl_pulled | v.sda_pulled
             | v.phase | v.bits | v.byte | v.refused | v.wire | v.mark | v.due | v.n | v.pointer | v.which | v.next | v.full);
}

/* A window that fits a state's n, anywhere in the buffer; for no state's bytes the live one's n or none. */
static window some_window(bench *b, int state, unsigned n)
{
    window w;

    w.n = state ? n : below(b, 2) ? b->n : 0;
    w.start = below(b, BUFFER - (unsigned)w.n + 1);
    w.buffer_length = (size_t)w.start + (size_t)w.n;
    w.buffer_length += below(b, BUFFER - (unsigned)w.buffer_length + 1);
    return w;
}

/* A slot that is taken shows the case that its image tells. */
static void check_slot(bench *b, const mangled *m, const door_view *v)
{
    unsigned shown = slot_case(v->sda_pulled, v->refused);

    if (v->refusal != 0 || v->phase != DOOR_SLOT)
        return;
    b->slots[shown]++;
    if (shown != m->bytes[PART_AT])
        fail(b, m, "look shows another case of a slot");
}

/* A state shows which byte it belongs to, what follows and the full match as its image tells them, and UA exactly in the hold
   for ADD; all of it only where ten bits run without a mask. */
static void check_ten_bits(bench *b, const mangled *m, const door_view *v)
{
    int for_add = v->phase == DOOR_HELD_ADD, theirs = for_add || v->which != 0 || v->full != 0;
    unsigned told = for_add ? v->next : v->which;

    if (v->refusal != 0)
        return;
    if (told != m->bytes[WHICH_AT] || (for_add ? v->which : v->next) != 0 || v->full != m->bytes[FULL_AT])
        fail(b, m, "look shows other parts of ten bits");
    if (v->stat != (m->bytes[STAT] | (for_add ? UA : 0)))
        fail(b, m, "look shows another STAT");
    if (theirs && !(mode_runs_ten(m->bytes[CON1]) && m->bytes[MSK] == 0xFF))
        fail(b, m, "a phase of ten bits where they do not run");
    b->bytes[v->which % BYTES] += v->phase == DOOR_ADDRESS || v->phase == DOOR_HELD_BEFORE || v->phase == DOOR_SLOT;
    b->nexts[v->next % NEXTS] += (unsigned)for_add;
    b->full += v->full;
}

/* One mutation through every call. */
static void try_one(bench *b)
{
    mangled m;
    door_view v;
    window w;
    int state;
    unsigned refusal;

    mangle(b, &m);
    b->mutations++;
    b->at = GUARD + below(b, SHIFTS);
    v = door.look(lay(b, &m), m.length);
    state = v.refusal == 0;
    refusal = state ? 0 : NO_STATE;
    b->taken += (unsigned long)state;
    b->refused += (unsigned long)!state;
    if (!left_alone(b))
        fail(b, &m, "look leaves all alone");
    if (!state && (v.refusal != NO_STATE || !is_empty(v)))
        fail(b, &m, "look on no state's bytes");
    if (state && (m.length != DOOR_IMAGE || v.n != m.bytes[AT_N] + 256u * m.bytes[AT_N + 1]))
        fail(b, &m, "look takes another length or tells another n");
    check_slot(b, &m, &v);
    check_ten_bits(b, &m, &v);
    check_hit(b, &m, refusal);
    w = some_window(b, state, v.n);
    single_calls(b, &m, &w, refusal);
    window_calls(b, &m, &w, refusal);
    if (m.length != DOOR_IMAGE)
        check(b, &m, &w, NO_STATE, door.setup(lay(b, &m), m.length, 0x30, below(b, 300)), SETUP);
}

/* ---- The live state ---- */

/* A write to the live state, refused as the paper has it; answers the refusal. */
static unsigned put(bench *b, unsigned number, unsigned value)
{
    unsigned wanted = write_refusal(b->image, number, value);

    if (door.write(b->image, DOOR_IMAGE, number, (uint8_t)value).refusal != wanted)
        b->failures++;
    return wanted;
}

/* Switches over to a mode with the module switched off before, ten bits mostly without a mask. */
static void switch_over(bench *b, unsigned con1)
{
    (void)put(b, CON1, 0x16);
    if (mode_is_ten(con1) && below(b, 8) != 0)
        (void)put(b, MSK, 0xFF);
    (void)put(b, CON1, con1);
}

/* Now and then a register of the live state is written, so that every kind of hold and slot comes up. A mode refused under
   way, or with a mask, is mostly written again in the way that goes. */
static void set_register(bench *b)
{
    static const uint8_t kept[REGISTERS] = {0xFF, 0xFF, 0, 0xE1, 0xEF, 0xFF, 0xFF, 0x01};
    unsigned number = below(b, REGISTERS), value = below(b, 256) & kept[number];

    if (number == CON1)
        value = (below(b, 12) == 0 ? 0x16u : below(b, 5) < 2 ? 0x36u : 0x3Eu) | b->source.ten;
    if (number >= 5 && number != FLAG && below(b, 8) != 0)
        return;
    if (put(b, number, value) >= MODE_UNDER_WAY && number == CON1 && below(b, 8) != 0)
        switch_over(b, value);
}

/* What software does in the hold for ADD: mostly it reads BUF and writes ADD, else it turns CKP over. Where a message was cut
   short, it puts the high byte back. */
static void serve_ten_bits(bench *b)
{
    door_view v = door.look(b->image, DOOR_IMAGE);

    if (v.phase == DOOR_HELD_ADD && below(b, 4) == 0) {
        (void)put(b, CON1, v.con1 ^ 0x10u);
    } else if (v.phase == DOOR_HELD_ADD) {
        if (below(b, 4) != 0)
            (void)door.read(b->image, DOOR_IMAGE, 0);
        (void)put(b, ADD, traffic_update(&b->source, v.next));
    } else if (v.phase == DOOR_QUIET && v.add != b->source.add) {
        (void)put(b, ADD, b->source.add);
    }
}

/* Takes an item of the traffic on the live state, and mangles the image a few times. */
static int take(void *to, unsigned item)
{
    bench *b = to;
    door_answer a;
    int i;

    if (below(b, 50) == 0)
        set_register(b);
    if (b->source.ten && below(b, 4) == 0)
        serve_ten_bits(b);
    a = item == TRAFFIC_CALL ? door.call(b->image, DOOR_IMAGE, b->memory, BUFFER, GUARD, b->n)
                             : door.sample(b->image, DOOR_IMAGE, (uint8_t)item);
    if (a.refusal != 0)
        b->failures++;
    memcpy(b->earlier[below(b, EARLIER)], b->image, DOOR_IMAGE);
    for (i = 0; i < PER_ITEM && b->mutations < b->wanted; i++)
        try_one(b);
    if (b->mutations == b->wanted)
        b->source.left = 0;
    return door.look(b->image, DOOR_IMAGE).scl_pulled;
}

/* A fresh live state over a memory of any bytes. */
static void fresh(bench *b)
{
    static const uint16_t lengths[6] = {1, 2, 32, 200, 255, 256};
    unsigned i;

    b->n = lengths[below(b, 6)];
    b->source.add = traffic_add(&b->source);
    traffic_choose_ten(&b->source, below(b, 2) == 0);
    b->source.n = b->n;
    b->source.left = 4000;
    b->source.held = 0;
    for (i = 0; i < BUFFER; i++)
        b->memory[i] = (uint8_t)below(b, 256);
    memcpy(b->buffer, b->memory, BUFFER);
    memcpy(b->untouched, b->memory, BUFFER);
    if (door.setup(b->image, DOOR_IMAGE, b->source.add, b->n).refusal != 0)
        b->failures++;
    if (b->source.ten)
        switch_over(b, below(b, 2) ? 0x37 : 0x3F);
}

/* Whether mutations were taken in every phase of ten bits. */
static int ten_bits_taken(const bench *b)
{
    int i;

    for (i = 0; i < BYTES; i++)
        if (b->bytes[i] == 0)
            return 0;
    for (i = 0; i < NEXTS; i++)
        if (b->nexts[i] == 0)
            return 0;
    return b->full > 0 && b->masked > 0;
}

/* The argument is the number of mutations. */
int main(int argc, char **argv)
{
    static bench b;

    b.wanted = argc > 1 ? strtoul(argv[1], NULL, 10) : 2000000ul;
    b.source.seed = 20240229u;
    b.source.take = take;
    b.source.to = &b;
    while (b.mutations < b.wanted) {
        fresh(&b);
        while (b.source.left > 0) {
            if (below(&b, 10) == 0)
                traffic_noise(&b.source);
            else
                traffic_message(&b.source);
        }
    }
    printf("mutations %lu refused %lu taken %lu changes of mode %lu masks for ten bits %lu ", b.mutations, b.refused, b.taken,
           b.modes, b.masked);
    printf("bytes other %lu high %lu low %lu asking %lu held for ADD then quiet %lu low byte %lu data %lu full matches %lu ",
           b.bytes[BYTE_OTHER], b.bytes[BYTE_HIGH], b.bytes[BYTE_LOW], b.bytes[BYTE_HIGH_TO_SEND], b.nexts[NEXT_QUIET],
           b.nexts[NEXT_LOW_BYTE], b.nexts[NEXT_DATA], b.full);
    slots_tell(b.slots);
    printf(" ");
    hits_tell(b.hits);
    printf(" calls %lu failures %lu\n", b.calls, b.failures);
    return b.failures == 0 && b.taken > 0 && b.refused > 0 && b.modes > 0 && ten_bits_taken(&b) && slots_all(b.slots)
        && hits_all(b.hits) ? 0 : 1;
}
