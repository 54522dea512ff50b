/* Drives the archive and the second program side by side with generated traffic and stops at the first difference. */
#include "moments.h"
#include "round.h"
#include "traffic.h"
#include "words.h"

#include <stdio.h>
#include <stdlib.h>
#include <string.h>

enum { BUF, STAT, CON1, CON2, CON3, ADD, MSK, FLAG, REGISTERS };

enum { QUIET, ADDRESS, DATA, HELD_BEFORE, SLOT, HELD_SENDING, SENDING, MASTER_ACK, HELD_ADD, PHASES };

/* The shortest trace to a spoiled place has 24 steps; one that is not much longer is short. A long run has to reach every
   refusal, phase and mode, every case of a slot of every byte, all that can follow the hold for ADD, every answer to which
   address hit, every moment around a refused byte, a general call and a ten-bit address, and every bit of a word. */
enum { REFUSALS = 10, MODE_UNDER_WAY = 8, MASKED = 9, NO_WIRE = 255, NO_ITEM = 255, SHORT_TRACE = 30, LONG_RUN = 100000 };

/* The single bits of a word that are counted, from SSPIF to the conflict. */
enum { WORD_BITS = WORD_CONFLICT - WORD_SSPIF + 1 };

/* All that the comparison keeps; the counts tell what was reached, so that a pass says something. */
typedef struct {
    traffic source;
    pair both;
    round_of_steps round;
    uint8_t record[PAIR_BYTES];   /* the last wire levels */
    unsigned recorded;
    int placing;                  /* whether states are placed as images */
    int ten_bits;                 /* whether rounds are half of them with ten bits */
    int calm;                     /* whether this round has few stray accesses and no states placed, so that messages end */
    int difference;
    unsigned long steps, wanted, kinds[PAIR_KINDS], refused[REFUSALS], phases[PHASES];
    unsigned long running[MODES]; /* steps after which the module runs, by its mode */
    unsigned long slots[BYTES][SLOT_CASES], low_bytes, held_before[BYTES], nexts[NEXTS], full; /* what they come to */
    unsigned long hits[HITS], moments[MOMENTS];
    unsigned long words, with_bit[WORD_BITS], calls_for_add; /* words, those with each bit, those of a call in the hold for ADD */
} bench;

/* ---- Steps ---- */

/* A step of a kind with nothing else in it but the round's window; behind the end of a trace or a record stand bad items. */
static pair_step step_of(bench *b, int kind)
{
    pair_step s;

    memset(&s, 0, sizeof s);
    s.kind = (uint8_t)kind;
    s.state_length = PAIR_IMAGE;
    if (kind == PAIR_CALL || kind == PAIR_RUN || kind == PAIR_DRAW) {
        s.start = b->round.start;
        s.n = b->both.second.view.n;
        s.buffer_length = PAIR_BUFFER;
    }
    if (kind == PAIR_RUN || kind == PAIR_FIND || kind == PAIR_DRAW)
        memset(s.bytes, NO_ITEM, PAIR_BYTES);
    return s;
}

/* Counts the state that a step has come to. */
static void count_state(bench *b, const second_view *v)
{
    int i;

    b->phases[v->phase % PHASES]++;
    for (i = 0; i < MODES; i++)
        b->running[i] += (v->con1 & 0x2F) == (0x20 | modes_all[i]);
    if (v->phase == SLOT)
        b->slots[v->which % BYTES][slot_case(v->sda_pulled, v->refused)]++;
    b->low_bytes += v->phase == ADDRESS && v->which == BYTE_LOW;
    b->held_before[v->which % BYTES] += v->phase == HELD_BEFORE;
    b->nexts[v->next % NEXTS] += v->phase == HELD_ADD;
    b->full += v->full;
}

/* Counts a word of a drawing by its bits. */
static void count_word(bench *b, uint64_t word)
{
    int i;

    b->words++;
    for (i = 0; i < WORD_BITS; i++)
        b->with_bit[i] += (unsigned long)word_has(word, WORD_SSPIF + i);
    b->calls_for_add += word_has(word, WORD_CALLED) && (word >> WORD_PHASE & 0xF) == HELD_ADD;
}

/* Counts what a step from a state has reached. */
static void count(bench *b, const pair_step *s, const uint8_t *before)
{
    uint64_t refusal = b->both.second.outcome.refusal, i;

    b->steps++;
    b->kinds[s->kind]++;
    if (refusal < REFUSALS)
        b->refused[refusal]++;
    count_state(b, &b->both.second.view);
    if (refusal == 0 && s->kind == PAIR_HIT && b->both.second.outcome.value < HITS)
        b->hits[b->both.second.outcome.value]++;
    if (refusal == 0 && s->kind < PAIR_RUN) /* a sample, a handler call, a read or a write */
        moments_count(b->moments, before, b->both.second.room + PAIR_GUARD);
    for (i = 0; s->kind == PAIR_DRAW && i < b->both.second.outcome.length; i++)
        count_word(b, b->both.second.lanes[i]);
}

/* Makes a step on both and keeps it. */
static void make(bench *b, const pair_step *s)
{
    round_of_steps *r = &b->round;
    uint8_t before[PAIR_IMAGE];

    if (b->difference || r->count == ROUND_STEPS)
        return;
    r->steps[r->count++] = *s;
    memcpy(before, b->both.second.room + PAIR_GUARD, PAIR_IMAGE);
    b->difference = pair_make(&b->both, s);
    count(b, s, before);
    if (s->kind == PAIR_SAMPLE) {
        if (b->recorded == PAIR_BYTES)
            memmove(b->record, b->record + 1, --b->recorded);
        b->record[b->recorded++] = b->both.second.view.wire & 3;
    }
    if (b->difference || r->count == ROUND_STEPS)
        b->source.left = 0;
}

/* ---- Register access at odd times ---- */

/* A value for CON1: mostly with the address bits of the round. */
static unsigned some_con1(bench *b)
{
    static const uint8_t values[6] = {0x36, 0x3E, 0x26, 0x2E, 0xF6, 0x16};
    unsigned ten = traffic_once_in(&b->source, 6) ? traffic_below(&b->source, 2) : b->source.ten;

    return values[traffic_below(&b->source, 6)] | ten;
}

/* A byte to write: mostly one that keeps the traffic going. */
static unsigned some_value(bench *b, int number)
{
    unsigned any = traffic_below(&b->source, 256);
    int wild = traffic_once_in(&b->source, 6);

    if (wild)
        return any;
    switch (number) {
    case CON1:
        return some_con1(b);
    case CON2:
        return any & 0xE1;
    case CON3:
        return any & 0xEF;
    case ADD:
        return b->round.add;
    case MSK:
        return traffic_once_in(&b->source, 2) ? 0xFF : any | 0xF0;
    case FLAG:
        return any & 1;
    default:
        return any;
    }
}

/* A write of this value to this register. */
static void write_value(bench *b, int number, unsigned value)
{
    pair_step s = step_of(b, PAIR_WRITE);

    s.number = (uint8_t)number;
    s.value = (uint8_t)value;
    make(b, &s);
}

/* A mode refused under way is mostly written again, with the module switched off before and any mode stored in it; ten bits
   refused with a mask mostly without it. */
static void write_again(bench *b, const pair_step *s)
{
    uint64_t refusal = b->both.second.outcome.refusal;

    if (traffic_once_in(&b->source, 8))
        return;
    if (refusal == MODE_UNDER_WAY) {
        do
            write_value(b, CON1, traffic_below(&b->source, 256) & 0xDF);
        while (traffic_once_in(&b->source, 3));
        make(b, s);
        refusal = b->both.second.outcome.refusal;
    }
    if (refusal == MASKED && s->number == CON1) {
        write_value(b, MSK, 0xFF);
        make(b, s);
    }
}

/* A read or a write, of any register and now and then of none. */
static void access_register(bench *b)
{
    int writes = !traffic_once_in(&b->source, 3);
    pair_step s = step_of(b, writes ? PAIR_WRITE : PAIR_READ);

    s.number = (uint8_t)traffic_below(&b->source, traffic_once_in(&b->source, 10) ? 256 : REGISTERS);
    if (writes)
        s.value = (uint8_t)some_value(b, s.number);
    make(b, &s);
    if (b->both.second.outcome.refusal != 0 && writes)
        write_again(b, &s);
}

/* A module switched off by a write is mostly switched on again, with the address bits of the round. */
static void switch_on(bench *b)
{
    if (b->source.ten && !traffic_once_in(&b->source, 4))
        write_value(b, MSK, 0xFF);
    write_value(b, CON1, (traffic_once_in(&b->source, 2) ? 0x3Eu : 0x36u) | b->source.ten);
}

/* What software does between the eighth fall of a byte and its ninth, in a hold or in the slot: it reads BUF, clears SSPOV,
   turns ACKDT over, clears SSPIF, releases, or switches off; SSPOV can be cleared with the release too. */
static void access_before_ninth(bench *b)
{
    const second_view *v = &b->both.second.view;
    unsigned released = traffic_once_in(&b->source, 2) ? 0x10 : 0;
    pair_step s = step_of(b, PAIR_READ);

    switch (traffic_below(&b->source, traffic_once_in(&b->source, 4) ? 6 : 5)) {
    case 0:
        s.number = BUF;
        make(b, &s);
        break;
    case 1:
        write_value(b, CON1, (v->con1 & 0xAFu) | released);
        break;
    case 2:
        write_value(b, CON2, v->con2 ^ 0x20u);
        break;
    case 3:
        write_value(b, FLAG, 0);
        break;
    case 4:
        write_value(b, CON1, v->con1 | released);
        break;
    default:
        write_value(b, CON1, v->con1 & 0xDFu);
        break;
    }
}

/* What software does in the hold for ADD: mostly it reads BUF and writes ADD; else it turns CKP over, clears SSPIF, writes MSK,
   or switches off. */
static void access_in_hold_for_add(bench *b)
{
    const second_view *v = &b->both.second.view;
    pair_step s = step_of(b, PAIR_READ);

    switch (traffic_below(&b->source, traffic_once_in(&b->source, 8) ? 9 : 8)) {
    case 0:
    case 1:
        write_value(b, CON1, v->con1 ^ 0x10u);
        break;
    case 2:
        write_value(b, FLAG, 0);
        break;
    case 3:
        write_value(b, MSK, traffic_once_in(&b->source, 2) ? 0xFF : traffic_below(&b->source, 256));
        break;
    case 8:
        write_value(b, CON1, v->con1 & 0xDFu);
        break;
    default:
        s.number = BUF;
        if (!traffic_once_in(&b->source, 4))
            make(b, &s);
        write_value(b, ADD, traffic_update(&b->source, v->next));
        break;
    }
}

/* What software does in quiet and in data, so that the next byte is taken: it reads BUF, clears SSPOV, and puts the high byte
   back into ADD where a message was cut short. */
static void tidy(bench *b)
{
    const second_view *v = &b->both.second.view;
    int between = v->phase == QUIET || v->phase == DATA;
    pair_step s = step_of(b, PAIR_READ);

    s.number = BUF;
    if (between && (v->stat & 0x01))
        make(b, &s);
    if (between && (v->con1 & 0x40))
        write_value(b, CON1, v->con1 & 0xBFu);
    if (between && b->source.ten && v->add != b->source.add)
        write_value(b, ADD, b->source.add);
}

/* ---- Steps that are refused ---- */

/* A number at or near the end of its range. */
static uint64_t some_edge(bench *b)
{
    switch (traffic_below(&b->source, 6)) {
    case 0:
        return UINT64_MAX - traffic_below(&b->source, 300);
    case 1:
        return ((uint64_t)1 << 32) + traffic_below(&b->source, 300);
    case 2:
        return 65536u + traffic_below(&b->source, 300);
    default:
        return traffic_below(&b->source, PAIR_BUFFER + 8);
    }
}

/* A window that need not fit. */
static void odd_window(bench *b, pair_step *s)
{
    switch (traffic_below(&b->source, 4)) {
    case 0:
        s->n = traffic_once_in(&b->source, 2) ? some_edge(b) : s->n + traffic_below(&b->source, 3) - 1;
        break;
    case 1:
        s->buffer_length = traffic_below(&b->source, PAIR_BUFFER + 1);
        break;
    case 2:
        s->start = PAIR_BUFFER - s->n + traffic_below(&b->source, 3) - 1;
        break;
    default:
        s->start = some_edge(b);
        break;
    }
}

/* A step with something wrong in it, or two things. */
static void odd_step(bench *b)
{
    static const uint8_t kinds[8] = {PAIR_SAMPLE, PAIR_CALL, PAIR_READ, PAIR_WRITE, PAIR_SETUP, PAIR_RUN, PAIR_HIT, PAIR_DRAW};
    pair_step s = step_of(b, kinds[traffic_below(&b->source, 8)]);
    int items = s.kind == PAIR_RUN || s.kind == PAIR_DRAW;

    s.number = (uint8_t)traffic_below(&b->source, 256);
    s.value = (uint8_t)traffic_below(&b->source, 256);
    if (s.kind == PAIR_CALL || items) {
        odd_window(b, &s);
        s.number = s.value = 0;
        s.count = (uint8_t)items;
        s.lanes = (uint8_t)(s.kind == PAIR_DRAW);
        s.bytes[0] = (uint8_t)traffic_below(&b->source, 8);
    } else if (s.kind == PAIR_SETUP) {
        s.n = traffic_once_in(&b->source, 2) ? 0 : 257 + some_edge(b) % 100000;
    }
    if (traffic_once_in(&b->source, 4))
        s.state_length = (uint8_t)traffic_below(&b->source, PAIR_LONGEST + 1);
    make(b, &s);
}

/* ---- Runs, drawings and records ---- */

/* One item at the end of a run or a record. */
static void put(pair_step *s, unsigned item)
{
    if (s->count < PAIR_BYTES)
        s->bytes[s->count++] = (uint8_t)item;
}

/* A byte with its ninth slot, two samples to a clock; in a run with one handler call. */
static void put_byte(pair_step *s, unsigned value, unsigned ninth)
{
    int i;

    for (i = 7; i >= 0; i--) {
        put(s, (value >> i) & 1);
        put(s, TRAFFIC_SCL | ((value >> i) & 1));
    }
    put(s, ninth);
    put(s, TRAFFIC_SCL | ninth);
    put(s, ninth);
    if (s->kind == PAIR_RUN)
        put(s, TRAFFIC_CALL);
}

/* A message of two bytes, in a record with a Stop; the ninth slot of the address is released or, as on a wire, low. */
static void put_message(bench *b, pair_step *s)
{
    unsigned address = (b->round.add & 0xFEu) | traffic_below(&b->source, 2);

    put(s, 1);
    put(s, 3);
    put(s, 2);
    put(s, 0);
    put_byte(s, address, s->kind == PAIR_RUN || traffic_once_in(&b->source, 2));
    put_byte(s, address & 1 ? 0xFF : traffic_below(&b->source, 256), traffic_below(&b->source, 2));
    put_byte(s, address & 1 ? 0xFF : traffic_below(&b->source, 256), 1);
    put(s, 0);
    put(s, 2);
    put(s, 3);
}

/* A run or a drawing: a message, a low byte where one is to come, or items without sense; now and then with bad ones. The lanes
   of a drawing are mostly as many as its items, else more, or fewer with often a bad item behind them. */
static void run(bench *b, int kind)
{
    const second_view *v = &b->both.second.view;
    pair_step s = step_of(b, kind);
    unsigned items = traffic_below(&b->source, PAIR_BYTES + 1), highest = kind == PAIR_RUN ? TRAFFIC_CALL : 3;

    if (v->phase == ADDRESS && v->which == BYTE_LOW && v->bits == 0)
        put_byte(&s, b->source.low, 1);
    else if (!traffic_once_in(&b->source, 3))
        put_message(b, &s);
    else
        while (items-- > 0)
            put(&s, traffic_below(&b->source, highest + 1));
    while (s.count > 0 && traffic_once_in(&b->source, 20))
        s.bytes[traffic_below(&b->source, s.count)] = (uint8_t)(highest + 1 + traffic_below(&b->source, 255 - highest));
    if (kind == PAIR_DRAW)
        s.lanes = traffic_once_in(&b->source, 3) ? (uint8_t)traffic_below(&b->source, PAIR_LANES) : s.count;
    if (kind == PAIR_DRAW && s.lanes < s.count && traffic_once_in(&b->source, 2))
        s.bytes[s.lanes] = NO_ITEM;
    if (traffic_once_in(&b->source, 20))
        odd_window(b, &s);
    make(b, &s);
}

/* A level of the traffic as a drawing of its own, once or several times over. */
static void draw_level(bench *b, unsigned level)
{
    pair_step s = step_of(b, PAIR_DRAW);
    unsigned times = traffic_once_in(&b->source, 2) ? 1 : traffic_below(&b->source, PAIR_BYTES);

    while (times-- > 0)
        put(&s, level);
    s.lanes = s.count;
    make(b, &s);
}

/* The finder on the last wire levels, or on any, SCL mostly high; now and then with a bad level or an item past the end. */
static void find(bench *b)
{
    pair_step s = step_of(b, PAIR_FIND);
    int any = traffic_once_in(&b->source, 2);
    unsigned i;

    s.count = (uint8_t)traffic_below(&b->source, (any ? (unsigned)PAIR_BYTES : b->recorded) + 1);
    memcpy(s.bytes, b->record, s.count);
    for (i = 0; any && i < s.count; i++)
        s.bytes[i] = (uint8_t)(traffic_below(&b->source, 4) | (traffic_once_in(&b->source, 3) ? 0 : TRAFFIC_SCL));
    if (s.count > 0 && traffic_once_in(&b->source, 12))
        s.bytes[traffic_below(&b->source, s.count)] = (uint8_t)traffic_below(&b->source, 256);
    s.start = traffic_once_in(&b->source, 20) ? some_edge(b) : traffic_below(&b->source, s.count + 1u);
    make(b, &s);
}

/* Whether a first byte has come with all its bits and waits for its fall. */
static int first_byte_whole(const bench *b)
{
    return b->both.second.view.phase == ADDRESS && b->both.second.view.bits == 8;
}

/* Which address a first byte hits: the one that is whole, else any that is worth asking about. */
static void hit(bench *b)
{
    unsigned pick = first_byte_whole(b) ? (unsigned)HIT_SHOWN : traffic_below(&b->source, HIT_BYTES);
    pair_step s = step_of(b, PAIR_HIT);

    s.value = hit_byte(b->both.second.room + PAIR_GUARD, pick, traffic_below(&b->source, 256));
    make(b, &s);
}

/* ---- States placed as images ---- */

/* Registers of a state: any but for what the paper rules out, given its phase. */
static void some_registers(bench *b, uint8_t *image, int phase)
{
    int holds = phase == HELD_BEFORE || phase == HELD_SENDING, ten = phase == HELD_ADD || traffic_once_in(&b->source, 2), i;

    for (i = 0; i < REGISTERS; i++)
        image[i] = (uint8_t)traffic_below(&b->source, 256);
    image[STAT] &= traffic_once_in(&b->source, 2) ? 0xE5 : 0xF5;
    if (!(image[STAT] & 0x10) && !traffic_once_in(&b->source, 3))
        image[STAT] |= 0x08;
    image[CON1] = (uint8_t)((image[CON1] & (holds ? 0xE8 : 0xF8)) | 0x06 | ten);
    if (phase != QUIET)
        image[CON1] |= 0x20;
    image[CON2] &= 0xE1;
    image[CON3] &= 0xEF;
    if (!traffic_once_in(&b->source, 4))
        image[ADD] = b->round.add;
    if (!traffic_once_in(&b->source, 4) || (mode_runs_ten(image[CON1]) && !traffic_once_in(&b->source, 16)))
        image[MSK] = 0xFF;
    image[FLAG] &= 1;
}

/* The parts that ten bits add to a state: which byte its phase belongs to, what follows it, and the full match. */
static void some_ten_bits(bench *b, uint8_t *image, int phase)
{
    if (!mode_runs_ten(image[CON1]))
        return;
    image[FULL_AT] = (uint8_t)traffic_below(&b->source, 2);
    if (phase == ADDRESS && image[9] == 8 && traffic_once_in(&b->source, 2))
        image[10] = (uint8_t)(image[ADD] ^ traffic_below(&b->source, 2));
    if (phase == ADDRESS)
        image[WHICH_AT] = (uint8_t)(traffic_below(&b->source, 2) * BYTE_LOW);
    else if (phase == HELD_BEFORE || phase == SLOT)
        image[WHICH_AT] = (uint8_t)traffic_below(&b->source, BYTES);
    else if (phase == HELD_ADD)
        image[WHICH_AT] = (uint8_t)traffic_below(&b->source, NEXTS);
}

/* The phase's parts, wire and mark of a state. */
static void some_phase(bench *b, uint8_t *image, int phase)
{
    unsigned wire = traffic_once_in(&b->source, 12) ? NO_WIRE : traffic_below(&b->source, 4);
    unsigned count = traffic_below(&b->source, 9);

    image[8] = (uint8_t)phase;
    if (phase == SENDING) {
        image[9] = (uint8_t)(count & 7);
        image[10] = (uint8_t)traffic_below(&b->source, 256);
    } else if (phase == ADDRESS || phase == DATA) {
        if (traffic_once_in(&b->source, 3))
            count = traffic_once_in(&b->source, 2) ? 0 : 8;
        if (count == 8)
            wire |= TRAFFIC_SCL;
        image[9] = (uint8_t)count;
        image[10] = (uint8_t)traffic_below(&b->source, 1u << count);
    }
    if (phase == DATA && traffic_once_in(&b->source, 4)) {
        image[9] = image[10] = 0;
        image[PART_AT] = 1;
        image[CON1] &= 0xEF;
    } else if (phase == HELD_BEFORE) {
        image[PART_AT] = (uint8_t)traffic_below(&b->source, 2);
    } else if (phase == SLOT) {
        image[PART_AT] = (uint8_t)(SLOT_PULLING + traffic_below(&b->source, SLOT_DECLINED));
    }
    image[12] = (uint8_t)(wire > 3 ? (unsigned)NO_WIRE : wire);
    if (phase == ADDRESS && image[9] == 0 && (wire == 2 || wire == 3) && (image[STAT] & 0x08))
        image[13] = (uint8_t)traffic_below(&b->source, 2);
}

/* Changes a byte of a state: to any value, by one, or to what is just outside its range. */
static void spoil(bench *b, uint8_t *image, unsigned n)
{
    enum { PLACES = 16 };
    static const uint8_t places[PLACES] = {8, 8, 9, 11, 11, 11, 12, 12, 13, 14, 14, 14, 14, 15, 15, 20};
    static const uint8_t values[PLACES] = {8, 9, 9, 0, 2, 4, 1, 4, 2, 1, 2, 3, 4, 1, 2, 2};
    unsigned pick = traffic_below(&b->source, PLACES + 4), place = traffic_below(&b->source, 21);

    if (pick < PLACES)
        image[places[pick]] = values[pick];
    else if (pick == PLACES)
        image[18] = (uint8_t)n;
    else if (pick == PLACES + 1)
        image[traffic_once_in(&b->source, 2) ? STAT : CON1] ^= traffic_once_in(&b->source, 2) ? 1 : 2;
    else if (pick == PLACES + 2)
        image[place] = (uint8_t)(image[place] + (traffic_once_in(&b->source, 2) ? 1 : 255));
    else
        image[traffic_below(&b->source, PAIR_IMAGE)] = (uint8_t)traffic_below(&b->source, 256);
}

/* Any state, and now and then bytes that are none's; the handler's n is mostly the round's. */
static void place(bench *b)
{
    pair_step s = step_of(b, PAIR_PLACE);
    int phase = (int)traffic_below(&b->source, PHASES);
    unsigned n = traffic_once_in(&b->source, 8) ? 1 + traffic_below(&b->source, 256) : b->round.n, pointer;

    some_registers(b, s.bytes, phase);
    some_phase(b, s.bytes, phase);
    some_ten_bits(b, s.bytes, phase);
    pointer = traffic_once_in(&b->source, 2) ? traffic_below(&b->source, n) : n - 1;
    s.bytes[16] = (uint8_t)n;
    s.bytes[17] = (uint8_t)(n >> 8);
    s.bytes[18] = (uint8_t)pointer;
    s.bytes[19] = (uint8_t)(pointer >> 8);
    s.bytes[20] = (uint8_t)traffic_below(&b->source, 2);
    if (traffic_once_in(&b->source, 4))
        spoil(b, s.bytes, n);
    make(b, &s);
}

/* ---- Traffic ---- */

/* Takes an item of the traffic, now and then with another step before it. */
static int take(void *to, unsigned item)
{
    bench *b = to;
    const second_view *v = &b->both.second.view;
    pair_step s;

    if (traffic_once_in(&b->source, b->calm ? 300 : 30))
        access_register(b);
    if (traffic_once_in(&b->source, 60))
        odd_step(b);
    if (b->placing && !b->calm && traffic_once_in(&b->source, 50))
        place(b);
    if (traffic_once_in(&b->source, 60))
        find(b);
    if (traffic_once_in(&b->source, first_byte_whole(b) ? 2 : 40))
        hit(b);
    if (!(v->con1 & 0x20) && traffic_once_in(&b->source, 8))
        switch_on(b);
    if (traffic_once_in(&b->source, b->calm ? 8 : 50))
        tidy(b);
    if ((v->phase == HELD_BEFORE || v->phase == SLOT) && traffic_once_in(&b->source, b->calm && v->which != BYTE_LOW ? 12 : 3))
        access_before_ninth(b);
    if (v->phase == HELD_ADD && traffic_once_in(&b->source, 2))
        access_in_hold_for_add(b);
    if (item != TRAFFIC_CALL && traffic_once_in(&b->source, 10)) {
        draw_level(b, item);
        return v->scl_pulled;
    }
    s = step_of(b, item == TRAFFIC_CALL ? PAIR_CALL : PAIR_SAMPLE);
    if (s.kind == PAIR_SAMPLE)
        s.number = (uint8_t)item;
    make(b, &s);
    return v->scl_pulled;
}

/* Settings for a round: mostly others than the handler's, ACKDT seldom; ten bits are switched over to while off. */
static void settle(bench *b)
{
    if (!traffic_once_in(&b->source, 3)) {
        unsigned kept = traffic_once_in(&b->source, 4) ? 0xE1 : 0xC1;

        write_value(b, CON2, traffic_below(&b->source, 256) & kept);
        write_value(b, CON3, traffic_below(&b->source, 256) & 0xEF);
    }
    if (b->source.ten) {
        write_value(b, CON1, 0x16);
        switch_on(b);
    }
}

/* Both afresh, with a window anywhere in a buffer of any bytes; half of the rounds with ten bits. */
static void fresh(bench *b)
{
    static const uint16_t lengths[6] = {1, 2, 3, 32, 255, 256};
    round_of_steps *r = &b->round;
    unsigned pick = traffic_below(&b->source, 8), i;

    r->count = 0;
    b->calm = traffic_once_in(&b->source, 2);
    b->source.add = traffic_add(&b->source);
    traffic_choose_ten(&b->source, b->ten_bits && traffic_once_in(&b->source, 2));
    r->add = b->source.add;
    r->n = (uint16_t)(pick < 6 ? lengths[pick] : 1 + traffic_below(&b->source, 256));
    r->start = traffic_below(&b->source, PAIR_BUFFER - r->n + 1u);
    for (i = 0; i < PAIR_BUFFER; i++)
        r->buffer[i] = (uint8_t)traffic_below(&b->source, 256);
    b->recorded = 0;
    b->source.n = r->n;
    b->source.left = ROUND_STEPS;
    b->source.held = 0;
    b->difference = pair_setup(&b->both, r->add, r->n, r->buffer);
    settle(b);
}

/* One round, from its setup up to its last step or the first difference. */
static void round_once(bench *b)
{
    fresh(b);
    while (b->source.left > 0 && b->round.count < ROUND_STEPS && b->steps < b->wanted && !b->difference) {
        unsigned pick = traffic_below(&b->source, 13);

        if (pick < 7)
            traffic_message(&b->source);
        else if (pick < 8)
            traffic_noise(&b->source);
        else if (pick < 9)
            find(b);
        else
            run(b, pick < 11 ? PAIR_RUN : PAIR_DRAW);
    }
}

/* ---- The whole ---- */

/* Whether every byte of ten bits came up in each of its phases, and the full match. */
static int ten_bits_reached(const bench *b)
{
    int i;

    for (i = 0; i < BYTES; i++)
        if (!slots_all(b->slots[i]) || b->held_before[i] == 0)
            return 0;
    for (i = 0; i < NEXTS; i++)
        if (b->nexts[i] == 0)
            return 0;
    return b->low_bytes > 0 && b->full > 0;
}

/* Whether every refusal, phase and mode, every case of a slot of every byte, every address hit, every moment and every bit of a
   word came up. */
static int all_reached(const bench *b)
{
    int i;

    for (i = 1; i < REFUSALS; i++)
        if (b->refused[i] == 0)
            return 0;
    for (i = 0; i < PHASES; i++)
        if (b->phases[i] == 0)
            return 0;
    for (i = 0; i < MODES; i++)
        if (b->running[i] == 0)
            return 0;
    for (i = 0; i < WORD_BITS; i++)
        if (b->with_bit[i] == 0)
            return 0;
    return ten_bits_reached(b) && hits_all(b->hits) && moments_all(b->moments) && b->calls_for_add > 0;
}

/* Tells what was reached of slots and of ten bits. */
static void tell_ten_bits(const bench *b)
{
    static const char *const names[BYTES] = {"other", "high byte", "low byte", "high byte that asks to send"};
    int i;

    for (i = 0; i < BYTES; i++) {
        printf("%s%s: held before %lu, ", i == 0 ? "# " : "; ", names[i], b->held_before[i]);
        slots_tell(b->slots[i]);
    }
    printf("\n# low bytes under way %lu; held for ADD, then quiet %lu, low byte %lu, data %lu; full match %lu\n", b->low_bytes,
           b->nexts[NEXT_QUIET], b->nexts[NEXT_LOW_BYTE], b->nexts[NEXT_DATA], b->full);
}

/* Tells what was reached by drawings. */
static void tell_words(const bench *b)
{
    static const char *const names[WORD_BITS] = {"SSPIF", "CKP", "SSPOV", "WCOL", "ACKSTAT", "ACKTIM", "called", "stored",
                                                 "Start", "Stop", "conflict"};
    int i;

    printf("# words %lu, with", b->words);
    for (i = 0; i < WORD_BITS; i++)
        printf(" %s %lu", names[i], b->with_bit[i]);
    printf(", called in the hold for ADD %lu\n", b->calls_for_add);
}

/* Tells what was reached. */
static void tell_reach(const bench *b)
{
    int i;

    printf("# samples %lu calls %lu reads %lu writes %lu runs %lu placed %lu setups %lu hits %lu finds %lu drawings %lu\n",
           b->kinds[PAIR_SAMPLE], b->kinds[PAIR_CALL], b->kinds[PAIR_READ], b->kinds[PAIR_WRITE],
           b->kinds[PAIR_RUN], b->kinds[PAIR_PLACE], b->kinds[PAIR_SETUP], b->kinds[PAIR_HIT], b->kinds[PAIR_FIND],
           b->kinds[PAIR_DRAW]);
    printf("# refused");
    for (i = 1; i < REFUSALS; i++)
        printf(" %d: %lu", i, b->refused[i]);
    printf("\n# after a step: mode 0110 %lu, 1110 %lu, 0111 %lu, 1111 %lu; quiet %lu address %lu data %lu held before %lu"
           " slot %lu held for sending %lu sending %lu master's acknowledge %lu held for ADD %lu\n", b->running[0],
           b->running[1], b->running[2], b->running[3], b->phases[QUIET], b->phases[ADDRESS], b->phases[DATA],
           b->phases[HELD_BEFORE], b->phases[SLOT], b->phases[HELD_SENDING], b->phases[SENDING], b->phases[MASTER_ACK],
           b->phases[HELD_ADD]);
    tell_ten_bits(b);
    tell_words(b);
    printf("# ");
    hits_tell(b->hits);
    printf("; ");
    moments_tell(b->moments);
}

/* Rounds up to so many steps or the first difference, which is told; answers the steps of the trace told. */
static size_t rounds(bench *b, unsigned long steps)
{
    b->wanted = steps;
    b->source.take = take;
    b->source.to = b;
    b->both.spoiled = b->round.spoiled;
    while (b->steps < steps && !b->difference)
        round_once(b);
    if (!b->difference)
        return 0;
    printf("# a difference after %lu steps, the last %lu of them in one round\n", b->steps, (unsigned long)b->round.count);
    round_shrink(&b->round);
    return round_tell(&b->round);
}

/* The argument is the number of steps, the second the seed. With a third, 1 to 6, one bit of the archive's answer, state,
   buffer or view, of its view in the hold for ADD, or of a lane, is turned over at a place; then the difference must be told,
   and shortly. Ten bits come into sending by three bytes, which is long, and so only where no place in sending is spoiled. */
int main(int argc, char **argv)
{
    static bench b;
    unsigned long steps = argc > 1 ? strtoul(argv[1], NULL, 10) : 1000000ul;
    size_t told;

    b.source.seed = argc > 2 ? strtoul(argv[2], NULL, 10) | 1u : 20240229u;
    b.round.spoiled = argc > 3 ? atoi(argv[3]) : PAIR_SAME;
    b.placing = b.round.spoiled == PAIR_SAME;
    b.ten_bits = b.round.spoiled == PAIR_SAME || b.round.spoiled == PAIR_TEN_BITS;
    told = rounds(&b, steps);
    if (b.round.spoiled != PAIR_SAME) {
        printf("# spoiled on purpose: %s, told in %lu steps\n", told > 0 ? "found" : "not found", (unsigned long)told);
        return told > 0 && told <= SHORT_TRACE ? 0 : 1;
    }
    tell_reach(&b);
    printf("%ssteps %lu differences %d\n", b.difference ? "# " : "", b.steps, b.difference != 0);
    return b.steps > 0 && !b.difference && (steps < LONG_RUN || all_reached(&b)) ? 0 : 1;
}
