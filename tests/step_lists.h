/* Goes through step lists by the door, and checks bits and phase at every step.

   Words of what is done:
     S R P       a Start on a free bus, a Restart, a Stop
     b30         the eight bits of a byte from the master, up to and with its eighth fall
     c30         the same up to and with its eighth rise
     g5A         eight clocks with SDA released, up to the eighth fall; the wire must read 5A
     up up0 dn   the ninth rise with SDA released or driven low; the ninth fall
     wait        the master releases SCL; the wire must stay low, so the clock is held
     +CKP -SSPIF software makes a bit 1 or 0, by a write of its register with the other bits as they read
     w0=5A r0=30 software writes a register; reads one, which must give this
     no8:2=3E    software writes a register, which must be refused with 8
     hF4=1       which address F4 hits, which must be 1 (0 none, 1 own, 2 general call)
     call        a handler call over 32 bytes
     =323        these levels as they stand

   Bits seen: all that are 1 among S P DA RW UA BF WCOL SSPOV CKP ACKTIM ACKSTAT SSPIF, and FULL where the full match stands. A
   row with a name in place of a step begins a sequence: setup with ADD 30, then its settings are made. */
#ifndef STEP_LISTS_H
#define STEP_LISTS_H

#include "door.h"
#include "slots.h"

#include <stdio.h>
#include <stdlib.h>
#include <string.h>

typedef struct {
    const char *name;   /* of a sequence; NULL in a step */
    const char *step;
    const char *action;
    const char *bits;
    const char *phase;
} row;

#define SEQUENCE(name, settings) {name, "settings", settings, NULL, NULL}
#define STEP(number, action, bits, phase) {NULL, number, action, bits, phase}

enum { WORD = 32, TEXT = 128, SDA = 1, SCL = 2 };

/* A bit by its name: its register and its place in it; whether a step shows it. */
typedef struct {
    const char *name;
    uint8_t number, mask, shown;
} named_bit;

static const named_bit named_bits[] = {
    {"S", 1, 0x08, 1}, {"P", 1, 0x10, 1}, {"DA", 1, 0x20, 1}, {"RW", 1, 0x04, 1}, {"UA", 1, 0x02, 1}, {"BF", 1, 0x01, 1},
    {"WCOL", 2, 0x80, 1}, {"SSPOV", 2, 0x40, 1}, {"CKP", 2, 0x10, 1}, {"ACKTIM", 4, 0x80, 1},
    {"ACKSTAT", 3, 0x40, 1}, {"SSPIF", 7, 0x01, 1},
    {"SEN", 3, 0x01, 0}, {"ACKDT", 3, 0x20, 0}, {"GCEN", 3, 0x80, 0},
    {"AHEN", 4, 0x02, 0}, {"DHEN", 4, 0x01, 0}, {"SCIE", 4, 0x20, 0}, {"PCIE", 4, 0x40, 0},
};

enum { NAMED_BITS = sizeof named_bits / sizeof named_bits[0] };

enum { MEMORY = 32 };

static uint8_t image[DOOR_IMAGE], memory[MEMORY];
static const char *sequence, *step;
static unsigned long sequences, steps, failures;

/* Tells what went wrong at which step; after many times it only counts. */
static void fail(const char *what, const char *detail)
{
    if (failures++ < 50)
        printf("%s, step %s: %s: %s\n", sequence, step, what, detail);
}

/* ---- Levels ---- */

/* One sample; answers the wire after it. */
static unsigned drive(unsigned level)
{
    if (door.sample(image, DOOR_IMAGE, (uint8_t)level).refusal != 0)
        fail("refused", "a sample");
    return door.look(image, DOOR_IMAGE).wire;
}

/* Samples written as digits. */
static void levels(const char *digits)
{
    for (; *digits != '\0'; digits++)
        (void)drive((unsigned)(*digits - '0'));
}

/* Up to and with the eighth rise of a byte from the master. */
static void clocks_to_rise(unsigned value)
{
    int i;

    for (i = 7; i >= 0; i--) {
        unsigned sda = (value >> i) & 1;

        (void)drive(sda);
        (void)drive(SCL | sda);
    }
}

/* Eight clocks with these bits driven; answers the bits that were on the wire at the rises. */
static unsigned clocks(unsigned value)
{
    unsigned seen = 0;
    int i;

    for (i = 7; i >= 0; i--) {
        unsigned sda = (value >> i) & 1;

        (void)drive(sda);
        seen = seen << 1 | (drive(SCL | sda) & SDA);
        (void)drive(sda);
    }
    return seen;
}

/* ---- Registers ---- */

/* A register as it stands, without effect. */
static unsigned reg(unsigned number)
{
    door_view v = door.look(image, DOOR_IMAGE);
    const uint8_t registers[8] = {v.buf, v.stat, v.con1, v.con2, v.con3, v.add, v.msk, v.flag};

    return registers[number];
}

/* A write and the refusal it must have, 0 for none. */
static void put(unsigned number, unsigned value, unsigned refusal)
{
    if (door.write(image, DOOR_IMAGE, (uint8_t)number, (uint8_t)value).refusal != refusal)
        fail("a write", refusal == 0 ? "refused" : "not refused as it should be");
}

/* Makes a named bit 1 or 0 by a write of its register. */
static void put_bit(const char *name, int one, const char *word)
{
    size_t i;

    for (i = 0; i < NAMED_BITS; i++) {
        const named_bit *b = &named_bits[i];

        if (strcmp(b->name, name) == 0) {
            put(b->number, one ? reg(b->number) | b->mask : reg(b->number) & ~(unsigned)b->mask, 0);
            return;
        }
    }
    fail("no such bit", word);
}

/* hF4=1. */
static void hit_word(const char *word, unsigned byte)
{
    const char *equals = strchr(word, '=');
    door_answer a = door.hit(image, DOOR_IMAGE, (uint8_t)byte);

    if (equals == NULL || a.refusal != 0 || a.value != (unsigned)(equals[1] - '0'))
        fail("another address hit", word);
}

/* A handler call. */
static void call_handler(void)
{
    if (door.call(image, DOOR_IMAGE, memory, MEMORY, 0, MEMORY).refusal != 0)
        fail("refused", "a handler call");
}

/* w0=5A, r0=30 and no8:2=3E. */
static void access_word(const char *word)
{
    const char *equals = strchr(word, '=');
    unsigned number = equals != NULL ? (unsigned)(equals[-1] - '0') : 9;
    unsigned value = equals != NULL ? (unsigned)strtoul(equals + 1, NULL, 16) : 0;

    if (number > 7)
        fail("no such word", word);
    else if (word[0] == 'w')
        put(number, value, 0);
    else if (strncmp(word, "no", 2) == 0)
        put(number, value, (unsigned)(word[2] - '0'));
    else if (door.read(image, DOOR_IMAGE, (uint8_t)number).value != value)
        fail("another value was read", word);
}

/* ---- Steps ---- */

/* The ninth clock and the wait; answers whether the word is one of theirs. */
static int clock_word(const char *word)
{
    static unsigned ninth = SDA;

    if (strcmp(word, "up") == 0 || strcmp(word, "up0") == 0) {
        ninth = strcmp(word, "up") == 0 ? SDA : 0;
        (void)drive(ninth);
        (void)drive(SCL | ninth);
    } else if (strcmp(word, "dn") == 0) {
        (void)drive(ninth);
    } else if (strcmp(word, "wait") == 0) {
        if (drive(SCL | SDA) & SCL)
            fail("the clock is not held", word);
    } else {
        return 0;
    }
    return 1;
}

/* One word of an action. */
static void act(const char *word)
{
    unsigned value = (unsigned)strtoul(word + 1, NULL, 16);

    if (strcmp(word, "S") == 0)
        levels("32");
    else if (strcmp(word, "R") == 0)
        levels("132");
    else if (strcmp(word, "P") == 0)
        levels("023");
    else if (word[0] == '=')
        levels(word + 1);
    else if (clock_word(word))
        return;
    else if (word[0] == '+' || word[0] == '-')
        put_bit(word + 1, word[0] == '+', word);
    else if (strcmp(word, "call") == 0)
        call_handler();
    else if (word[0] == 'c')
        clocks_to_rise(value);
    else if (word[0] == 'h')
        hit_word(word, value);
    else if (word[0] == 'b')
        (void)clocks(value);
    else if (word[0] == 'g') {
        if (clocks(0xFF) != value)
            fail("another byte was sent", word);
    } else
        access_word(word);
}

/* All words of an action. */
static void act_all(const char *action)
{
    char word[WORD];
    size_t length;

    while (*action != '\0') {
        length = strcspn(action, " ");
        if (length >= WORD) {
            fail("no such word", action);
            return;
        }
        memcpy(word, action, length);
        word[length] = '\0';
        act(word);
        action += length;
        action += strspn(action, " ");
    }
}

/* Whether a name is among the words of a list. */
static int listed(const char *list, const char *name)
{
    size_t length = strlen(name);

    while (*list != '\0') {
        size_t word = strcspn(list, " ");

        if (word == length && strncmp(list, name, length) == 0)
            return 1;
        list += word;
        list += strspn(list, " ");
    }
    return 0;
}

/* The phase in words, with what it shows of the lines and of a refused byte. */
static const char *phase_name(const door_view *v)
{
    static const char *const names[DOOR_PHASES] = {"quiet", "address", "data", "held before acknowledge", "slot",
                                                   "held for sending", "sending", "master's acknowledge", "held for ADD"};
    static const char *const slots[SLOT_CASES] = {"slot of no case", "slot, pulling", "slot, refused", "slot, declined"};

    if (v->phase == DOOR_DATA && v->scl_pulled)
        return "data, held";
    if (v->phase == DOOR_HELD_BEFORE && v->refused)
        return "held before acknowledge, refused";
    if (v->phase == DOOR_SLOT)
        return slots[slot_case(v->sda_pulled, v->refused)];
    return v->phase < DOOR_PHASES ? names[v->phase] : "no phase";
}

/* What ten bits add to the phase in words: which byte it belongs to, or what follows it. */
static const char *phase_more(const door_view *v)
{
    static const char *const bytes[BYTES] = {"", ", high byte", ", low byte", ", high byte to send"};
    static const char *const nexts[NEXTS] = {", then quiet", ", then low byte", ", then data"};

    if (v->which >= BYTES || v->next >= NEXTS || (v->next != 0 && v->phase != DOOR_HELD_ADD))
        return ", no such byte";
    return v->phase == DOOR_HELD_ADD ? nexts[v->next] : bytes[v->which];
}

/* Every shown bit, the full match and the phase; a held phase pulls SCL and no other does. */
static void check(const row *r)
{
    door_view v = door.look(image, DOOR_IMAGE);
    char name[TEXT];
    int held;
    size_t i;

    snprintf(name, TEXT, "%s%s", phase_name(&v), phase_more(&v));
    held = strncmp(name, "held", 4) == 0 || strcmp(name, "data, held") == 0;

    for (i = 0; i < NAMED_BITS; i++) {
        const named_bit *b = &named_bits[i];
        int one = (reg(b->number) & b->mask) != 0;

        if (b->shown && one != listed(r->bits, b->name))
            fail(one ? "is 1 and should be 0" : "is 0 and should be 1", b->name);
    }
    if (v.full != listed(r->bits, "FULL"))
        fail(v.full ? "stands and should not" : "should stand", "FULL");
    if (strcmp(name, r->phase) != 0)
        fail("another phase", name);
    if (v.scl_pulled != held)
        fail("SCL and the phase do not agree", name);
}

/* A sequence begins: a fresh state with ADD 30 and a free bus, then its settings. */
static void begin(const row *r)
{
    sequence = r->name;
    step = r->step;
    sequences++;
    if (door.setup(image, DOOR_IMAGE, 0x30, MEMORY).refusal != 0)
        fail("refused", "setup");
    levels("3");
    act_all(r->action);
}

/* Goes through all rows of a list. */
static void go_through(const row *rows, size_t count)
{
    size_t i;

    for (i = 0; i < count; i++) {
        const row *r = &rows[i];

        if (r->name != NULL) {
            begin(r);
            continue;
        }
        step = r->step;
        steps++;
        act_all(r->action);
        check(r);
    }
}

#endif
