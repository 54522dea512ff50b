/* Checks through the door every refusal by each of its causes, alone and beside every other, and windows at every edge. */
#include "expect.h"
#include "hits.h"
#include "modes.h"
#include "slots.h"
#include "words.h"
#include "write_refusal.h"

#include <stdio.h>
#include <string.h>

enum { BUF, STAT, CON1, CON2, CON3, ADD, MSK, FLAG, REGISTERS };

/* Places in an image after the eight registers. */
enum {
    AT_PHASE = 8, AT_COUNT, AT_BYTE, AT_PART, AT_WIRE, AT_MARK, AT_WHICH, AT_FULL, AT_N, AT_POINTER = 18, AT_DUE = 20, AT_REST
};

enum { GUARD = 16, LONGEST = 64, ROOM = GUARD + LONGEST + GUARD, FILLER = 0x5A, BUFFER = 320, N = 32, LONG_TRACE = 70000 };

enum { LANES = 12 };

/* States that the door itself makes; each cause of refusal 6 is a small change to one of them. */
enum {
    FRESH, OFF, MARKED, ADDRESS_BITS, ADDRESS_WHOLE, DATA_BITS, DATA_WHOLE, HELD_DATA, HELD_BEFORE, HELD_REFUSED,
    PULLING, REFUSED, DECLINED, HELD_SENDING, SENDING, MASTER_ACK, STATES
};

/* The same of ten bits: a high byte, the hold for ADD, a low byte and what becomes of it, data, and a high byte that asks to
   send. */
enum {
    TEN_FRESH = STATES, TEN_OFF, TEN_MARKED, TEN_WHOLE, TEN_HELD_HIGH, TEN_HIGH, TEN_HIGH_REFUSED, ADD_THEN_LOW,
    LOW_NONE, LOW_BITS, LOW_WHOLE, LOW_HELD, LOW_PULLING, LOW_MISSED, LOW_REFUSED, ADD_THEN_QUIET, ADD_THEN_DATA,
    TEN_DATA, TEN_HELD_DATA, TEN_FULL, ASKING_HELD, ASKING, ASKING_REFUSED, TEN_HELD_SENDING, TEN_SENDING, KINDS
};

/* The holds that CKP ends, the ones for ADD, and the slots: pulling, refused, declined. */
static const uint8_t holds[9] = {HELD_DATA, HELD_BEFORE, HELD_REFUSED, HELD_SENDING, TEN_HELD_HIGH, LOW_HELD, ASKING_HELD,
                                 TEN_HELD_DATA, TEN_HELD_SENDING};
static const uint8_t holds_for_add[3] = {ADD_THEN_QUIET, ADD_THEN_LOW, ADD_THEN_DATA}; /* in the order of their numbers */
static const uint8_t slots[3] = {PULLING, REFUSED, DECLINED};

/* All of them with SSPM 0110 and 0111, behind them all with SSPM 1110 and 1111, and behind these both once more with WCOL and
   SSPOV 1. */
enum { WITH_FLAGS = KINDS, WITH_WCOL_SSPOV = 2 * KINDS, ALL_STATES = 4 * KINDS };

static uint8_t states[ALL_STATES][DOOR_IMAGE];
static uint8_t room[ROOM], kept[ROOM], buffer[BUFFER], untouched[BUFFER], trace[LONG_TRACE];
static uint8_t *const image = room + GUARD;
static uint64_t lanes[LANES], long_lanes[LONG_TRACE];
static unsigned long causes;

/* ---- Making states ---- */

/* Lays a state into the room, with guard bytes around it, and keeps what the room and the buffer hold. */
static void lay(const uint8_t *state)
{
    memset(room, FILLER, ROOM);
    memcpy(image, state, DOOR_IMAGE);
    memcpy(kept, room, ROOM);
    memcpy(buffer, untouched, BUFFER);
}

/* Whether everything is as it was laid. */
static int left_alone(void)
{
    return memcmp(room, kept, ROOM) == 0 && memcmp(buffer, untouched, BUFFER) == 0;
}

/* Whether an answer is this refusal with this item, no value, and nothing touched. */
static int refused(door_answer a, unsigned refusal, uint64_t item)
{
    return a.refusal == refusal && a.item == item && a.value == 0 && left_alone();
}

/* Whether an answer is no refusal, and the state a state's. */
static int done(door_answer a)
{
    return a.refusal == 0 && a.item == 0 && door.look(image, DOOR_IMAGE).refusal == 0;
}

/* Draws on the bytes in the room, with lanes that no word was written to. */
static door_taken draw(size_t state_length, size_t buffer_length, uint64_t start, uint64_t n, const uint8_t *record, size_t count)
{
    memset(lanes, FILLER, sizeof lanes);
    return door.draw(image, state_length, buffer_length == 0 ? NULL : buffer, buffer_length, start, n, record, count, lanes,
                     LANES);
}

/* Whether the lanes from a place on are as they were. */
static int lanes_left(size_t place)
{
    while (place < LANES && lanes[place] == UINT64_MAX / 255 * FILLER)
        place++;
    return place == LANES;
}

/* Whether a drawing was refused so, and nothing touched. */
static int draw_refused(door_taken t, unsigned refusal, uint64_t item)
{
    return word_refused(t, refusal, item) && left_alone() && lanes_left(0);
}

/* Whether a drawing of so many items was done. */
static int draw_done(door_taken t, size_t count)
{
    return word_took(t, count) && lanes_left(count) && door.look(image, DOOR_IMAGE).refusal == 0;
}

/* A write that must be taken. */
static void put(uint8_t *state, uint32_t number, uint8_t value)
{
    expect(door.write(state, DOOR_IMAGE, number, value).refusal == 0, "a write that is taken", number * 256ul + value);
}

/* One item of a way to a state: a level, h a handler call, b a read of BUF, k CKP written 1, and for ten bits l and u: ADD
   written with the low byte, 5A, and with the high byte, 30. */
static void take_item(uint8_t *state, char letter)
{
    uint8_t item = (uint8_t)(letter == 'h' ? 4 : letter - '0');

    if (letter == 'b')
        expect(door.read(state, DOOR_IMAGE, BUF).refusal == 0, "a read of BUF", 0);
    else if (letter == 'k')
        put(state, CON1, (uint8_t)(state[CON1] | 0x10));
    else if (letter == 'l' || letter == 'u')
        put(state, ADD, letter == 'l' ? 0x5A : 0x30);
    else if (letter != ' ')
        expect(door.run(state, DOOR_IMAGE, buffer, BUFFER, 0, N, &item, 1).refusal == 0, "run", 0);
}

/* A state that these writes to CON2 and CON3 and these items lead to, from a fresh one; it has to come to this phase. Its
   mode is stored while disabled, since it cannot be changed under way. */
static void reach_one(int which, uint8_t con2, uint8_t con3, const char *items, int phase)
{
    uint8_t *state = states[which];
    int ten = which % KINDS >= TEN_FRESH, flagged = which >= WITH_FLAGS;
    uint8_t mode = modes_all[2 * ten + flagged];

    expect(door.setup(state, DOOR_IMAGE, 0x30, N).refusal == 0, "setup", 0);
    put(state, CON1, mode);
    put(state, CON1, 0x30 | mode);
    put(state, CON2, con2);
    put(state, CON3, con3);
    for (; *items != '\0'; items++)
        take_item(state, *items);
    expect(door.look(state, DOOR_IMAGE).phase == phase, "a state of its phase", (unsigned long)which);
    expect((state[CON1] & 0x2F) == (0x20 | mode), "a state of its mode", (unsigned long)which);
}

/* The state in both modes of its address bits. */
static void reach(int which, uint8_t con2, uint8_t con3, const char *items, int phase)
{
    reach_one(which, con2, con3, items, phase);
    reach_one(WITH_FLAGS + which, con2, con3, items, phase);
}

/* All states once more, with WCOL and SSPOV put in: no trace brings SSPOV into every phase. */
static void set_wcol_and_sspov(void)
{
    int i;

    for (i = 0; i < WITH_WCOL_SSPOV; i++) {
        memcpy(states[WITH_WCOL_SSPOV + i], states[i], DOOR_IMAGE);
        states[WITH_WCOL_SSPOV + i][CON1] |= 0xC0;
    }
}

/* 30 as a high byte up to its eighth fall, its ninth clock, BUF read and ADD written; 5A, 0101 1010, as the low byte; the two
   together up to data; and 31 after a Restart. */
#define TEN_HIGH_BYTE "32 0 20 20 31 31 20 20 20 20 "
#define TO_LOW TEN_HIGH_BYTE "31 b l "
#define LOW_BYTE "20 31 20 31 31 20 31 20 "
#define TO_DATA TO_LOW LOW_BYTE "31 b u "
#define TO_DATA_BY_HOLDS TEN_HIGH_BYTE "b k 31 l " LOW_BYTE "b k 31 u "
#define ASKING_BYTE "1 3 2 0 20 20 31 31 20 20 20 31 "

/* Those of ten bits. */
static void reach_ten_bits(void)
{
    reach(TEN_FRESH, 0x01, 0x00, "", DOOR_QUIET);
    reach(TEN_OFF, 0x01, 0x00, "3", DOOR_QUIET);
    put(states[TEN_OFF], CON1, 0x07);
    put(states[WITH_FLAGS + TEN_OFF], CON1, 0x0F);
    reach(TEN_MARKED, 0x01, 0x00, "32", DOOR_ADDRESS);
    reach(TEN_WHOLE, 0x01, 0x00, "32 0 20 20 31 31 20 20 20 2", DOOR_ADDRESS);
    reach(TEN_HELD_HIGH, 0x01, 0x02, TEN_HIGH_BYTE, DOOR_HELD_BEFORE);
    reach(TEN_HIGH, 0x01, 0x00, TEN_HIGH_BYTE, DOOR_SLOT);
    reach(TEN_HIGH_REFUSED, 0x01, 0x00, TEN_HIGH_BYTE "31 u 1" TEN_HIGH_BYTE, DOOR_SLOT);
    reach(ADD_THEN_LOW, 0x01, 0x00, TEN_HIGH_BYTE "31", DOOR_HELD_ADD);
    reach(LOW_NONE, 0x01, 0x00, TO_LOW, DOOR_ADDRESS);
    reach(LOW_BITS, 0x01, 0x00, TO_LOW "31 31 2", DOOR_ADDRESS);
    reach(LOW_WHOLE, 0x01, 0x00, TO_LOW "20 31 20 31 31 20 31 2", DOOR_ADDRESS);
    reach(LOW_HELD, 0x01, 0x02, TEN_HIGH_BYTE "b k 31 l" LOW_BYTE, DOOR_HELD_BEFORE);
    reach(LOW_PULLING, 0x01, 0x00, TO_LOW LOW_BYTE, DOOR_SLOT);
    reach(LOW_MISSED, 0x01, 0x02, TEN_HIGH_BYTE "b k 31 u" LOW_BYTE, DOOR_SLOT);
    reach(LOW_REFUSED, 0x01, 0x00, TEN_HIGH_BYTE "31 l" LOW_BYTE, DOOR_SLOT);
    reach(ADD_THEN_QUIET, 0x01, 0x00, TEN_HIGH_BYTE "31 b u" LOW_BYTE "31", DOOR_HELD_ADD);
    reach(ADD_THEN_DATA, 0x01, 0x00, TO_LOW LOW_BYTE "31", DOOR_HELD_ADD);
    reach(TEN_DATA, 0x01, 0x00, TO_DATA, DOOR_DATA);
    reach(TEN_HELD_DATA, 0x01, 0x00, TO_DATA LOW_BYTE "31", DOOR_DATA);
    reach(TEN_FULL, 0x01, 0x00, TO_DATA "1 3 2", DOOR_ADDRESS);
    reach(ASKING_HELD, 0x01, 0x02, TO_DATA_BY_HOLDS ASKING_BYTE, DOOR_HELD_BEFORE);
    reach(ASKING, 0x01, 0x00, TO_DATA ASKING_BYTE, DOOR_SLOT);
    reach(ASKING_REFUSED, 0x00, 0x00, TO_DATA LOW_BYTE "31" ASKING_BYTE, DOOR_SLOT);
    reach(TEN_HELD_SENDING, 0x01, 0x00, TO_DATA ASKING_BYTE "31", DOOR_HELD_SENDING);
    reach(TEN_SENDING, 0x01, 0x00, TO_DATA ASKING_BYTE "31 h 31 31", DOOR_SENDING);
}

/* All of them: 30 is 0011 0000, 31 is 0011 0001. */
static void reach_all(void)
{
    static const char to_slot[] = "32 0 20 20 31 31 20 20 20 20";
    static const char to_overflow[] = "32 0 20 20 31 31 20 20 20 20 31 31 20 20 20 20 20 20 20"; /* with SEN 0 */
    static const char to_sending[] = "32 0 20 20 31 31 20 20 20 31 31";

    memset(untouched, 0xC3, BUFFER);
    memcpy(buffer, untouched, BUFFER);
    reach(FRESH, 0x01, 0x00, "", DOOR_QUIET);
    reach(OFF, 0x01, 0x00, "3", DOOR_QUIET);
    put(states[OFF], CON1, 0x06);
    put(states[WITH_FLAGS + OFF], CON1, 0x0E);
    reach(MARKED, 0x01, 0x00, "32", DOOR_ADDRESS);
    reach(ADDRESS_BITS, 0x01, 0x00, "32 0 20 31 2", DOOR_ADDRESS);
    reach(ADDRESS_WHOLE, 0x01, 0x00, "32 0 20 20 31 31 20 20 20 2", DOOR_ADDRESS);
    reach(PULLING, 0x01, 0x00, to_slot, DOOR_SLOT);
    reach(REFUSED, 0x00, 0x00, to_overflow, DOOR_SLOT);
    reach(DECLINED, 0x21, 0x02, "32 0 20 20 31 31 20 20 20 20 h", DOOR_SLOT);
    reach(HELD_BEFORE, 0x01, 0x02, to_slot, DOOR_HELD_BEFORE);
    reach(HELD_REFUSED, 0x00, 0x01, to_overflow, DOOR_HELD_BEFORE);
    reach(HELD_DATA, 0x01, 0x00, "32 0 20 20 31 31 20 20 20 20 31", DOOR_DATA);
    reach(DATA_BITS, 0x01, 0x00, "32 0 20 20 31 31 20 20 20 20 31 h 31 2", DOOR_DATA);
    reach(DATA_WHOLE, 0x01, 0x00, "32 0 20 20 31 31 20 20 20 20 31 h 31 20 20 20 20 20 20 3", DOOR_DATA);
    reach(HELD_SENDING, 0x01, 0x00, to_sending, DOOR_HELD_SENDING);
    reach(SENDING, 0x01, 0x00, "32 0 20 20 31 31 20 20 20 31 31 h 31 31 31", DOOR_SENDING);
    reach(MASTER_ACK, 0x01, 0x00, "32 0 20 20 31 31 20 20 20 31 31 h 31 31 31 31 31 31 31 31", DOOR_MASTER_ACK);
    reach_ten_bits();
    set_wcol_and_sspov();
}

/* ---- Refusal 6: the bytes are no state's image ---- */

/* Every call refuses the bytes in the room with 6, whatever else is wrong with it, and leaves all alone. Of the modes written
   to CON1 one is none, and most are a change under way. */
static void all_refuse(size_t length, const char *what, unsigned long more)
{
    static const uint8_t numbers[8] = {CON3, CON2, CON1, CON1, CON1, CON1, MSK, 8};
    static const uint8_t values[8] = {0x00, 0x1E, 0x25, 0x36, 0x3E, 0x2F, 0xF0, 0xFF};
    static const uint8_t levels[8] = {0, 1, 2, 3, 4, 5, 254, 255}, bad[3] = {3, 5, 4};
    static const uint8_t first_bytes[8] = {0x00, 0x01, 0x30, 0x31, 0x3E, 0x5A, 0xF0, 0xFF};
    static const uint64_t starts[3] = {7, BUFFER, UINT64_MAX}, lengths[3] = {N, 0, UINT64_MAX};
    unsigned i, j;

    causes++;
    memcpy(kept, room, ROOM);
    expect(door.look(image, length).refusal == 6 && left_alone(), what, more);
    for (i = 0; i < 8; i++) {
        expect(refused(door.read(image, length, numbers[i]), 6, 0), what, more);
        expect(refused(door.write(image, length, numbers[i], values[i]), 6, 0), what, more);
        expect(refused(door.sample(image, length, levels[i]), 6, 0), what, more);
        expect(refused(door.hit(image, length, first_bytes[i]), 6, 0), what, more);
    }
    for (i = 0; i < 3; i++)
        for (j = 0; j < 3; j++) {
            expect(refused(door.call(image, length, buffer, BUFFER, starts[i], lengths[j]), 6, 0), what, more);
            expect(refused(door.run(image, length, buffer, BUFFER, starts[i], lengths[j], bad, 3), 6, 0), what, more);
            expect(refused(door.run(image, length, buffer, BUFFER, starts[i], lengths[j], bad, 1), 6, 0), what, more);
            expect(draw_refused(draw(length, BUFFER, starts[i], lengths[j], bad, 3), 6, 0), what, more);
            expect(draw_refused(draw(length, BUFFER, starts[i], lengths[j], bad, 1), 6, 0), what, more);
        }
}

/* One byte of a state changed: the bits kept of it and those set. */
static void spoil(int which, int place, unsigned keep, unsigned set, const char *what)
{
    lay(states[which]);
    image[place] = (uint8_t)((image[place] & keep) | set);
    all_refuse(DOOR_IMAGE, what, set);
}

/* One byte of a state with every value from one on up to another. */
static void spoil_range(int which, int place, unsigned first, unsigned last, const char *what)
{
    for (; first <= last; first++)
        spoil(which, place, 0, first, what);
}

/* What the paper says of the registers. */
static void spoil_registers(void)
{
    unsigned i;

    spoil(MARKED, STAT, 0xFF, 0x10, "S and P");
    spoil(FRESH, STAT, 0xFF, 0x02, "UA");
    spoil(FRESH, CON3, 0xFF, 0x10, "BOEN");
    for (i = 1; i < 5; i++)
        spoil(FRESH, CON2, 0xFF, 1u << i, "a master only bit of CON2");
    for (i = 1; i < 8; i++)
        spoil(FRESH, FLAG, 0xFF, 1u << i, "a flag bit above SSPIF");
    for (i = 0; i < 16; i++)
        if (!mode_can_run(i))
            spoil(FRESH, CON1, 0xF0, i, "SSPEN 1 with another mode");
    spoil_range(OFF, AT_PHASE, 1, 8, "SSPEN 0 with a phase");
    spoil_range(TEN_OFF, AT_PHASE, 1, 8, "SSPEN 0 with a phase");
    spoil(MARKED, CON1, 0xDF, 0, "SSPEN 0 with a mark");
}

/* What the paper says of the mask and of UA: no state that runs with ten bits has another MSK than FF, and UA is no bit of an
   image, in the hold for ADD neither. */
static void spoil_ten_bit_registers(void)
{
    unsigned i, bit;

    for (i = TEN_FRESH; i < KINDS; i++) {
        for (bit = 0; bit < 8 && i != TEN_OFF; bit++)
            spoil((int)i, MSK, 0xFFu ^ 1u << bit, 0, "ten bits run with a mask");
        spoil((int)i, STAT, 0xFF, 0x02, "UA in an image");
    }
    spoil_range(TEN_FRESH, MSK, 0, 254, "ten bits run with a mask");
    spoil_range(WITH_FLAGS + TEN_FRESH, MSK, 0, 254, "ten bits run with a mask");
    spoil_range(ADD_THEN_LOW, MSK, 0, 254, "ten bits held for ADD with a mask");
}

/* What the paper says of mark, wire and hold. */
static void spoil_conditions(void)
{
    int i;

    spoil(MARKED, STAT, 0xF7, 0, "a mark without S");
    spoil_range(MARKED, AT_WIRE, 0, 1, "a mark with SCL low");
    spoil(MARKED, AT_WIRE, 0, 255, "a mark with no wire");
    spoil_range(MARKED, AT_COUNT, 1, 8, "a mark with bits");
    spoil(MARKED, AT_PHASE, 0, DOOR_DATA, "a mark in data");
    spoil(MARKED, AT_PHASE, 0, DOOR_QUIET, "a mark in quiet");
    spoil_range(MARKED, AT_MARK, 2, 255, "a mark above 1");
    spoil_range(ADDRESS_WHOLE, AT_WIRE, 0, 1, "8 bits of an address with SCL low");
    spoil(ADDRESS_WHOLE, AT_WIRE, 0, 255, "8 bits of an address with no wire");
    spoil_range(DATA_WHOLE, AT_WIRE, 0, 1, "8 bits of data with SCL low");
    spoil(DATA_WHOLE, AT_WIRE, 0, 255, "8 bits of data with no wire");
    spoil_range(FRESH, AT_WIRE, 4, 254, "a wire above 3");
    for (i = 0; i < 9; i++)
        spoil(holds[i], CON1, 0xFF, 0x10, "a hold with CKP 1");
    spoil_range(LOW_WHOLE, AT_WIRE, 0, 1, "8 bits of a low byte with SCL low");
    spoil(LOW_WHOLE, AT_WIRE, 0, 255, "8 bits of a low byte with no wire");
    spoil_range(TEN_MARKED, AT_COUNT, 1, 8, "a mark with bits of a high byte");
    spoil(LOW_NONE, AT_MARK, 0, 1, "a mark before a low byte with SCL low");
    spoil(LOW_BITS, AT_MARK, 0, 1, "a mark with bits of a low byte");
    for (i = 0; i < 3; i++)
        spoil(holds_for_add[i], AT_MARK, 0, 1, "a mark in a hold for ADD");
}

/* What only ten bits have, where seven run or none: the hold for ADD, a byte of theirs, the full match. */
static void spoil_modes(void)
{
    static const uint8_t theirs[15] = {TEN_HELD_HIGH, TEN_HIGH, TEN_HIGH_REFUSED, ADD_THEN_LOW, LOW_NONE, LOW_BITS, LOW_WHOLE,
                                       LOW_HELD, LOW_PULLING, LOW_MISSED, LOW_REFUSED, ADD_THEN_QUIET, ASKING_HELD, ASKING,
                                       ASKING_REFUSED};
    static const uint8_t full[6] = {ADD_THEN_DATA, TEN_DATA, TEN_HELD_DATA, TEN_FULL, TEN_HELD_SENDING, TEN_SENDING};
    int i, flagged;

    for (flagged = 0; flagged <= WITH_FLAGS; flagged += WITH_FLAGS) {
        for (i = 0; i < 15; i++)
            spoil(flagged + theirs[i], CON1, 0xFE, 0, "a phase of ten bits with seven");
        for (i = 0; i < 6; i++)
            spoil(flagged + full[i], CON1, 0xFE, 0, "the full match with seven bits");
        for (i = FRESH; i < STATES; i++)
            spoil(flagged + i, AT_FULL, 0, 1, "the full match with seven bits");
        spoil(flagged + TEN_OFF, AT_FULL, 0, 1, "the full match while off");
        spoil(flagged + FRESH, AT_PHASE, 0, DOOR_HELD_ADD, "a hold for ADD with seven bits");
        for (i = 0; i < 3; i++)
            spoil(flagged + holds_for_add[i], CON1, 0xDF, 0, "a hold for ADD while off");
    }
    spoil_range(PULLING, AT_WHICH, 1, 3, "a slot of seven bits with a byte of ten");
    spoil_range(HELD_BEFORE, AT_WHICH, 1, 3, "a hold of seven bits with a byte of ten");
    spoil(ADDRESS_BITS, AT_WHICH, 0, BYTE_LOW, "a low byte with seven bits");
}

/* Which byte a phase belongs to, what follows it, and the full match, each out of its range. */
static void spoil_which(void)
{
    static const uint8_t without[10] = {FRESH, OFF, DATA_BITS, HELD_DATA, HELD_SENDING, SENDING, MASTER_ACK, TEN_FRESH,
                                        TEN_DATA, TEN_HELD_DATA};
    static const uint8_t with[9] = {TEN_HELD_HIGH, LOW_HELD, ASKING_HELD, TEN_HIGH, LOW_PULLING, LOW_MISSED, LOW_REFUSED,
                                    ASKING, ASKING_REFUSED};
    static const uint8_t addresses[6] = {TEN_MARKED, TEN_WHOLE, LOW_NONE, LOW_BITS, LOW_WHOLE, TEN_FULL};
    int i;

    for (i = 0; i < 10; i++)
        spoil_range(without[i], AT_WHICH, 1, 255, "a byte of ten bits where the phase has none");
    for (i = 0; i < 9; i++)
        spoil_range(with[i], AT_WHICH, BYTES, 255, "a byte above 3");
    for (i = 0; i < 6; i++) {
        spoil(addresses[i], AT_WHICH, 0, BYTE_HIGH, "an address under way that is a high byte's already");
        spoil_range(addresses[i], AT_WHICH, BYTE_HIGH_TO_SEND, 255, "an address of no byte");
    }
    for (i = 0; i < 3; i++)
        spoil_range(holds_for_add[i], AT_WHICH, NEXTS, 255, "a hold for ADD with nothing that follows");
    for (i = 0; i < KINDS; i++)
        spoil_range(i, AT_FULL, 2, 255, "a full match above 1");
}

/* A phase with parts that are not its own, or out of their range. */
static void spoil_parts(void)
{
    static const uint8_t bare[15] = {FRESH, HELD_BEFORE, HELD_REFUSED, PULLING, REFUSED, DECLINED, HELD_SENDING, MASTER_ACK,
                                     HELD_DATA, ADD_THEN_QUIET, ADD_THEN_LOW, ADD_THEN_DATA, LOW_HELD, LOW_MISSED, ASKING};
    static const uint8_t without[9] = {FRESH, ADDRESS_BITS, HELD_SENDING, SENDING, MASTER_ACK, ADD_THEN_QUIET, ADD_THEN_LOW,
                                       ADD_THEN_DATA, LOW_BITS};
    static const uint8_t with[3] = {HELD_DATA, HELD_BEFORE, HELD_REFUSED};
    unsigned i;

    for (i = 0; i < 15; i++) {
        spoil_range(bare[i], AT_COUNT, 1, 255, "a count where the phase has none");
        spoil_range(bare[i], AT_BYTE, 1, 255, "a byte where the phase has none");
    }
    for (i = 0; i < 9; i++)
        spoil_range(without[i], AT_PART, 1, 255, "held, refused or a slot's case where the phase has none");
    for (i = 0; i < 3; i++)
        spoil_range(with[i], AT_PART, 2, 255, "held or refused above 1");
    spoil(ADDRESS_BITS, AT_BYTE, 0, 8, "3 bits above 7");
    spoil(DATA_BITS, AT_BYTE, 0, 4, "2 bits above 3");
    spoil(MARKED, AT_BYTE, 0, 1, "no bits above 0");
    spoil_range(ADDRESS_WHOLE, AT_COUNT, 9, 255, "more than 8 bits of an address");
    spoil_range(DATA_WHOLE, AT_COUNT, 9, 255, "more than 8 bits of data");
    spoil_range(SENDING, AT_COUNT, 8, 255, "a place above 7");
    spoil_range(LOW_WHOLE, AT_COUNT, 9, 255, "more than 8 bits of a low byte");
    spoil_range(FRESH, AT_PHASE, 9, 255, "a phase above 8");
    spoil_range(TEN_FRESH, AT_PHASE, 9, 255, "a phase above 8");
}

/* A slot's case: 0, which a slot that does not pull had in older images, and all above 3 are none. */
static void spoil_slots(void)
{
    unsigned i;

    for (i = 0; i < 3; i++) {
        spoil(slots[i], AT_PART, 0, 0, "a slot of no case");
        spoil_range(slots[i], AT_PART, SLOT_CASES, 255, "a slot's case above 3");
    }
}

/* The handler's part and the zeros, and the image's length. */
static void spoil_rest(void)
{
    size_t length;
    int i;

    spoil(FRESH, AT_N, 0, 0, "n of 0");
    spoil(FRESH, AT_N + 1, 0, 1, "n of 256 + 32");
    lay(states[FRESH]);
    image[AT_N] = image[AT_N + 1] = 1;
    all_refuse(DOOR_IMAGE, "n of 257", 0);
    spoil_range(FRESH, AT_POINTER, N, 255, "a pointer not below n");
    spoil_range(FRESH, AT_POINTER + 1, 1, 255, "a pointer of two bytes");
    spoil_range(FRESH, AT_DUE, 2, 255, "due above 1");
    for (i = AT_REST; i < DOOR_IMAGE; i++)
        spoil_range(FRESH, i, 1, 255, "a byte that is not used");
    for (length = 0; length <= LONGEST; length++) {
        lay(states[MARKED]);
        if (length > DOOR_IMAGE)
            memset(image + DOOR_IMAGE, 0, length - DOOR_IMAGE);
        if (length != DOOR_IMAGE)
            all_refuse(length, "an image of another length", length);
    }
    expect(door.look(NULL, 0).refusal == 6 && door.read(NULL, 0, 0).refusal == 6, "no bytes at all", 0);
    expect(door.sample(NULL, 0, 0).refusal == 6 && door.write(NULL, 0, 0, 0).refusal == 6, "no bytes at all", 0);
    expect(door.hit(NULL, 0, 0).refusal == 6, "no bytes at all, hit", 0);
    expect(door.call(NULL, 0, NULL, 0, 0, 1).refusal == 6, "no bytes at all, call", 0);
    expect(door.run(NULL, 0, NULL, 0, 0, 1, NULL, 0).refusal == 6, "no bytes at all, run", 0);
    expect(word_refused(door.draw(NULL, 0, NULL, 0, 0, 1, NULL, 0, NULL, 0), 6, 0), "no bytes at all, draw", 0);
}

/* The bytes in the room are taken as a state: by look, and by hit for every first byte, GCEN 0 and 1, which answers by the
   registers alone and leaves all alone. */
static void both_take(const char *what, unsigned long more)
{
    unsigned byte, gcen;

    expect(door.look(image, DOOR_IMAGE).refusal == 0, what, more);
    for (gcen = 0; gcen <= 0x80; gcen += 0x80) {
        image[CON2] = (uint8_t)((image[CON2] & 0x7F) | gcen);
        memcpy(kept, room, ROOM);
        for (byte = 0; byte < 256; byte++) {
            door_answer a = door.hit(image, DOOR_IMAGE, (uint8_t)byte);

            expect(a.refusal == 0 && a.item == 0 && a.value == hit_of(image, byte) && left_alone(), what, more);
        }
    }
}

/* The states themselves are taken, and so are the neighbours of what is refused. */
static void neighbours(void)
{
    static const struct { uint8_t which, place, keep, set; } fine[] = {
        {FRESH, STAT, 0xFF, 0xF5}, {FRESH, CON2, 0xFF, 0xE1}, {FRESH, CON3, 0xFF, 0xEF}, {FRESH, FLAG, 0xFF, 1},
        {FRESH, CON1, 0xFF, 0x0E}, {FRESH, CON1, 0x00, 0xDF}, {MARKED, AT_WIRE, 0, 3}, {MARKED, AT_MARK, 0, 0},
        {ADDRESS_WHOLE, AT_BYTE, 0, 255}, {DATA_WHOLE, AT_WIRE, 0, 2}, {ADDRESS_BITS, AT_WIRE, 0, 255},
        {SENDING, AT_COUNT, 0, 7}, {FRESH, AT_POINTER, 0, N - 1}, {FRESH, AT_DUE, 0, 1},
        {FRESH, CON1, 0xFF, 0x07}, {FRESH, CON1, 0xFF, 0x0F}, {FRESH, MSK, 0, 0}, {TEN_OFF, MSK, 0, 0}, {TEN_OFF, MSK, 0, 0xFE},
        {TEN_FRESH, AT_FULL, 0, 1}, {TEN_MARKED, AT_FULL, 0, 1}, {TEN_MARKED, AT_WHICH, 0, BYTE_LOW},
        {LOW_NONE, AT_WIRE, 0, 255}, {LOW_WHOLE, AT_WIRE, 0, 3}, {LOW_WHOLE, STAT, 0xFF, 0x24},
        {LOW_PULLING, STAT, 0xFF, 0x24}, {LOW_HELD, STAT, 0xFF, 0x24}, {ADD_THEN_LOW, STAT, 0xFF, 0xE5},
        {ADD_THEN_LOW, CON1, 0xEF, 0}, {ADD_THEN_QUIET, CON1, 0xEF, 0}, {ADD_THEN_DATA, CON1, 0xEF, 0},
        {ADD_THEN_QUIET, AT_FULL, 0, 1}, {ADD_THEN_DATA, AT_FULL, 0, 0}, {TEN_HIGH, AT_WHICH, 0, 0}, {ASKING, AT_FULL, 0, 0},
        {ASKING, STAT, 0xDB, 0}
    };
    int i, neighbours_of_refused = (int)(sizeof fine / sizeof fine[0]);

    for (i = 0; i < ALL_STATES; i++) {
        lay(states[i]);
        both_take("a state", (unsigned long)i);
    }
    for (i = 0; i < neighbours_of_refused; i++) {
        lay(states[fine[i].which]);
        image[fine[i].place] = (uint8_t)((image[fine[i].place] & fine[i].keep) | fine[i].set);
        both_take("the neighbour of a refused image", (unsigned long)i);
    }
    lay(states[FRESH]);
    image[AT_N] = 0;
    image[AT_N + 1] = 1;
    image[AT_POINTER] = 255;
    expect(door.look(image, DOOR_IMAGE).pointer == 255, "n of 256 with the last pointer", 0);
}

/* A view of a slot: of this case, and no more of the phase's parts. */
static int shows_slot(const uint8_t *state, unsigned wanted)
{
    door_view v = door.look(state, DOOR_IMAGE);

    return v.refusal == 0 && v.phase == DOOR_SLOT && slot_case(v.sda_pulled, v.refused) == wanted
        && v.scl_pulled == 0 && v.bits == 0 && v.byte == 0;
}

/* The slots that the door makes have their cases, and each of the three cases is taken in each of them. */
static void slot_cases(void)
{
    int i;
    uint8_t part;

    for (i = 0; i < ALL_STATES; i += KINDS) {
        expect(states[i + PULLING][AT_PART] == SLOT_PULLING, "a slot that pulls", (unsigned long)i);
        expect(states[i + REFUSED][AT_PART] == SLOT_REFUSED, "a refused slot", (unsigned long)i);
        expect(states[i + DECLINED][AT_PART] == SLOT_DECLINED, "a declined slot", (unsigned long)i);
        expect(states[i + HELD_REFUSED][AT_PART] == 1, "a refused hold", (unsigned long)i);
        expect(states[i + HELD_BEFORE][AT_PART] == 0, "a hold that is not refused", (unsigned long)i);
    }
    for (i = 0; i < 3; i++)
        for (part = SLOT_PULLING; part < SLOT_CASES; part++) {
            lay(states[slots[i]]);
            image[AT_PART] = part;
            expect(shows_slot(image, part), "a slot of each case", part);
        }
    expect(door.look(states[HELD_REFUSED], DOOR_IMAGE).refused == 1, "a refused hold is seen", 0);
    expect(door.look(states[HELD_BEFORE], DOOR_IMAGE).refused == 0, "a hold that is not refused is seen", 0);
}

/* Which byte of ten bits, what follows and the full match, as a state that the door made has them. */
static void ten_bit_parts(int which, unsigned byte, unsigned next, unsigned full)
{
    int i;

    for (i = which; i < ALL_STATES; i += KINDS) {
        door_view v = door.look(states[i], DOOR_IMAGE);

        expect(v.which == byte && v.next == next && v.full == full, "the parts of ten bits in a view", (unsigned long)i);
        expect(states[i][AT_WHICH] == byte + next && states[i][AT_FULL] == full, "and in an image", (unsigned long)i);
        expect(!(v.stat & 0x02) == (v.phase != DOOR_HELD_ADD), "UA exactly in the hold for ADD", (unsigned long)i);
        expect(door.read(states[i], DOOR_IMAGE, STAT).value == v.stat, "STAT as it is read", (unsigned long)i);
    }
}

/* The same for each of them; and each byte in each phase, by hand. */
static void ten_bit_cases(void)
{
    static const struct { uint8_t which, byte, next, full; } made[KINDS - STATES] = {
        {TEN_FRESH, 0, 0, 0}, {TEN_OFF, 0, 0, 0}, {TEN_MARKED, 0, 0, 0}, {TEN_WHOLE, 0, 0, 0}, {TEN_HELD_HIGH, 1, 0, 0},
        {TEN_HIGH, 1, 0, 0}, {TEN_HIGH_REFUSED, 1, 0, 0}, {ADD_THEN_LOW, 0, 1, 0}, {LOW_NONE, 2, 0, 0}, {LOW_BITS, 2, 0, 0},
        {LOW_WHOLE, 2, 0, 0}, {LOW_HELD, 2, 0, 0}, {LOW_PULLING, 2, 0, 0}, {LOW_MISSED, 2, 0, 0}, {LOW_REFUSED, 2, 0, 0},
        {ADD_THEN_QUIET, 0, 0, 0}, {ADD_THEN_DATA, 0, 2, 1}, {TEN_DATA, 0, 0, 1}, {TEN_HELD_DATA, 0, 0, 1},
        {TEN_FULL, 0, 0, 1}, {ASKING_HELD, 3, 0, 1}, {ASKING, 3, 0, 1}, {ASKING_REFUSED, 3, 0, 1}, {TEN_HELD_SENDING, 0, 0, 1},
        {TEN_SENDING, 0, 0, 1}
    };
    static const uint8_t phases[4] = {LOW_HELD, LOW_PULLING, LOW_REFUSED, LOW_MISSED};
    uint8_t i, byte;

    for (i = FRESH; i < STATES; i++)
        ten_bit_parts(i, 0, 0, 0);
    for (i = 0; i < KINDS - STATES; i++)
        ten_bit_parts(made[i].which, made[i].byte, made[i].next, made[i].full);
    for (i = 0; i < 4; i++)
        for (byte = 0; byte < BYTES; byte++) {
            lay(states[phases[i]]);
            image[AT_WHICH] = byte;
            expect(door.look(image, DOOR_IMAGE).which == byte, "a hold or slot of each byte", byte);
        }
    for (i = 0; i < 3; i++) {
        lay(states[ADD_THEN_LOW]);
        image[AT_WHICH] = i;
        expect(door.look(image, DOOR_IMAGE).next == i, "a hold for ADD with each that follows", i);
        expect(door.look(states[holds_for_add[i]], DOOR_IMAGE).scl_pulled == 1, "a hold for ADD pulls SCL", i);
    }
}

/* ---- Refusals 1, 2, 3, 8, 9 and 4 in single calls ---- */

/* A register number, or a level, by itself: read, and sampled. */
static void number_alone(const uint8_t *state, uint32_t number)
{
    lay(state);
    expect(number > FLAG ? refused(door.read(image, DOOR_IMAGE, number), 1, 0) : done(door.read(image, DOOR_IMAGE, number)),
           "read", number);
    lay(state);
    expect(number > 3 ? refused(door.sample(image, DOOR_IMAGE, number), 4, 0) : done(door.sample(image, DOOR_IMAGE, number)),
           "sample", number);
}

/* A register number with every value; CON1 is then as it was written, but for WCOL and SSPOV, which only go to 0. */
static void number_written(const uint8_t *state, uint32_t number)
{
    unsigned value, wanted;
    door_answer a;

    for (value = 0; value < 256; value++) {
        lay(state);
        wanted = write_refusal(state, number, value);
        a = door.write(image, DOOR_IMAGE, number, (uint8_t)value);
        expect(wanted ? refused(a, wanted, 0) : done(a), "write", (unsigned long)number * 256 + value);
        if (number == CON1 && !wanted)
            expect(image[CON1] == (value & (0x3Fu | state[CON1])), "CON1 after a write", value);
    }
}

/* Numbers and levels on every state: all of a byte, and those that a byte would misread, whose low byte is a good one. */
static void single_calls(void)
{
    uint32_t number, low;
    int i, place;

    for (i = 0; i < ALL_STATES; i++) {
        for (number = 0; number < 256; number++) {
            number_written(states[i], number);
            number_alone(states[i], number);
        }
        for (place = 8; place < 32; place++)
            for (low = 0; low < 8; low++) {
                number = (uint32_t)1 << place | low;
                number_alone(states[i], number);
                lay(states[i]);
                expect(refused(door.write(image, DOOR_IMAGE, number, 0), 1, 0), "write", number);
            }
    }
}

/* ---- Refusal 8: a change of mode under way ---- */

/* Every SSPM stored while off, and every value written over it, with no mask and with some: any of the four modes can be
   enabled, whatever stood there, those of ten bits without a mask. */
static void modes_while_off(void)
{
    static const uint8_t masks[6] = {0xFF, 0xFE, 0x7F, 0xEF, 0x01, 0x00};
    uint8_t off[DOOR_IMAGE];
    uint8_t mode, i;

    for (mode = 0; mode < 16; mode++)
        for (i = 0; i < 6; i++) {
            memcpy(off, states[OFF], DOOR_IMAGE);
            put(off, CON1, mode);
            put(off, MSK, masks[i]);
            expect(off[CON1] == mode && off[MSK] == masks[i], "a mode and a mask stored while off", mode);
            number_written(off, CON1);
            number_written(off, MSK);
        }
}

/* A hold: a change of mode with CKP 1, or without, neither ends it nor clears WCOL and SSPOV. */
static void mode_in_hold(const uint8_t *state)
{
    static const uint8_t others[3] = {0x08, 0x01, 0x09};
    uint8_t same = (uint8_t)(0x30 | (state[CON1] & 0x0F));
    int i;

    lay(state);
    for (i = 0; i < 3; i++) {
        expect(refused(door.write(image, DOOR_IMAGE, CON1, same ^ others[i]), 8, 0), "a change of mode in a hold", same);
        expect(refused(door.write(image, DOOR_IMAGE, CON1, same ^ others[i] ^ 0x10), 8, 0), "and with CKP 0", same);
        expect(door.look(image, DOOR_IMAGE).scl_pulled == 1, "a hold that stays", same);
    }
}

/* With the mode that stands, CKP 1 ends a hold, but the one for ADD: that one ends by a write to ADD. */
static void hold_ends(const uint8_t *state)
{
    uint8_t same = (uint8_t)(0x30 | (state[CON1] & 0x0F));
    int for_add = state[AT_PHASE] == DOOR_HELD_ADD;

    lay(state);
    expect(done(door.write(image, DOOR_IMAGE, CON1, same)) && image[CON1] == same, "CKP 1 in a hold", same);
    expect(door.look(image, DOOR_IMAGE).scl_pulled == for_add, "a hold that ends by CKP 1, or one for ADD that stays", same);
    lay(state);
    expect(done(door.write(image, DOOR_IMAGE, ADD, 0x5A)) && image[ADD] == 0x5A, "ADD in a hold", same);
    expect(door.look(image, DOOR_IMAGE).scl_pulled == !for_add, "a hold for ADD that ends, or another that stays", same);
}

/* Off with every SSPM, and each hold in both modes of its address bits, WCOL and SSPOV 0 and 1. */
static void modes(void)
{
    int i, j;

    modes_while_off();
    for (i = 0; i < ALL_STATES; i += KINDS) {
        for (j = 0; j < 9; j++) {
            mode_in_hold(states[i + holds[j]]);
            hold_ends(states[i + holds[j]]);
        }
        for (j = 0; j < 3; j++) {
            mode_in_hold(states[i + holds_for_add[j]]);
            hold_ends(states[i + holds_for_add[j]]);
        }
    }
}

/* ---- Refusal 9: ten bits under a mask ---- */

/* The causes of 9 and what comes before it, by hand: CON1 and MSK of a state that is quiet, then a write and its refusal. */
static void masked(void)
{
    static const struct { uint8_t con1, msk, number, value, refusal; } rows[] = {
        {0x16, 0xFE, CON1, 0x37, 9}, {0x16, 0xFE, CON1, 0x3F, 9}, {0x16, 0x00, CON1, 0x27, 9}, {0x17, 0x7F, CON1, 0xF7, 9},
        {0x1F, 0xF0, CON1, 0x3F, 9}, {0x10, 0x01, CON1, 0x2F, 9}, {0x16, 0xFF, CON1, 0x37, 0}, {0x16, 0xFF, CON1, 0x3F, 0},
        {0x16, 0xFE, CON1, 0x36, 0}, {0x17, 0xFE, CON1, 0x3E, 0}, {0x16, 0xFE, CON1, 0x17, 0}, {0x16, 0x00, CON1, 0x1F, 0},
        {0x16, 0xFE, CON1, 0x35, 3}, {0x16, 0xFE, CON1, 0x38, 3}, {0x36, 0xFE, CON1, 0x37, 8}, {0x3E, 0x00, CON1, 0x3F, 8},
        {0x36, 0xFE, CON1, 0x3F, 8}, {0x36, 0xFE, CON1, 0x34, 3}, {0x37, 0xFF, CON1, 0x3F, 8}, {0x37, 0xFF, CON1, 0x36, 8},
        {0x37, 0xFF, CON1, 0x27, 0}, {0x3F, 0xFF, CON1, 0x0F, 0}, {0x37, 0xFF, MSK, 0xFE, 9}, {0x37, 0xFF, MSK, 0x00, 9},
        {0x3F, 0xFF, MSK, 0xF0, 9}, {0x37, 0xFF, MSK, 0xFF, 0}, {0x17, 0xFF, MSK, 0xF0, 0}, {0x1F, 0x00, MSK, 0x0F, 0},
        {0x36, 0xFF, MSK, 0xF0, 0}, {0x3E, 0x00, MSK, 0xFE, 0}, {0x37, 0xFF, CON2, 0x1E, 2}, {0x37, 0xFF, 8, 0xF0, 1}
    };
    size_t i;

    for (i = 0; i < sizeof rows / sizeof rows[0]; i++) {
        door_answer a;

        lay(states[FRESH]);
        image[CON1] = rows[i].con1;
        image[MSK] = rows[i].msk;
        memcpy(kept, room, ROOM);
        a = door.write(image, DOOR_IMAGE, rows[i].number, rows[i].value);
        expect(rows[i].refusal ? refused(a, rows[i].refusal, 0) : done(a), "ten bits and a mask", (unsigned long)i);
    }
}

/* ---- Refusal 5: windows at every edge ---- */

/* Whether the paper takes a window, without a sum that could wrap. */
static int window_fits(uint64_t length, uint64_t start, uint64_t n, uint64_t wanted)
{
    return n == wanted && start <= length && n <= length - start;
}

/* One window through drawings: of a good record, of none, and with a bad level beside. */
static void draw_window(const uint8_t *state, size_t length, uint64_t start, uint64_t n, int fits)
{
    static const uint8_t good[3] = {3, 2, 0}, bad[3] = {3, 2, 4};

    lay(state);
    expect(fits ? draw_done(draw(DOOR_IMAGE, length, start, n, good, 3), 3)
                : draw_refused(draw(DOOR_IMAGE, length, start, n, good, 3), 5, 0), "draw: window", start);
    lay(state);
    expect(draw_refused(draw(DOOR_IMAGE, length, start, n, NULL, 0), fits ? 0 : 5, 0), "draw of no items: window", start);
    expect(draw_refused(draw(DOOR_IMAGE, length, start, n, bad, 3), fits ? 4 : 5, fits ? 2 : 0),
           "draw with a bad level: window", start);
}

/* One window through call and run, the run with a good trace, none, and a bad item beside. */
static void window(const uint8_t *state, uint64_t wanted, size_t length, uint64_t start, uint64_t n)
{
    static const uint8_t good[3] = {3, 2, 4}, bad[3] = {3, 4, 5};
    uint8_t *lent = length == 0 ? NULL : buffer;
    int fits = window_fits(length, start, n, wanted);

    lay(state);
    expect(fits ? done(door.call(image, DOOR_IMAGE, lent, length, start, n))
                : refused(door.call(image, DOOR_IMAGE, lent, length, start, n), 5, 0), "call: window", start);
    lay(state);
    expect(fits ? done(door.run(image, DOOR_IMAGE, lent, length, start, n, good, 3))
                : refused(door.run(image, DOOR_IMAGE, lent, length, start, n, good, 3), 5, 0), "run: window", start);
    lay(state);
    expect(refused(door.run(image, DOOR_IMAGE, lent, length, start, n, NULL, 0), fits ? 0 : 5, 0),
           "run of no items: window", start);
    expect(refused(door.run(image, DOOR_IMAGE, lent, length, start, n, bad, 3), fits ? 4 : 5, fits ? 2 : 0),
           "run with a bad item: window", start);
    draw_window(state, length, start, n, fits);
}

/* Every start and every n at an edge, for one setup and one buffer length. */
static void windows_of(const uint8_t *state, uint64_t wanted, size_t length)
{
    const uint64_t ns[15] = {0, 1, wanted, wanted - 1, wanted + 1, 255, 256, 257, 65536 + wanted, 4294967296u + wanted,
                             length, UINT64_MAX, UINT64_MAX - 1, UINT64_MAX - length, (uint64_t)1 << 63};
    unsigned i, j;

    for (i = 0; i < 15; i++) {
        const uint64_t n = ns[i];
        const uint64_t starts[16] = {0, 1, length - n - 1, length - n, length - n + 1, length - wanted,
                                     length - wanted + 1, length - 1, length, length + (uint64_t)1, UINT64_MAX,
                                     UINT64_MAX - n, UINT64_MAX - n + 1, (uint64_t)1 << 63, 4294967296u,
                                     4294967296u + length - wanted};

        for (j = 0; j < 16; j++)
            window(state, wanted, length, starts[j], n);
    }
}

/* Setups of every kind of length over buffers of every kind of length. */
static void windows(void)
{
    static const uint16_t setups[6] = {1, 2, 32, 33, 255, 256};
    uint8_t state[DOOR_IMAGE];
    int i, j;

    for (i = 0; i < 6; i++) {
        const size_t n = setups[i];
        const size_t lengths[7] = {0, 1, n - 1, n, n + 1, n + 9, BUFFER};

        expect(door.setup(state, DOOR_IMAGE, 0x30, n).refusal == 0, "setup", n);
        for (j = 0; j < 7; j++)
            windows_of(state, n, lengths[j]);
    }
}

/* ---- Refusal 4 in a run, in a drawing, and the finder ---- */

/* Bad items at every place, alone and in pairs: the first one's number is answered. */
static void traces(void)
{
    size_t length, first, second;
    unsigned item;

    for (length = 1; length < 8; length++)
        for (first = 0; first < length; first++)
            for (second = first; second < length; second++) {
                memset(trace, 3, length);
                trace[second] = 255;
                trace[first] = 5;
                lay(states[FRESH]);
                expect(refused(door.run(image, DOOR_IMAGE, buffer, BUFFER, 0, N, trace, length), 4, first), "run: 4", first);
            }
    for (item = 0; item < 256; item++) {
        trace[0] = (uint8_t)item;
        lay(states[HELD_DATA]);
        expect(item > 4 ? refused(door.run(image, DOOR_IMAGE, buffer, BUFFER, 0, N, trace, 1), 4, 0)
                        : done(door.run(image, DOOR_IMAGE, buffer, BUFFER, 0, N, trace, 1)), "run: item", item);
    }
    memset(trace, 4, LONG_TRACE);
    trace[LONG_TRACE - 1] = 5;
    lay(states[HELD_DATA]);
    expect(refused(door.run(image, DOOR_IMAGE, buffer, BUFFER, 0, N, trace, LONG_TRACE), 4, LONG_TRACE - 1),
           "run: the last of many items is bad", 0);
    expect(done(door.run(image, DOOR_IMAGE, buffer, BUFFER, 0, N, trace, LONG_TRACE - 1)), "run: many items", 0);
}

/* Bad levels at every place of a record, alone and in pairs; a handler call is one too, and so is every byte above 3, on a state
   of every kind. */
static void records(void)
{
    size_t length, first, second;
    unsigned level;

    for (length = 1; length < 8; length++)
        for (first = 0; first < length; first++)
            for (second = first; second < length; second++) {
                memset(trace, 3, length);
                trace[second] = 255;
                trace[first] = 4;
                lay(states[FRESH]);
                expect(draw_refused(draw(DOOR_IMAGE, BUFFER, 0, N, trace, length), 4, first), "draw: 4", first);
            }
    for (level = 0; level < 256; level++)
        for (first = 0; first < ALL_STATES; first++) {
            trace[0] = (uint8_t)level;
            lay(states[first]);
            expect(level > 3 ? draw_refused(draw(DOOR_IMAGE, BUFFER, 0, N, trace, 1), 4, 0)
                             : draw_done(draw(DOOR_IMAGE, BUFFER, 0, N, trace, 1), 1), "draw: level", level);
        }
}

/* Bad levels at the end of a long record, and behind the items that lanes are there for, where they are not looked at. */
static void long_records(void)
{
    size_t last = LONG_TRACE - 1;
    door_taken t;

    memset(trace, 3, LONG_TRACE);
    trace[last] = 4;
    lay(states[HELD_DATA]);
    t = door.draw(image, DOOR_IMAGE, buffer, BUFFER, 0, N, trace, LONG_TRACE, long_lanes, LONG_TRACE);
    expect(word_refused(t, 4, last) && left_alone(), "draw: the last of many levels is bad", 0);
    t = door.draw(image, DOOR_IMAGE, buffer, BUFFER, 0, N, trace, LONG_TRACE, long_lanes, last);
    expect(word_took(t, last), "draw: a bad level behind the lanes", 0);
    trace[LANES] = 255;
    lay(states[HELD_DATA]);
    expect(draw_done(draw(DOOR_IMAGE, BUFFER, 0, N, trace, LONG_TRACE), LANES), "draw: more bad levels behind the lanes", 0);
    trace[LANES - 1] = 4;
    lay(states[HELD_DATA]);
    expect(draw_refused(draw(DOOR_IMAGE, BUFFER, 0, N, trace, LONG_TRACE), 4, LANES - 1), "draw: the last lane's level", 0);
}

/* Whether the finder refuses so, and hands back the empty part at 0. */
static int find_refused(size_t length, uint64_t item, unsigned refusal, uint64_t bad)
{
    door_part p = door.find(length == 0 ? NULL : trace, length, item);

    return p.refusal == refusal && p.item == bad && p.start == 0 && p.length == 0;
}

/* The finder: bad levels at every place, items past the end, and both. */
static void finder(void)
{
    size_t length, first, second;
    unsigned level;

    for (length = 0; length < 8; length++) {
        const uint64_t past[5] = {length, length + (uint64_t)1, UINT64_MAX, (uint64_t)1 << 63, 4294967296u};
        int i;

        memset(trace, 3, length + 1);
        for (i = 0; i < 5; i++)
            expect(find_refused(length, past[i], 7, 0), "find: 7", past[i]);
        for (first = 0; first < length; first++)
            for (second = first; second < length; second++) {
                memset(trace, 2, length);
                trace[second] = 255;
                trace[first] = 4;
                expect(find_refused(length, first, 4, first), "find: 4", first);
                for (i = 0; i < 5; i++)
                    expect(find_refused(length, past[i], 4, first), "find: 4 before 7", first);
            }
    }
    for (level = 0; level < 256; level++) {
        trace[0] = (uint8_t)level;
        expect(level > 3 ? find_refused(1, 0, 4, 0) : door.find(trace, 1, 0).refusal == 0, "find: level", level);
    }
}

/* ---- Setup ---- */

/* Lengths other than 48, n outside 1 to 256, and both. */
static void setups(void)
{
    static const uint64_t ns[14] = {0, 1, 2, 255, 256, 257, 258, 512, 65536, 65537, 4294967296u, 4294967297u,
                                    (uint64_t)1 << 63, UINT64_MAX};
    size_t length;
    int i;

    for (length = 0; length <= LONGEST; length++)
        for (i = 0; i < 14; i++) {
            int fine = ns[i] >= 1 && ns[i] <= 256;

            lay(states[SENDING]);
            if (length == DOOR_IMAGE && fine)
                expect(done(door.setup(image, length, 0x30, ns[i])), "setup", length);
            else
                expect(refused(door.setup(image, length, 0x30, ns[i]), length == DOOR_IMAGE ? 5 : 6, 0), "setup", length);
        }
    expect(door.setup(NULL, 0, 0x30, 1).refusal == 6, "setup on no bytes", 0);
}

/* Setup makes the fresh state, whatever stood there: it is no write to CON1. */
static void setups_anew(void)
{
    int i;

    for (i = 0; i < ALL_STATES; i++) {
        lay(states[i]);
        expect(done(door.setup(image, DOOR_IMAGE, 0x30, N)), "setup over a state", (unsigned long)i);
        expect(memcmp(image, states[FRESH], DOOR_IMAGE) == 0, "the fresh state", (unsigned long)i);
    }
}

/* All checks. */
int main(void)
{
    reach_all();
    neighbours();
    slot_cases();
    ten_bit_cases();
    spoil_registers();
    spoil_ten_bit_registers();
    spoil_conditions();
    spoil_modes();
    spoil_which();
    spoil_parts();
    spoil_slots();
    spoil_rest();
    single_calls();
    modes();
    masked();
    windows();
    traces();
    records();
    long_records();
    finder();
    setups();
    setups_anew();
    printf("refusals: images that are no state's %lu checks %lu failures %lu\n", causes, checks, failures);
    return failures == 0 ? 0 : 1;
}
