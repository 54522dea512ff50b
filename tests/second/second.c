/* The second program: the rules of the paper on the MSSP I2C slave and its handler, one small function for each. */
#include "second.h"

#include <string.h>

/* Register numbers. */
enum { BUF, STAT, CON1, CON2, CON3, ADD, MSK, FLAG, REGISTERS };

/* Bits of STAT. */
enum { SMP = 0x80, CKE = 0x40, DA = 0x20, P = 0x10, S = 0x08, RW = 0x04, UA = 0x02, BF = 0x01 };

/* Bits of CON1. */
enum { WCOL = 0x80, SSPOV = 0x40, SSPEN = 0x20, CKP = 0x10, SSPM = 0x0F };

/* The four modes allowed with SSPEN 1: seven or ten address bits; in the flagged ones every Start and Stop sets SSPIF. */
enum { SEVEN = 0x06, TEN = 0x07, SEVEN_FLAGGED = 0x0E, TEN_FLAGGED = 0x0F };

/* The only mask that goes with ten bits. */
enum { NO_MASK = 0xFF };

/* Bits of CON2. */
enum { GCEN = 0x80, ACKSTAT = 0x40, ACKDT = 0x20, MASTER_ONLY = 0x1E, SEN = 0x01 };

/* Bits of CON3. */
enum { ACKTIM = 0x80, PCIE = 0x40, SCIE = 0x20, BOEN = 0x10, AHEN = 0x02, DHEN = 0x01 };

/* The one bit of the flag register. */
enum { SSPIF = 0x01 };

/* Wire levels are 2 * SCL + SDA; NONE where no wire is remembered. */
enum { SDA = 1, SCL = 2, HIGHEST_LEVEL = 3, NONE = 255 };

/* The item of a trace that is a handler call. */
enum { HANDLER_CALL = 4 };

/* The nine phases. */
enum { QUIET, ADDRESS, DATA, HELD_BEFORE, SLOT, HELD_SENDING, SENDING, MASTER_ACK, HELD_ADD, PHASES };

/* The three cases of an acknowledge slot: SDA is pulled; BF or SSPOV refused the intake; neither, since ACKDT alone declined
   the byte or a low byte did not match. */
enum { PULLING = 1, REFUSED, DECLINED };

/* Which byte an address, a hold before acknowledge or a slot belongs to; only ten bits know others than the first. */
enum { OTHER = 0, HIGH = 1, LOW = 2, HIGH_TO_SEND = 3 };

/* What follows when ADD is written in the hold for it. */
enum { QUIET_NEXT = 0, LOW_NEXT = 1, DATA_NEXT = 2 };

/* Which address a first byte hits. */
enum { NO_HIT = 0, OWN_HIT = 1, GENERAL_CALL = 2 };

/* Refusals by their numbers. */
enum {
    DONE = 0, NO_REGISTER = 1, MASTER_BITS = 2, NO_SUCH_MODE = 3,
    NO_SUCH_LEVEL = 4, NO_SUCH_WINDOW = 5, NO_STATE = 6, NO_SUCH_ITEM = 7, MODE_UNDER_WAY = 8, MASKED_TEN = 9
};

/* The image's length, and the places in it. */
enum {
    AT_PHASE = 8, AT_COUNT = 9, AT_BYTE = 10, AT_PART = 11, AT_WIRE = 12, AT_MARK = 13, AT_WHICH = 14,
    AT_FULL = 15, AT_N = 16, AT_POINTER = 18, AT_DUE = 20, AT_REST = 21, IMAGE = 48
};

/* A state in the open. Parts a phase has no use for are 0. */
typedef struct {
    uint8_t reg[REGISTERS]; /* STAT without UA, which the phase tells */
    uint8_t phase;
    uint8_t count;   /* address, data: bits so far; sending: the place */
    uint8_t byte;    /* address, data: those bits as a number; sending: the byte */
    uint8_t held;    /* data: held or not */
    uint8_t refused; /* held before acknowledge: refused or not */
    uint8_t slot;    /* acknowledge slot: which of its three cases */
    uint8_t which;   /* address, held before acknowledge, slot: which byte */
    uint8_t next;    /* held for ADD: what follows */
    uint8_t full;    /* the full match: both bytes of the ten-bit address were acknowledged */
    uint8_t wire;
    uint8_t mark;
    uint8_t due;
    uint16_t n;
    uint16_t pointer;
} module;

/* ---- Small help for bits and phases ---- */

/* Whether any of these bits of a register is 1. */
static int any(const module *m, int number, int bits)
{
    return (m->reg[number] & bits) != 0;
}

/* Makes these bits of a register 1. */
static void set(module *m, int number, int bits)
{
    m->reg[number] = (uint8_t)(m->reg[number] | bits);
}

/* Makes these bits of a register 0. */
static void clear(module *m, int number, int bits)
{
    m->reg[number] = (uint8_t)(m->reg[number] & ~bits);
}

/* Makes these bits of a register what they are in value, and leaves the others. */
static void take(module *m, int number, int bits, int value)
{
    m->reg[number] = (uint8_t)((m->reg[number] & ~bits) | (value & bits));
}

/* Goes to a phase with all its parts 0: no bits, not held, not refused, no slot, no byte of ten bits. */
static void enter(module *m, int phase)
{
    m->phase = (uint8_t)phase;
    m->count = 0;
    m->byte = 0;
    m->held = 0;
    m->refused = 0;
    m->slot = 0;
    m->which = 0;
    m->next = 0;
}

/* Whether SSPM says ten address bits. */
static int ten_bits(const module *m)
{
    int mode = m->reg[CON1] & SSPM;

    return mode == TEN || mode == TEN_FLAGGED;
}

/* Whether SSPM alone makes every Start and Stop set SSPIF. */
static int flagged(const module *m)
{
    int mode = m->reg[CON1] & SSPM;

    return mode == SEVEN_FLAGGED || mode == TEN_FLAGGED;
}

/* Whether the clock is held until CKP is written 1. */
static int held_by_ckp(const module *m)
{
    return m->phase == HELD_BEFORE || m->phase == HELD_SENDING || (m->phase == DATA && m->held);
}

/* Whether the clock is held: SCL is pulled exactly then. */
static int clock_held(const module *m)
{
    return held_by_ckp(m) || m->phase == HELD_ADD;
}

/* Whether SDA is pulled: in a pulling slot and for the 0 bits of a byte being sent. */
static int sda_pulled(const module *m)
{
    if (m->phase == SENDING)
        return ((m->byte >> (7 - m->count)) & 1) == 0;
    return m->slot == PULLING;
}

/* ---- Start and Stop ---- */

/* What two levels in a row are; after a Start, none counts until SCL has been low (the mark). */
enum { NO_CONDITION, START, STOP };

static int condition(int before, int now, int mark)
{
    if (mark || before == NONE || !(before & SCL) || !(now & SCL))
        return NO_CONDITION;
    if ((before & SDA) == (now & SDA))
        return NO_CONDITION;
    return (now & SDA) ? STOP : START;
}

/* What Start and Stop have in common; either during sending clears BF. */
static void end_message(module *m)
{
    if (m->phase == SENDING)
        clear(m, STAT, BF);
    clear(m, STAT, RW);
    clear(m, CON3, ACKTIM);
}

/* Start: an address with no bits follows, marked until SCL is low; the full match stays. */
static void start_seen(module *m)
{
    end_message(m);
    clear(m, STAT, P | DA);
    set(m, STAT, S);
    enter(m, ADDRESS);
    m->mark = 1;
    if (any(m, CON3, SCIE) || flagged(m))
        set(m, FLAG, SSPIF);
}

/* Stop: quiet follows; D/A stays, the full match ends. */
static void stop_seen(module *m)
{
    end_message(m);
    m->full = 0;
    clear(m, STAT, S);
    set(m, STAT, P);
    enter(m, QUIET);
    if (any(m, CON3, PCIE) || flagged(m))
        set(m, FLAG, SSPIF);
}

/* ---- Hold and release ---- */

/* Hold: CKP = 0; the phase says that SCL is pulled. */
static void hold(module *m, int phase)
{
    enter(m, phase);
    m->held = phase == DATA;
    clear(m, CON1, CKP);
}

/* The hold for ADD, with what follows it; CKP has no part in it. */
static void hold_for_add(module *m, int next)
{
    enter(m, HELD_ADD);
    m->next = (uint8_t)next;
}

/* The acknowledge slot of a byte follows; an intake that was refused stays so, whatever ACKDT says. */
static void enter_slot(module *m, int which, int refused, int declined)
{
    enter(m, SLOT);
    m->which = (uint8_t)which;
    m->slot = refused ? REFUSED : declined ? DECLINED : PULLING;
}

/* Release from a hold before acknowledge: ACKDT is asked now, BF and SSPOV were asked at the eighth fall. */
static void release_before(module *m)
{
    enter_slot(m, m->which, m->refused, any(m, CON2, ACKDT));
}

/* Release from the hold for sending: the byte in BUF goes out from bit 7. */
static void release_sending(module *m)
{
    enter(m, SENDING);
    m->byte = m->reg[BUF];
}

/* CKP = 1 was written: whatever hold there is ends, but the one for ADD. */
static void release(module *m)
{
    if (m->phase == HELD_BEFORE)
        release_before(m);
    else if (m->phase == HELD_SENDING)
        release_sending(m);
    else if (m->phase == DATA)
        m->held = 0;
}

/* ADD was written: the hold for it ends, and UA with it. */
static void release_add(module *m)
{
    int next = m->next;

    if (m->phase != HELD_ADD)
        return;
    if (next == LOW_NEXT) {
        enter(m, ADDRESS);
        m->which = LOW;
    } else {
        enter(m, next == DATA_NEXT ? DATA : QUIET);
    }
}

/* ---- Taking bytes ---- */

/* Loads BUF, or overflows where BF = 1; answers whether the byte is refused. */
static int load(module *m, uint8_t byte)
{
    if (any(m, STAT, BF)) {
        set(m, CON1, SSPOV);
        return 1;
    }
    m->reg[BUF] = byte;
    set(m, STAT, BF);
    return any(m, CON1, SSPOV);
}

/* Intake of an address or data byte at its eighth fall; holding is AHEN for an address, DHEN for data. */
static void intake(module *m, uint8_t byte, int which, int holding)
{
    int refused = load(m, byte);

    if (any(m, CON3, AHEN | DHEN))
        set(m, CON3, ACKTIM);
    if (holding) {
        set(m, FLAG, SSPIF);
        hold(m, HELD_BEFORE);
        m->which = (uint8_t)which;
        m->refused = (uint8_t)refused;
    } else {
        enter_slot(m, which, refused, 0);
    }
}

/* Which address a first byte hits: its own by ADD in bits 7..1, with seven bits under MSK, else with GCEN the general call. */
static int address_hit(const module *m, uint8_t byte)
{
    int others = (byte ^ m->reg[ADD]) & 0xFE;

    if (ten_bits(m))
        return others == 0 ? OWN_HIT : NO_HIT;
    if ((others & m->reg[MSK]) == 0)
        return OWN_HIT;
    return any(m, CON2, GCEN) && byte == 0 ? GENERAL_CALL : NO_HIT;
}

/* A first byte that is taken: R/W is its bit 0. */
static void take_first_byte(module *m, uint8_t byte, int which)
{
    clear(m, STAT, DA);
    take(m, STAT, RW, (byte & 1) ? RW : 0);
    intake(m, byte, which, any(m, CON3, AHEN));
}

/* A high byte that fits: with R/W 0 a new address begins; with R/W 1 it asks to send, which takes the full match. */
static void high_byte_fits(module *m, uint8_t byte)
{
    if (!(byte & 1)) {
        m->full = 0;
        take_first_byte(m, byte, HIGH);
    } else if (m->full) {
        take_first_byte(m, byte, HIGH_TO_SEND);
    } else {
        enter(m, QUIET);
    }
}

/* Eighth fall of a first byte: whichever address it hits is taken, and in the same way; one that hits none ends the full
   match. */
static void first_byte_ended(module *m)
{
    uint8_t byte = m->byte;

    if (address_hit(m, byte) == NO_HIT) {
        m->full = 0;
        enter(m, QUIET);
    } else if (ten_bits(m)) {
        high_byte_fits(m, byte);
    } else {
        take_first_byte(m, byte, OTHER);
    }
}

/* Eighth fall of a low byte, compared in all its bits; R/W stays. One that does not match changes no register. */
static void low_byte_ended(module *m)
{
    uint8_t byte = m->byte;

    if (byte != m->reg[ADD]) {
        enter_slot(m, LOW, 0, 1);
        return;
    }
    clear(m, STAT, DA);
    intake(m, byte, LOW, any(m, CON3, AHEN));
}

/* Eighth fall of an address. */
static void address_ended(module *m)
{
    if (m->which == LOW)
        low_byte_ended(m);
    else
        first_byte_ended(m);
}

/* Eighth fall of a data byte. */
static void data_ended(module *m)
{
    uint8_t byte = m->byte;

    set(m, STAT, DA);
    intake(m, byte, OTHER, any(m, CON3, DHEN));
}

/* Ninth fall of a byte that was not acknowledged: SSPIF where its intake was refused, and quiet. A high byte that asked to send
   ends the full match. */
static void not_acknowledged(module *m)
{
    if (m->slot == REFUSED)
        set(m, FLAG, SSPIF);
    if (m->which == HIGH_TO_SEND)
        m->full = 0;
    enter(m, QUIET);
}

/* Ninth fall of an acknowledged seven-bit address or data byte: R/W 1 of an address asks to send, else SEN holds. */
static void acknowledged(module *m)
{
    if (any(m, STAT, RW) && !any(m, STAT, DA))
        hold(m, HELD_SENDING);
    else if (any(m, CON2, SEN))
        hold(m, DATA);
    else
        enter(m, DATA);
}

/* Ninth fall of a low byte: SSPIF and the hold for ADD, whatever became of the byte; acknowledged, it makes the full match. */
static void low_slot_ended(module *m)
{
    int matched = m->slot == PULLING;

    set(m, FLAG, SSPIF);
    if (matched)
        m->full = 1;
    hold_for_add(m, matched ? DATA_NEXT : QUIET_NEXT);
}

/* Ninth fall of a received byte: the slot's pull ends. What follows hangs on which byte it was and on its acknowledge. */
static void slot_ended(module *m)
{
    if (m->which == LOW) {
        low_slot_ended(m);
        return;
    }
    if (m->slot != PULLING) {
        not_acknowledged(m);
        return;
    }
    set(m, FLAG, SSPIF);
    if (m->which == HIGH)
        hold_for_add(m, LOW_NEXT);
    else if (m->which == HIGH_TO_SEND)
        hold(m, HELD_SENDING);
    else
        acknowledged(m);
}

/* ---- Sending bytes ---- */

/* A fall in sending: the first seven move on, the eighth ends the pull. */
static void sent_bit_ended(module *m)
{
    if (m->count < 7) {
        m->count++;
        return;
    }
    clear(m, STAT, BF);
    set(m, STAT, DA);
    enter(m, MASTER_ACK);
}

/* Ninth fall of a sent byte: the master's 0 asks for another, its 1 ends the sending. */
static void master_ack_ended(module *m)
{
    set(m, FLAG, SSPIF);
    if (any(m, CON2, ACKSTAT)) {
        clear(m, STAT, RW);
        enter(m, QUIET);
    } else {
        hold(m, HELD_SENDING);
    }
}

/* ---- From levels to bytes ---- */

/* A rise of SCL reads SDA: as a bit, as the master's acknowledge, or as the ninth rise of a slot. */
static void rise(module *m, int sda)
{
    if (m->phase == ADDRESS || m->phase == DATA) {
        m->byte = (uint8_t)(m->byte << 1 | sda);
        m->count++;
    } else if (m->phase == SLOT) {
        clear(m, CON3, ACKTIM);
    } else if (m->phase == MASTER_ACK) {
        take(m, CON2, ACKSTAT, sda ? ACKSTAT : 0);
    }
}

/* A fall of SCL ends the mark, and what its phase has to end. */
static void fall(module *m)
{
    m->mark = 0;
    if (m->phase == ADDRESS && m->count == 8)
        address_ended(m);
    else if (m->phase == DATA && m->count == 8)
        data_ended(m);
    else if (m->phase == SLOT)
        slot_ended(m);
    else if (m->phase == SENDING)
        sent_bit_ended(m);
    else if (m->phase == MASTER_ACK)
        master_ack_ended(m);
}

/* The wire: low where the sample is low or the module pulls. */
static uint8_t wire_of(const module *m, uint8_t level)
{
    int wire = level;

    if (clock_held(m))
        wire &= ~SCL;
    if (sda_pulled(m))
        wire &= ~SDA;
    return (uint8_t)wire;
}

/* One sample; the first ever, and all while disabled, are only remembered. Answers the condition that it was. */
static int sample(module *m, uint8_t level)
{
    uint8_t before = m->wire;
    uint8_t now = wire_of(m, level);
    int seen;

    m->wire = now;
    if (before == NONE || !any(m, CON1, SSPEN))
        return NO_CONDITION;
    if ((before & SCL) != (now & SCL)) {
        if (now & SCL)
            rise(m, now & SDA);
        else
            fall(m);
        return NO_CONDITION;
    }
    seen = condition(before, now, m->mark);
    if (seen == START)
        start_seen(m);
    else if (seen == STOP)
        stop_seen(m);
    return seen;
}

/* ---- Registers ---- */

/* A register as it reads: UA of STAT is 1 exactly in the hold for ADD. */
static uint8_t shown(const module *m, int number)
{
    if (number == STAT && m->phase == HELD_ADD)
        return (uint8_t)(m->reg[STAT] | UA);
    return m->reg[number];
}

/* A read of BUF clears BF; other reads change nothing. */
static uint8_t read_register(module *m, int number)
{
    if (number == BUF)
        clear(m, STAT, BF);
    return shown(m, number);
}

/* A write to BUF takes effect only while the clock is held for sending, else it sets WCOL. */
static void write_buf(module *m, uint8_t value)
{
    if (m->phase == HELD_SENDING) {
        m->reg[BUF] = value;
        set(m, STAT, BF);
    } else {
        set(m, CON1, WCOL);
    }
}

/* SSPEN from 1 to 0; the wire stays remembered. */
static void disable(module *m)
{
    enter(m, QUIET);
    clear(m, STAT, S | P | DA | RW | BF);
    clear(m, CON3, ACKTIM);
    m->mark = 0;
    m->full = 0;
}

/* A write to CON1: WCOL and SSPOV can only be cleared; it may disable, or with CKP = 1 release. */
static void write_con1(module *m, uint8_t value)
{
    int was_enabled = any(m, CON1, SSPEN);

    clear(m, CON1, (WCOL | SSPOV) & ~value);
    take(m, CON1, SSPEN | CKP | SSPM, value);
    if (was_enabled && !any(m, CON1, SSPEN))
        disable(m);
    else if (any(m, CON1, CKP))
        release(m);
}

/* A write that was not refused. */
static void write_register(module *m, int number, uint8_t value)
{
    switch (number) {
    case BUF:
        write_buf(m, value);
        break;
    case STAT:
        take(m, STAT, SMP | CKE, value);
        break;
    case CON1:
        write_con1(m, value);
        break;
    case CON2:
        take(m, CON2, 0xFF & ~ACKSTAT, value);
        break;
    case CON3:
        take(m, CON3, 0xFF & ~ACKTIM, value);
        break;
    case ADD:
        m->reg[ADD] = value;
        release_add(m);
        break;
    case MSK:
        m->reg[MSK] = value;
        break;
    default: /* FLAG */
        clear(m, FLAG, SSPIF & ~value);
        break;
    }
}

/* ---- The handler ---- */

/* Moves the pointer on by one place, modulo n. */
static void pointer_on(module *m)
{
    m->pointer = (uint16_t)((m->pointer + 1) % m->n);
}

/* Sending: after a read address BUF is read first; then the byte at the pointer is loaded. */
static void handle_sending(module *m, const uint8_t *window, int is_address)
{
    if (is_address)
        (void)read_register(m, BUF);
    write_register(m, BUF, window[m->pointer]);
    pointer_on(m);
}

/* A data byte: the pointer if one is due, else stored at the pointer. Answers whether it was stored. */
static int handle_data(module *m, uint8_t *window)
{
    uint8_t byte = read_register(m, BUF);

    if (m->due) {
        m->pointer = (uint16_t)(byte % m->n);
        m->due = 0;
        return 0;
    }
    window[m->pointer] = byte;
    pointer_on(m);
    return 1;
}

/* One handler call over the window's n bytes; the case is read off STAT alone. Answers whether a byte was stored. */
static int handler(module *m, uint8_t *window)
{
    int is_address = !any(m, STAT, DA), stored = 0;

    if (!any(m, FLAG, SSPIF))
        return 0;
    write_register(m, FLAG, 0);
    if (any(m, CON1, CKP))
        return 0;
    if (any(m, STAT, RW)) {
        handle_sending(m, window, is_address);
    } else if (is_address) {
        (void)read_register(m, BUF);
        m->due = 1;
    } else {
        stored = handle_data(m, window);
    }
    write_register(m, CON1, (uint8_t)(m->reg[CON1] | CKP));
    return stored;
}

/* ---- The state image ---- */

/* Whether SSPM is one of the four modes allowed with SSPEN 1. */
static int can_run(int mode)
{
    return mode == SEVEN || mode == SEVEN_FLAGGED || mode == TEN || mode == TEN_FLAGGED;
}

/* Whether ten bits run: the only time of the full match, of the hold for ADD and of a byte that is theirs. */
static int running_ten(const module *m)
{
    return any(m, CON1, SSPEN) && ten_bits(m);
}

/* Whether the registers alone are a state's. */
static int registers_fit(const module *m)
{
    if (any(m, STAT, S) && any(m, STAT, P))
        return 0;
    if (any(m, STAT, UA) || any(m, CON3, BOEN) || any(m, CON2, MASTER_ONLY))
        return 0;
    if (any(m, FLAG, 0xFF & ~SSPIF))
        return 0;
    if (running_ten(m) && m->reg[MSK] != NO_MASK)
        return 0;
    return !any(m, CON1, SSPEN) || can_run(m->reg[CON1] & SSPM);
}

/* Takes the part that only three phases have, in the phase that was entered; answers whether it is one of that phase's. */
static int decode_part(module *m, uint8_t part)
{
    switch (m->phase) {
    case DATA:
        m->held = part;
        return part <= 1;
    case HELD_BEFORE:
        m->refused = part;
        return part <= 1;
    case SLOT:
        m->slot = part;
        return part >= PULLING && part <= DECLINED;
    default:
        return part == 0;
    }
}

/* Takes which byte a phase belongs to, or what follows it, in the phase that was entered; answers as above. */
static int decode_which(module *m, uint8_t part)
{
    switch (m->phase) {
    case ADDRESS:
        m->which = part;
        return part == OTHER || part == LOW;
    case HELD_BEFORE:
    case SLOT:
        m->which = part;
        return part <= HIGH_TO_SEND;
    case HELD_ADD:
        m->next = part;
        return part <= DATA_NEXT;
    default:
        return part == 0;
    }
}

/* Takes the phase and its parts from an image; answers whether they are a phase's. */
static int decode_phase(module *m, const uint8_t *image)
{
    uint8_t phase = image[AT_PHASE], count = image[AT_COUNT], byte = image[AT_BYTE];
    int taking = phase == ADDRESS || phase == DATA;

    if (phase >= PHASES)
        return 0;
    enter(m, phase);
    m->count = count;
    m->byte = byte;
    if (!decode_part(m, image[AT_PART]) || !decode_which(m, image[AT_WHICH]))
        return 0;
    if (taking)
        return count <= 8 && (byte >> count) == 0 && !(m->held && count > 0);
    if (phase == SENDING)
        return count <= 7;
    return count == 0 && byte == 0;
}

/* Takes wire, mark, full match, n, pointer and due from an image; answers whether each is in its range. */
static int decode_rest(module *m, const uint8_t *image)
{
    int i;

    m->wire = image[AT_WIRE];
    m->mark = image[AT_MARK];
    m->full = image[AT_FULL];
    m->n = (uint16_t)(image[AT_N] | image[AT_N + 1] << 8);
    m->pointer = (uint16_t)(image[AT_POINTER] | image[AT_POINTER + 1] << 8);
    m->due = image[AT_DUE];
    for (i = AT_REST; i < IMAGE; i++)
        if (image[i] != 0)
            return 0;
    if (m->wire > HIGHEST_LEVEL && m->wire != NONE)
        return 0;
    return m->mark <= 1 && m->full <= 1 && m->due <= 1 && m->n >= 1 && m->n <= 256 && m->pointer < m->n;
}

/* Whether registers, phase, wire and mark go together. */
static int parts_fit(const module *m)
{
    int scl_high = m->wire != NONE && (m->wire & SCL) != 0;
    int taking = m->phase == ADDRESS || m->phase == DATA;

    if (!any(m, CON1, SSPEN) && (m->phase != QUIET || m->mark))
        return 0;
    if ((m->phase == HELD_ADD || m->which != OTHER || m->full) && !running_ten(m))
        return 0;
    if (m->mark && !(any(m, STAT, S) && scl_high && m->phase == ADDRESS && m->count == 0))
        return 0;
    if (taking && m->count == 8 && !scl_high)
        return 0;
    return !held_by_ckp(m) || !any(m, CON1, CKP);
}

/* Opens an image; answers whether it is a state's. */
static int decode(module *m, const uint8_t *image, size_t length)
{
    if (length != IMAGE)
        return 0;
    memcpy(m->reg, image, REGISTERS);
    return decode_phase(m, image) && decode_rest(m, image) && registers_fit(m) && parts_fit(m);
}

/* Lays a state out as its image. */
static void encode(const module *m, uint8_t *image)
{
    memset(image, 0, IMAGE);
    memcpy(image, m->reg, REGISTERS);
    image[AT_PHASE] = m->phase;
    image[AT_COUNT] = m->count;
    image[AT_BYTE] = m->byte;
    image[AT_PART] = (uint8_t)(m->held | m->refused | m->slot);
    image[AT_WIRE] = m->wire;
    image[AT_MARK] = m->mark;
    image[AT_WHICH] = (uint8_t)(m->which | m->next);
    image[AT_FULL] = m->full;
    image[AT_N] = (uint8_t)(m->n & 0xFF);
    image[AT_N + 1] = (uint8_t)(m->n >> 8);
    image[AT_POINTER] = (uint8_t)(m->pointer & 0xFF);
    image[AT_POINTER + 1] = (uint8_t)(m->pointer >> 8);
    image[AT_DUE] = m->due;
}

/* ---- The door ---- */

/* An answer with its three fields. */
static second_answer answer(int refusal, uint8_t value, uint64_t item)
{
    second_answer a;

    a.refusal = (uint32_t)refusal;
    a.value = value;
    a.item = item;
    return a;
}

/* Whether the window lies inside its buffer and has the setup's length; no sum that could wrap. */
static int window_fits(const module *m, size_t buffer_length, uint64_t start, uint64_t n)
{
    uint64_t length = buffer_length;

    return n == m->n && start <= length && n <= length - start;
}

/* Setup: the only maker of states. */
second_answer second_setup(uint8_t *state, size_t state_length, uint8_t add, uint64_t n)
{
    module m;

    if (state_length != IMAGE)
        return answer(NO_STATE, 0, 0);
    if (n < 1 || n > 256)
        return answer(NO_SUCH_WINDOW, 0, 0);
    memset(&m, 0, sizeof m);
    m.reg[CON1] = SSPEN | CKP | SEVEN;
    m.reg[CON2] = SEN;
    m.reg[ADD] = add;
    m.reg[MSK] = NO_MASK;
    m.wire = NONE;
    m.n = (uint16_t)n;
    encode(&m, state);
    return answer(DONE, 0, 0);
}

/* A register read. */
second_answer second_read(uint8_t *state, size_t state_length, uint32_t number)
{
    module m;
    uint8_t value;

    if (!decode(&m, state, state_length))
        return answer(NO_STATE, 0, 0);
    if (number >= REGISTERS)
        return answer(NO_REGISTER, 0, 0);
    value = read_register(&m, (uint8_t)number);
    encode(&m, state);
    return answer(DONE, value, 0);
}

/* Whether a write to CON1 brings another mode to a module that runs, and is to run on. */
static int changes_mode_under_way(const module *m, uint8_t value)
{
    int stays_enabled = any(m, CON1, SSPEN) && (value & SSPEN);

    return stays_enabled && (value & SSPM) != (m->reg[CON1] & SSPM);
}

/* Whether a write would make ten bits run under a mask; a change of mode under way is refused before. */
static int masks_ten_bits(const module *m, uint32_t number, uint8_t value)
{
    int mode = value & SSPM;

    if (number == MSK)
        return running_ten(m) && value != NO_MASK;
    return number == CON1 && (value & SSPEN) && (mode == TEN || mode == TEN_FLAGGED) && m->reg[MSK] != NO_MASK;
}

/* Why a write is refused, or DONE. */
static int write_refusal(const module *m, uint32_t number, uint8_t value)
{
    if (number >= REGISTERS)
        return NO_REGISTER;
    if ((number == CON2 && (value & MASTER_ONLY)) || (number == CON3 && (value & BOEN)))
        return MASTER_BITS;
    if (number == CON1 && (value & SSPEN) && !can_run(value & SSPM))
        return NO_SUCH_MODE;
    if (number == CON1 && changes_mode_under_way(m, value))
        return MODE_UNDER_WAY;
    if (masks_ten_bits(m, number, value))
        return MASKED_TEN;
    return DONE;
}

/* A register write. */
second_answer second_write(uint8_t *state, size_t state_length, uint32_t number, uint8_t value)
{
    module m;
    int refusal;

    if (!decode(&m, state, state_length))
        return answer(NO_STATE, 0, 0);
    refusal = write_refusal(&m, number, value);
    if (refusal != DONE)
        return answer(refusal, 0, 0);
    write_register(&m, (uint8_t)number, value);
    encode(&m, state);
    return answer(DONE, 0, 0);
}

/* One sample. */
second_answer second_sample(uint8_t *state, size_t state_length, uint32_t level)
{
    module m;

    if (!decode(&m, state, state_length))
        return answer(NO_STATE, 0, 0);
    if (level > HIGHEST_LEVEL)
        return answer(NO_SUCH_LEVEL, 0, 0);
    (void)sample(&m, (uint8_t)level);
    encode(&m, state);
    return answer(DONE, 0, 0);
}

/* One handler call. */
second_answer second_call(uint8_t *state, size_t state_length,
                          uint8_t *buffer, size_t buffer_length, uint64_t start, uint64_t n)
{
    module m;

    if (!decode(&m, state, state_length))
        return answer(NO_STATE, 0, 0);
    if (!window_fits(&m, buffer_length, start, n))
        return answer(NO_SUCH_WINDOW, 0, 0);
    (void)handler(&m, buffer + (size_t)start);
    encode(&m, state);
    return answer(DONE, 0, 0);
}

/* A run over a whole trace: opened once, every item, laid out once. */
second_answer second_run(uint8_t *state, size_t state_length,
                         uint8_t *buffer, size_t buffer_length, uint64_t start, uint64_t n,
                         const uint8_t *trace, size_t trace_length)
{
    module m;
    size_t i;

    if (!decode(&m, state, state_length))
        return answer(NO_STATE, 0, 0);
    if (!window_fits(&m, buffer_length, start, n))
        return answer(NO_SUCH_WINDOW, 0, 0);
    for (i = 0; i < trace_length; i++)
        if (trace[i] > HANDLER_CALL)
            return answer(NO_SUCH_LEVEL, 0, i);
    for (i = 0; i < trace_length; i++) {
        if (trace[i] == HANDLER_CALL)
            (void)handler(&m, buffer + (size_t)start);
        else
            (void)sample(&m, trace[i]);
    }
    encode(&m, state);
    return answer(DONE, 0, 0);
}

/* ---- The drawing ---- */

/* Where a word has its parts: the wire is in bits 0 and 1, STAT, phase, pointer and BUF have several bits. */
enum {
    WORD_SDA_PULLED = 2, WORD_SCL_PULLED = 3, WORD_PHASE = 4, WORD_STAT = 8, WORD_SSPIF = 16, WORD_CKP = 17, WORD_SSPOV = 18,
    WORD_WCOL = 19, WORD_ACKSTAT = 20, WORD_ACKTIM = 21, WORD_CALLED = 22, WORD_STORED = 23, WORD_START = 24, WORD_STOP = 25,
    WORD_CONFLICT = 26, WORD_POINTER = 32, WORD_BUF = 48
};

/* A number at its place in a word. */
static uint64_t put(int place, int value)
{
    return (uint64_t)value << place;
}

/* What the word of an item has of the state after it. */
static uint64_t state_in_word(const module *m)
{
    uint64_t word = m->wire;

    word |= put(WORD_SDA_PULLED, sda_pulled(m)) | put(WORD_SCL_PULLED, clock_held(m)) | put(WORD_PHASE, m->phase);
    word |= put(WORD_STAT, shown(m, STAT)) | put(WORD_SSPIF, any(m, FLAG, SSPIF));
    word |= put(WORD_CKP, any(m, CON1, CKP)) | put(WORD_SSPOV, any(m, CON1, SSPOV)) | put(WORD_WCOL, any(m, CON1, WCOL));
    word |= put(WORD_ACKSTAT, any(m, CON2, ACKSTAT)) | put(WORD_ACKTIM, any(m, CON3, ACKTIM));
    return word | put(WORD_POINTER, m->pointer) | put(WORD_BUF, m->reg[BUF]);
}

/* One item of a wire record: a call where the clock is held and the record shows SCL high, then the sample; answers its word. */
static uint64_t draw_item(module *m, uint8_t *window, uint8_t level)
{
    uint64_t word = 0;
    int seen;

    if ((level & SCL) && clock_held(m))
        word = put(WORD_CALLED, 1) | put(WORD_STORED, handler(m, window));
    word |= put(WORD_CONFLICT, level == (SCL | SDA) && sda_pulled(m));
    seen = sample(m, level);
    word |= put(WORD_START, seen == START) | put(WORD_STOP, seen == STOP);
    return word | state_in_word(m);
}

/* How far a drawing went, with its fields; as many words as samples. */
static second_taken taken(int refusal, uint64_t item, uint64_t samples)
{
    second_taken t;

    t.refusal = (uint32_t)refusal;
    t.item = item;
    t.samples = samples;
    t.items = samples;
    return t;
}

/* A drawing of a wire record: opened once, as many items as record and lanes both have, laid out once. */
second_taken second_draw(uint8_t *state, size_t state_length,
                         uint8_t *buffer, size_t buffer_length, uint64_t start, uint64_t n,
                         const uint8_t *record, size_t record_length, uint64_t *lanes, size_t lanes_length)
{
    module m;
    size_t count = record_length < lanes_length ? record_length : lanes_length, i;

    if (!decode(&m, state, state_length))
        return taken(NO_STATE, 0, 0);
    if (!window_fits(&m, buffer_length, start, n))
        return taken(NO_SUCH_WINDOW, 0, 0);
    for (i = 0; i < count; i++)
        if (record[i] > HIGHEST_LEVEL)
            return taken(NO_SUCH_LEVEL, i, 0);
    for (i = 0; i < count; i++)
        lanes[i] = draw_item(&m, buffer + (size_t)start, record[i]);
    encode(&m, state);
    return taken(DONE, 0, count);
}

/* ---- Looking ---- */

/* What the scope draws of a state; changes nothing. */
second_view second_look(const uint8_t *state, size_t state_length)
{
    module m;
    second_view v;

    memset(&v, 0, sizeof v);
    if (!decode(&m, state, state_length)) {
        v.refusal = NO_STATE;
        return v;
    }
    v.buf = m.reg[BUF];
    v.stat = shown(&m, STAT);
    v.con1 = m.reg[CON1];
    v.con2 = m.reg[CON2];
    v.con3 = m.reg[CON3];
    v.add = m.reg[ADD];
    v.msk = m.reg[MSK];
    v.flag = m.reg[FLAG];
    v.scl_pulled = (uint8_t)clock_held(&m);
    v.sda_pulled = (uint8_t)sda_pulled(&m);
    v.phase = m.phase;
    v.bits = m.count;
    v.byte = m.byte;
    v.refused = m.refused || m.slot == REFUSED;
    v.wire = m.wire;
    v.mark = m.mark;
    v.due = m.due;
    v.n = m.n;
    v.pointer = m.pointer;
    v.which = m.which;
    v.next = m.next;
    v.full = m.full;
    return v;
}

/* Which address a first byte hits by the registers, enabled or not; changes nothing. */
second_answer second_hit(const uint8_t *state, size_t state_length, uint8_t byte)
{
    module m;

    if (!decode(&m, state, state_length))
        return answer(NO_STATE, 0, 0);
    return answer(DONE, (uint8_t)address_hit(&m, byte), 0);
}

/* ---- The finder ---- */

/* A part with its four fields. */
static second_part part(int refusal, uint64_t item, uint64_t start, uint64_t length)
{
    second_part p;

    p.refusal = (uint32_t)refusal;
    p.item = item;
    p.start = start;
    p.length = length;
    return p;
}

/* The condition at item i of a record, keeping the mark. */
static int condition_at(const uint8_t *record, size_t i, int *mark)
{
    int seen = condition(i == 0 ? (int)NONE : record[i - 1], record[i], *mark);

    *mark = seen == START || (*mark && (record[i] & SCL));
    return seen;
}

/* Where the message of an item ends: the number of the first item behind it. */
static size_t message_end(const uint8_t *record, size_t length, size_t item, int mark)
{
    size_t i;

    for (i = item + 1; i < length; i++) {
        int seen = condition_at(record, i, &mark);

        if (seen == START)
            return i;
        if (seen == STOP)
            return i + 1;
    }
    return length;
}

/* The message an item lies in, in a record without bad levels and long enough for the item. */
static second_part message_of(const uint8_t *record, size_t length, size_t item)
{
    size_t i, from = 0;
    int inside = 0, mark = 0, seen = NO_CONDITION;

    for (i = 0; i <= item; i++) {
        if (seen == STOP)
            inside = 0;
        seen = condition_at(record, i, &mark);
        if (seen == START) {
            inside = 1;
            from = i;
        }
    }
    if (!inside)
        return part(DONE, 0, item, 0);
    if (seen == STOP)
        return part(DONE, 0, from, item + 1 - from);
    return part(DONE, 0, from, message_end(record, length, item, mark) - from);
}

/* The message under the cursor. */
second_part second_find(const uint8_t *record, size_t record_length, uint64_t item)
{
    size_t i;

    for (i = 0; i < record_length; i++)
        if (record[i] > HIGHEST_LEVEL)
            return part(NO_SUCH_LEVEL, i, 0, 0);
    if (item >= record_length)
        return part(NO_SUCH_ITEM, 0, 0, 0);
    return message_of(record, record_length, (size_t)item);
}
