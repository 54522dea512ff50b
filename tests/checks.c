/* Checks through the door the bench examples, rules and readings sentence by sentence, the refusals and their order, the
   state images and the finder. */
#include "door.h"
#include "hits.h"
#include "modes.h"
#include "slots.h"
#include "write_refusal.h"

#include <stdio.h>
#include <string.h>

enum { BUF, STAT, CON1, CON2, CON3, ADD, MSK, FLAG };

enum { BF = 0x01, RW = 0x04, S = 0x08, P = 0x10, DA = 0x20, SSPOV = 0x40, WCOL = 0x80 };

/* Bits of CON1, CON2 and CON3. */
enum { CKP = 0x10, GCEN = 0x80, ACKDT = 0x20, SEN = 0x01, ACKTIM = 0x80, AHEN = 0x02, DHEN = 0x01 };

enum { MEMORY = 256, GUARD = 8, BUFFER = MEMORY + 2 * GUARD, LONGEST = 4096 };

/* The state under check, its buffer with the window at GUARD, and the counts. */
static uint8_t image[DOOR_IMAGE];
static uint8_t buffer[BUFFER];
static uint64_t length_n;
static unsigned long checks, failures;

/* Counts a check and tells it when it fails. */
static void expect(int fine, const char *what)
{
    checks++;
    if (!fine) {
        failures++;
        printf("failed: %s\n", what);
    }
}

/* Whether an answer is this refusal with this item and no value. */
static int is_refusal(door_answer a, unsigned refusal, uint64_t item)
{
    return a.refusal == refusal && a.item == item && a.value == 0;
}

/* ---- Driving ---- */

/* A fresh state and a zero memory. */
static void fresh(uint8_t add, uint64_t n)
{
    memset(buffer, 0, BUFFER);
    length_n = n;
    expect(is_refusal(door.setup(image, DOOR_IMAGE, add, n), 0, 0), "setup");
}

/* Runs a trace written as digits and h, spaces skipped. */
static void items(const char *text)
{
    uint8_t trace[LONGEST];
    size_t length = 0;

    for (; *text != '\0'; text++)
        if (*text != ' ')
            trace[length++] = (uint8_t)(*text == 'h' ? 4 : *text - '0');
    expect(is_refusal(door.run(image, DOOR_IMAGE, buffer, BUFFER, GUARD, length_n, trace, length), 0, 0), "run");
}

/* The eight bits of a byte, each by these items for a 1 and for a 0. */
static void each_bit(unsigned value, const char *one, const char *zero)
{
    int i;

    for (i = 7; i >= 0; i--)
        items((value >> i) & 1 ? one : zero);
}

/* The eight bits of a byte, up to and with its eighth fall. */
static void bits(unsigned value)
{
    each_bit(value, "131", "020");
}

/* A byte with a released ninth slot and one handler call. */
static void written(unsigned value)
{
    bits(value);
    items("131h");
}

/* A byte read off the wire, the master answering with this SDA and one handler call after it. */
static unsigned sent(int answer)
{
    unsigned value = 0;
    int i;

    for (i = 0; i < 8; i++) {
        items("13");
        value = value << 1 | (door.look(image, DOOR_IMAGE).wire & 1u);
        items("1");
    }
    items(answer ? "131h" : "020h");
    return value;
}

/* A register as it reads, without effect. */
static unsigned reg(int number)
{
    return image[number];
}

/* A register write that must be taken. */
static void put(uint8_t number, uint8_t value)
{
    expect(is_refusal(door.write(image, DOOR_IMAGE, number, value), 0, 0), "write");
}

/* A read of BUF, which must give this. */
static void take_buf(unsigned value)
{
    expect(door.read(image, DOOR_IMAGE, BUF).value == value && !(reg(STAT) & BF), "read of BUF");
}

/* The state as it is seen now. */
static door_view now(void)
{
    return door.look(image, DOOR_IMAGE);
}

/* Which address a first byte hits, as the door says; it is not refused and changes nothing. */
static unsigned hit(unsigned byte)
{
    uint8_t old[DOOR_IMAGE];
    door_answer a;

    memcpy(old, image, DOOR_IMAGE);
    a = door.hit(image, DOOR_IMAGE, (uint8_t)byte);
    expect(a.refusal == 0 && a.item == 0 && memcmp(old, image, DOOR_IMAGE) == 0, "hit is not refused and changes nothing");
    return a.value;
}

/* Whether the state is in a slot of this case, as its view shows it and as its image holds it. */
static int in_slot(unsigned wanted)
{
    door_view v = now();

    return v.phase == DOOR_SLOT && slot_case(v.sda_pulled, v.refused) == wanted && image[PART_AT] == wanted;
}

/* ---- Bench examples ---- */

/* P1 to P5: first levels and the trace with the report. */
static void bench_levels(void)
{
    fresh(0x30, 32);
    items("2");
    expect(!(reg(STAT) & S), "P1");
    fresh(0x30, 32);
    items("32");
    expect((reg(STAT) & S) != 0, "P2");
    items("3");
    expect((reg(STAT) & (S | P)) == S, "P3");
    fresh(0x30, 32);
    items("30");
    expect(!(reg(STAT) & S), "P4");
    fresh(0x30, 32);
    items("32 0202 1313 0202 0202 131h023");
    expect(now().pointer == 0 && (reg(STAT) & (P | BF)) == P, "P5");
}

/* Whether an address is acknowledged after this write. */
static int acknowledged(uint8_t number, uint8_t value, unsigned address)
{
    fresh(0x30, 32);
    put(number, value);
    items("320");
    bits(address);
    return now().sda_pulled;
}

/* P6 and P7: mask and general call, and which address hit. */
static void bench_addresses(void)
{
    expect(acknowledged(MSK, 0xF0, 0x3E) && hit(0x3E) == HIT_OWN, "P6 3E");
    expect(!acknowledged(MSK, 0xF0, 0x40) && hit(0x40) == HIT_NONE, "P6 40");
    expect(acknowledged(CON2, 0x81, 0x00) && hit(0x00) == HIT_GENERAL_CALL, "P7 00");
    expect(!acknowledged(CON2, 0x81, 0x01) && hit(0x01) == HIT_NONE, "P7 01");
}

/* A message whose address was taken and not read, so that the next byte is refused; SEN is 0 and SSPIF cleared. */
static void unread(unsigned con2, unsigned con3)
{
    fresh(0x30, 32);
    put(CON2, 0x00);
    items("320");
    bits(0x30);
    items("131");
    put(FLAG, 0x00);
    put(CON2, (uint8_t)con2);
    put(CON3, (uint8_t)con3);
}

/* P8 and P9: overflow, with SSPIF at the ninth fall. */
static void bench_overflow(void)
{
    unread(0x00, 0x00);
    bits(0x55);
    expect((reg(CON1) & SSPOV) && reg(BUF) == 0x30 && !now().sda_pulled, "P8");
    items("131");
    expect(reg(FLAG) == 1, "P8: SSPIF");
    put(FLAG, 0x00);
    items("023");
    take_buf(0x30);
    put(MSK, 0xF0);
    items("320");
    bits(0x32);
    expect((reg(CON1) & SSPOV) && reg(BUF) == 0x32 && (reg(STAT) & BF) && !now().sda_pulled, "P9");
    items("131");
    expect(reg(FLAG) == 1, "P9: SSPIF");
}

/* P10 and P11: pointer and wrap in writing. */
static void bench_pointer(void)
{
    fresh(0x30, 32);
    items("320");
    written(0x30);
    written(0x1F);
    written(0xAA);
    written(0xBB);
    expect(buffer[GUARD + 31] == 0xAA && buffer[GUARD] == 0xBB && now().pointer == 1, "P10");
    fresh(0x30, 32);
    items("320");
    written(0x30);
    written(0xFF);
    expect(now().pointer == 31, "P11 FF");
    items("023 320");
    written(0x30);
    written(0x20);
    expect(now().pointer == 0, "P11 20");
    fresh(0x30, 1);
    items("320");
    written(0x30);
    written(0xFF);
    expect(now().pointer == 0, "P11 n 1");
}

/* P12 and the unmarked example: reading, whole and cut. */
static void bench_reading(void)
{
    unsigned first, second, third;

    fresh(0x30, 32);
    buffer[GUARD + 30] = 0xC3;
    buffer[GUARD + 31] = 0x5A;
    buffer[GUARD] = 0x01;
    items("320");
    written(0x30);
    written(30);
    items("1320");
    written(0x31);
    first = sent(0);
    second = sent(0);
    third = sent(1);
    expect(first == 0xC3 && second == 0x5A && third == 0x01 && now().pointer == 1, "P12");
    fresh(0x30, 32);
    buffer[GUARD] = 0xFF;
    items("320");
    written(0x31);
    items("13 13 13 023");
    expect(now().pointer == 1 && !(reg(STAT) & BF), "read cut by a Stop");
    items("320");
    bits(0x30);
    expect(now().sda_pulled == 1, "address after a cut read");
}

/* ---- Rules with a sentence of their own ---- */

/* SSPEN from 1 to 0: what is cleared and what stays. */
static void rule_disabling(void)
{
    fresh(0x30, 32);
    put(CON3, 0x03);
    put(CON2, 0x81);
    items("320");
    bits(0x31);
    expect(now().phase == DOOR_HELD_BEFORE && reg(CON3) == 0x83 && (reg(STAT) & (S | RW | BF)) == (S | RW | BF),
           "held before acknowledge");
    put(BUF, 0x77);
    expect(reg(CON1) == (WCOL | 0x26) && reg(BUF) == 0x31, "a write to BUF in another hold only sets WCOL");
    put(CON1, 0x86);
    expect(reg(STAT) == 0 && reg(CON3) == 0x03 && now().phase == DOOR_QUIET && now().scl_pulled == 0, "disabled");
    expect(reg(CON1) == 0x86 && reg(BUF) == 0x31 && reg(FLAG) == 1 && now().wire == 1, "disabling leaves the rest");
    items("h");
    expect(reg(CON1) == 0x96 && reg(FLAG) == 0 && now().due == 1 && reg(STAT) == 0, "a handler call while disabled");
    put(CON1, 0x06);
    put(BUF, 0x77);
    expect(reg(CON1) == 0x86 && reg(BUF) == 0x31 && reg(STAT) == 0, "a write to BUF while disabled sets WCOL");
    items("3 2 3");
    expect(reg(STAT) == 0 && now().wire == 3, "disabled, only the wire is remembered");
    put(CON1, 0x36);
    items("2");
    expect((reg(STAT) & S) && now().mark == 1, "a Start from the wire remembered while disabled");
    put(CON1, 0x16);
    expect(now().mark == 0 && !(reg(STAT) & S), "disabling clears the mark");
}

/* SSPEN from 1 to 0 after a Stop and after data: P and D/A; SSPOV stays unless written 0. */
static void rule_disabling_later(void)
{
    fresh(0x30, 32);
    put(CON2, 0x00);
    items("320");
    bits(0x30);
    items("131");
    bits(0x44);
    items("131 023");
    expect((reg(STAT) & (P | DA | BF)) == (P | DA | BF) && (reg(CON1) & SSPOV), "Stop leaves D/A and BF");
    put(CON1, 0x56);
    expect(reg(STAT) == 0 && reg(CON1) == 0x56, "disabling clears P, D/A and BF and leaves SSPOV");
    put(CON1, 0xF6);
    expect(reg(CON1) == 0x76, "WCOL cannot be set by a write");
    put(CON1, 0x36);
    expect(reg(CON1) == 0x36, "SSPOV can be cleared by a write");
}

/* No change of mode under way: refused as a whole, also in a hold with WCOL and SSPOV 1, until the module is disabled. */
static void rule_mode(void)
{
    uint8_t old[DOOR_IMAGE];

    fresh(0x30, 32);
    expect(is_refusal(door.write(image, DOOR_IMAGE, CON1, 0x3E), 8, 0), "another mode while quiet");
    put(CON2, 0x00);
    put(CON3, 0x01);
    items("320");
    bits(0x30);
    items("131");
    bits(0x44);
    put(BUF, 0x77);
    expect(now().phase == DOOR_HELD_BEFORE && reg(CON1) == (WCOL | SSPOV | 0x26), "held with WCOL and SSPOV");
    memcpy(old, image, DOOR_IMAGE);
    expect(is_refusal(door.write(image, DOOR_IMAGE, CON1, 0x3E), 8, 0), "another mode in a hold");
    expect(memcmp(old, image, DOOR_IMAGE) == 0, "the hold, WCOL and SSPOV stay");
    put(CON1, 0x0E);
    expect(reg(CON1) == 0x0E && now().phase == DOOR_QUIET && !now().scl_pulled, "disabling with another mode");
    put(CON1, 0x36);
    expect(reg(CON1) == 0x36, "enabling with another mode");
    put(CON1, 0x16);
    put(CON1, 0x15);
    expect(reg(CON1) == 0x15, "another mode while off");
    put(CON1, 0x3E);
    put(FLAG, 0x00);
    items("132");
    expect(reg(CON1) == 0x3E && reg(FLAG) == 1, "the mode 1110 by disabling: SSPIF at a Start");
    expect(is_refusal(door.write(image, DOOR_IMAGE, CON1, 0x36), 8, 0), "back to 0110 in a message");
}

/* CKP 0 written, or standing from before, starts no hold: in quiet, in an address, in a slot, in data before its first bit and
   after it. */
static void rule_ckp(void)
{
    fresh(0x30, 32);
    put(CON1, 0x26);
    items("3");
    expect(now().phase == DOOR_QUIET && !now().scl_pulled, "CKP 0 in quiet");
    items("20");
    expect(now().phase == DOOR_ADDRESS && !now().scl_pulled, "CKP 0 before an address");
    bits(0x30);
    expect(in_slot(SLOT_PULLING) && !now().scl_pulled && !(reg(CON1) & CKP), "CKP 0 in a slot");
    items("131h");
    expect(now().phase == DOOR_DATA && !now().scl_pulled && (reg(CON1) & CKP), "a hold and its end");
    put(CON1, 0x26);
    expect(now().phase == DOOR_DATA && now().bits == 0 && !now().scl_pulled, "CKP 0 before the first bit of data");
    items("13");
    expect(now().bits == 1 && now().wire == 3, "SCL goes up with CKP 0");
    put(CON1, 0x36);
    put(CON1, 0x26);
    expect(now().bits == 1 && !now().scl_pulled, "CKP 1 and 0 within a byte");
}

/* ---- Readings for states that no trace from setup reaches ---- */

/* A state put together: STAT, CON1, CON3, phase with what only it has of parts (held, refused or the slot's case), wire; n is
   1. */
static void made(unsigned stat, unsigned con1, unsigned con3, int phase, unsigned part, unsigned wire)
{
    fresh(0x30, 1);
    image[STAT] = (uint8_t)stat;
    image[CON1] = (uint8_t)con1;
    image[CON3] = (uint8_t)con3;
    image[8] = (uint8_t)phase;
    image[11] = (uint8_t)part;
    image[12] = (uint8_t)wire;
    expect(now().refusal == 0, "a state put together");
}

/* Each is a reading of one sentence; NOTES.md tells which. */
static void readings(void)
{
    made(S, 0x36, 0x82, DOOR_SLOT, 1, 3);
    items("1");
    expect(now().phase == DOOR_DATA && reg(CON3) == 0x82, "reading: a ninth fall without its rise leaves ACKTIM");
    made(S | DA | RW, 0x36, 0x00, DOOR_SLOT, 1, 2);
    items("0");
    expect(now().phase == DOOR_DATA, "reading: D/A tells whether the slot was an address's");
    made(S | DA | RW, 0x36, 0x82, DOOR_MASTER_ACK, 0, 1);
    items("3");
    expect(reg(CON3) == 0x82, "reading: the master's acknowledge leaves ACKTIM");
    made(S | DA | RW | BF, 0x36, 0x00, DOOR_MASTER_ACK, 0, 3);
    items("2");
    expect((reg(STAT) & BF) != 0, "reading: a Start in the master's acknowledge leaves BF");
    made(S | RW | BF, 0x36, 0x82, DOOR_SLOT, SLOT_DECLINED, 3);
    items("2");
    expect(reg(STAT) == (S | BF) && reg(CON3) == 0x02, "a Start ends ACKTIM");
    made(S, 0x26, 0x00, DOOR_DATA, 1, 3);
    items("3");
    expect(now().phase == DOOR_DATA && now().bits == 0 && now().wire == 1, "reading: a hold's fall ends no bit");
    made(S, 0x36, 0x00, DOOR_SLOT, 1, 255);
    items("1");
    expect(now().phase == DOOR_SLOT && now().wire == 0, "the first sample is only remembered, in every phase");
    made(DA | BF, 0x16, 0x80, DOOR_QUIET, 0, 3);
    put(CON1, 0x06);
    expect(reg(STAT) == (DA | BF) && reg(CON3) == 0x80, "SSPEN 0 written over SSPEN 0 clears nothing");
    made(DA | RW | BF, 0x26, 0x00, DOOR_QUIET, 0, 3);
    image[FLAG] = 1;
    items("h");
    expect((reg(STAT) & BF) && reg(CON1) == 0xB6, "reading: the handler's load outside the hold sets WCOL, BF stays");
}

/* ---- An interrupt after an overflow ---- */

/* A hold before acknowledge ends, with the other bits of CON1 as they are. */
static void release(void)
{
    put(CON1, (uint8_t)(reg(CON1) | CKP));
}

/* The ninth clock after a slot of this case, with SSPIF 0 up to its fall: what the fall brings. */
static void ninth_clock(unsigned wanted, const char *what)
{
    unsigned stat = reg(STAT), con1 = reg(CON1), con2 = reg(CON2);
    int sends = (stat & (RW | DA)) == RW, holds = sends || (con2 & SEN);

    put(FLAG, 0x00);
    expect(in_slot(wanted), what);
    items("13");
    expect(in_slot(wanted) && reg(FLAG) == 0 && !(reg(CON3) & ACKTIM), what);
    items("1");
    expect(reg(FLAG) == (wanted != SLOT_DECLINED), what);
    expect(reg(STAT) == stat && reg(CON2) == con2 && !now().sda_pulled && now().refused == 0, what);
    if (wanted != SLOT_PULLING) {
        expect(now().phase == DOOR_QUIET && reg(CON1) == con1 && !now().scl_pulled, what);
        return;
    }
    expect(now().phase == (sends ? DOOR_HELD_SENDING : DOOR_DATA) && now().scl_pulled == holds, what);
    expect(reg(CON1) == (holds ? con1 & ~(unsigned)CKP : con1), what);
}

/* What stands in the registers before a byte. */
typedef struct {
    unsigned stat, con1, con2, con3;
} settings;

enum { SETTINGS = 128 };

/* GCEN 1 and, by a number below SETTINGS, BF, SSPOV, CKP, ACKDT, SEN, DHEN and AHEN each 0 and 1. */
static settings some_settings(unsigned pick)
{
    settings s;

    s.stat = S | (pick & 1 ? BF : 0);
    s.con1 = 0x26 | (pick & 2 ? SSPOV : 0) | (pick & 4 ? CKP : 0);
    s.con2 = GCEN | (pick & 8 ? ACKDT : 0) | (pick & 16 ? SEN : 0);
    s.con3 = pick >> 5;
    return s;
}

/* A state before the first bit of an address or a data byte, with 99 in BUF. */
static void before_byte(int phase, settings s)
{
    made(s.stat, s.con1, s.con3, phase, 0, 0);
    image[BUF] = 0x99;
    image[CON2] = (uint8_t)s.con2;
}

/* What BUF holds after a byte that was taken in. */
static unsigned loaded_buf(unsigned value, settings s)
{
    return s.stat & BF ? 0x99 : value;
}

/* One byte from its first bit to its ninth fall: an address or a data byte, beside D/A and R/W as they stood before it. */
static void whole_byte(int phase, unsigned value, unsigned stood, settings s)
{
    int refused = (s.stat & BF) || (s.con1 & SSPOV);
    int held = (s.con3 & (phase == DOOR_DATA ? DHEN : AHEN)) != 0;
    unsigned direction = phase == DOOR_DATA ? (stood & RW) | DA : value & 1 ? RW : 0;
    unsigned after = refused ? SLOT_REFUSED : held && (s.con2 & ACKDT) ? SLOT_DECLINED : SLOT_PULLING;

    s.stat |= stood;
    before_byte(phase, s);
    bits(value);
    expect(reg(BUF) == loaded_buf(value, s) && reg(STAT) == (S | BF | direction), "intake: BUF, BF, D/A and R/W");
    expect((reg(CON1) & SSPOV) == (refused ? SSPOV : 0), "intake: SSPOV");
    expect(reg(CON3) == (s.con3 & (AHEN | DHEN) ? s.con3 | ACKTIM : s.con3), "intake: ACKTIM");
    expect(reg(FLAG) == (unsigned)held && now().phase == (held ? DOOR_HELD_BEFORE : DOOR_SLOT), "intake: SSPIF with a hold");
    if (held) {
        expect(now().refused == refused && image[PART_AT] == refused && now().scl_pulled, "a hold, refused or not");
        put(FLAG, 0x00);
        release();
        expect(reg(FLAG) == 0, "no SSPIF at the release");
    }
    expect(((reg(CON1) & CKP) != 0) == (held || (s.con1 & CKP)), "CKP in the slot");
    ninth_clock(after, "a whole byte");
}

/* Addresses of both directions, the general call and data, with BF, SSPOV, ACKDT, SEN, CKP, AHEN and DHEN each 0 and 1. D/A
   and R/W of an address are its own, whatever stood there. */
static void whole_bytes(void)
{
    static const unsigned addresses[3] = {0x30, 0x31, 0x00};
    unsigned pick;

    for (pick = 0; pick < SETTINGS; pick++) {
        settings s = some_settings(pick);
        int i;

        for (i = 0; i < 3; i++) {
            whole_byte(DOOR_ADDRESS, addresses[i], 0, s);
            whole_byte(DOOR_ADDRESS, addresses[i], DA | RW, s);
        }
        whole_byte(DOOR_DATA, 0x44, 0, s);
        whole_byte(DOOR_DATA, 0x45, DA, s);
    }
}

/* A data byte refused in a hold, with SSPIF for the first time. */
static void refused_hold(unsigned con2)
{
    unread(con2, DHEN);
    bits(0x44);
    expect(now().phase == DOOR_HELD_BEFORE && now().refused == 1 && reg(FLAG) == 1, "refused and held");
    put(FLAG, 0x00);
}

/* A data byte taken in a hold and not read. */
static void taken_hold(unsigned con2)
{
    unread(con2, DHEN);
    take_buf(0x30);
    bits(0x44);
    expect(now().phase == DOOR_HELD_BEFORE && now().refused == 0 && reg(FLAG) == 1, "taken and held");
    expect((reg(STAT) & BF) && reg(BUF) == 0x44, "taken and not read");
}

/* Data and address alike, with R/W 1 too: SSPIF at the ninth fall, then quiet up to the next Start. */
static void rule_refused(void)
{
    unread(0x00, 0x00);
    bits(0x44);
    expect(reg(FLAG) == 0, "no SSPIF at the eighth fall");
    ninth_clock(SLOT_REFUSED, "a refused data byte");
    put(FLAG, 0x00);
    bits(0x55);
    items("131");
    expect(now().phase == DOOR_QUIET && reg(FLAG) == 0 && reg(BUF) == 0x30, "nothing is taken after a refused byte");
    items("1320");
    bits(0x30);
    ninth_clock(SLOT_REFUSED, "a refused address");
    items("1320");
    put(FLAG, 0x00);
    bits(0x31);
    expect(reg(STAT) == (S | RW | BF) && reg(FLAG) == 0, "a refused address has its R/W");
    ninth_clock(SLOT_REFUSED, "a refused address with R/W 1");
    put(FLAG, 0x00);
    items("131 131");
    expect(reg(STAT) == (S | RW | BF) && reg(CON1) == (SSPOV | 0x36) && reg(FLAG) == 0, "nothing is sent after it");
    items("1320");
    bits(0x40);
    expect(now().phase == DOOR_QUIET, "another address");
    items("131");
    expect(reg(FLAG) == 0, "no SSPIF for an address that does not match, BF and SSPOV standing");
}

/* ACKDT: with a refused hold it changes nothing, alone it declines and there is no SSPIF, without a hold it has no effect. */
static void rule_ackdt(void)
{
    refused_hold(ACKDT);
    release();
    ninth_clock(SLOT_REFUSED, "refused with ACKDT 1: SSPIF a second time");
    unread(ACKDT, 0x00);
    bits(0x44);
    ninth_clock(SLOT_REFUSED, "refused with ACKDT 1 and no hold");
    taken_hold(ACKDT);
    release();
    ninth_clock(SLOT_DECLINED, "declined by ACKDT alone");
    unread(ACKDT, AHEN);
    take_buf(0x30);
    bits(0x44);
    ninth_clock(SLOT_PULLING, "ACKDT without a hold of this byte's own");
}

/* The refusal is decided at the eighth fall: nothing done in the hold or in the slot lifts it. */
static void rule_decided(void)
{
    refused_hold(0x00);
    take_buf(0x30);
    expect(now().phase == DOOR_HELD_BEFORE && now().refused == 1, "BUF read in the hold");
    release();
    ninth_clock(SLOT_REFUSED, "refused, BUF read in the hold");
    refused_hold(0x00);
    put(CON1, 0x26);
    expect(reg(CON1) == 0x26 && now().refused, "SSPOV cleared in the hold");
    release();
    ninth_clock(SLOT_REFUSED, "refused, SSPOV cleared in the hold");
    refused_hold(0x00);
    take_buf(0x30);
    put(CON1, 0x36);
    expect(!(reg(STAT) & BF) && reg(CON1) == 0x36, "BUF read, SSPOV cleared with the release");
    ninth_clock(SLOT_REFUSED, "refused, BUF read and SSPOV cleared");
    refused_hold(ACKDT);
    put(CON2, 0x00);
    release();
    ninth_clock(SLOT_REFUSED, "refused, ACKDT 1 and 0 again in the hold");
    unread(0x00, 0x00);
    bits(0x44);
    take_buf(0x30);
    put(CON1, 0x36);
    put(CON2, ACKDT);
    ninth_clock(SLOT_REFUSED, "refused, all of it in the slot");
}

/* ACKDT is decided at the release, and changes nothing in the slot. A byte that was taken is not refused for standing in
   BUF. */
static void rule_decided_by_ackdt(void)
{
    taken_hold(ACKDT);
    release();
    put(CON2, 0x00);
    ninth_clock(SLOT_DECLINED, "declined, ACKDT 0 in the slot");
    taken_hold(0x00);
    release();
    put(CON2, ACKDT);
    ninth_clock(SLOT_PULLING, "acknowledged, ACKDT 1 in the slot");
    taken_hold(ACKDT);
    put(CON2, 0x00);
    release();
    ninth_clock(SLOT_PULLING, "acknowledged, ACKDT 0 by the release");
    taken_hold(0x00);
    put(CON2, ACKDT);
    release();
    ninth_clock(SLOT_DECLINED, "declined, ACKDT 1 by the release");
}

/* Whether SSPIF stays 0 over these items. */
static int silent(const char *text)
{
    items(text);
    return reg(FLAG) == 0;
}

/* A Start, a Stop or disabling before the ninth fall: no SSPIF for the refused byte, then or later. */
static void rule_cut(void)
{
    unread(0x00, 0x00);
    bits(0x44);
    expect(silent("132") && now().phase == DOOR_ADDRESS && now().refused == 0, "a Start in a refused slot");
    expect(silent("0"), "the fall after that Start");
    unread(0x00, 0x00);
    bits(0x44);
    expect(silent("023") && now().phase == DOOR_QUIET && now().refused == 0, "a Stop in a refused slot");
    expect(silent("1 31"), "clocks after that Stop");
    unread(0x00, 0x00);
    bits(0x44);
    put(CON1, 0x16);
    expect(silent("131") && now().phase == DOOR_QUIET && now().refused == 0, "disabled in a refused slot");
    unread(0x00, 0x00);
    bits(0x44);
    items("13");
    put(CON1, 0x16);
    put(CON1, 0x36);
    expect(silent("1 31"), "disabled and enabled again after the ninth rise");
    refused_hold(0x00);
    put(CON1, 0x06);
    expect(silent("131") && now().phase == DOOR_QUIET && now().refused == 0, "disabled in a refused hold");
}

/* SSPIF that stands stays over a declined byte; the handler clears one that came with a refused byte, and does no more. */
static void rule_flag(void)
{
    uint8_t old[DOOR_IMAGE];

    taken_hold(ACKDT);
    release();
    items("131");
    expect(now().phase == DOOR_QUIET && reg(FLAG) == 1, "SSPIF of the hold stays over a declined byte");
    unread(0x00, 0x00);
    bits(0x44);
    items("131");
    memcpy(old, image, DOOR_IMAGE);
    old[FLAG] = 0;
    items("h");
    expect(memcmp(old, image, DOOR_IMAGE) == 0 && buffer[GUARD] == 0, "a handler call after a refused byte");
}

/* The slot's case decides, not what the registers say by then, nor whether the ninth rise was seen. */
static void rule_case(void)
{
    made(S | DA, 0x36, 0x82, DOOR_SLOT, SLOT_REFUSED, 3);
    items("1");
    expect(now().phase == DOOR_QUIET && reg(FLAG) == 1 && reg(CON3) == 0x82, "refused, BF and SSPOV 0, no rise seen");
    made(S | DA | BF, 0x76, 0x00, DOOR_SLOT, SLOT_DECLINED, 3);
    items("1");
    expect(now().phase == DOOR_QUIET && reg(FLAG) == 0, "declined, BF and SSPOV 1, ACKDT 0");
    made(S | RW, 0x36, 0x00, DOOR_SLOT, SLOT_DECLINED, 3);
    items("1");
    expect(now().phase == DOOR_QUIET && reg(FLAG) == 0 && reg(STAT) == (S | RW), "declined with R/W 1");
    made(S | BF, 0x76, 0x00, DOOR_SLOT, SLOT_PULLING, 2);
    items("0");
    expect(now().phase == DOOR_DATA && reg(FLAG) == 1, "pulling, BF and SSPOV 1");
    made(S, 0x76, 0x00, DOOR_SLOT, SLOT_REFUSED, 255);
    items("1");
    expect(in_slot(SLOT_REFUSED) && reg(FLAG) == 0, "the first sample is only remembered, in a refused slot too");
}

/* ---- Which address a first byte hits ---- */

/* Fresh, with these in ADD, MSK, CON2 and CON3. */
static void addressed(unsigned add, unsigned msk, unsigned con2, unsigned con3)
{
    fresh((uint8_t)add, 32);
    put(MSK, (uint8_t)msk);
    put(CON2, (uint8_t)con2);
    put(CON3, (uint8_t)con3);
}

/* A Start and a first byte, asked about between its eighth rise and its fall: it is taken exactly where hit says own or general
   call. Answers which. */
static unsigned first_byte(unsigned byte)
{
    int taken = reg(CON3) & AHEN ? DOOR_HELD_BEFORE : DOOR_SLOT;
    unsigned which;

    items("320");
    each_bit(byte, "13", "02");
    expect(now().phase == DOOR_ADDRESS && now().bits == 8 && now().byte == byte, "the eight bits of a first byte");
    which = hit(now().byte);
    items(byte & 1 ? "1" : "0");
    expect(now().phase == (which == HIT_NONE ? DOOR_QUIET : taken), "taken exactly where hit says own or general call");
    return which;
}

/* Before any sample, on the bus, and with the module switched off: the registers alone decide. */
static void rule_hit(void)
{
    static const struct { uint8_t add, msk, con2, byte; unsigned which; const char *what; } rows[20] = {
        {0x30, 0xF0, 0x01, 0x3E, HIT_OWN, "hit: P6 3E"}, {0x30, 0xF0, 0x01, 0x40, HIT_NONE, "hit: P6 40"},
        {0x30, 0xFF, 0x81, 0x00, HIT_GENERAL_CALL, "hit: P7 00"}, {0x30, 0xFF, 0x81, 0x01, HIT_NONE, "hit: P7 01"},
        {0x30, 0xFF, 0x81, 0x30, HIT_OWN, "hit: its own, GCEN 1"}, {0x31, 0xFF, 0x81, 0x30, HIT_OWN, "hit: bit 0 of ADD"},
        {0x30, 0xFF, 0x01, 0x31, HIT_OWN, "hit: R/W 1"}, {0x30, 0xFF, 0x01, 0x00, HIT_NONE, "hit: 00, GCEN 0"},
        {0x30, 0xFF, 0x21, 0x00, HIT_NONE, "hit: 00, ACKDT 1 and GCEN 0"},
        {0x00, 0xFF, 0x81, 0x00, HIT_OWN, "hit: 00, ADD 00"}, {0x01, 0xFF, 0x81, 0x00, HIT_OWN, "hit: 00, ADD 01"},
        {0x00, 0xFF, 0x01, 0x00, HIT_OWN, "hit: 00, ADD 00 and GCEN 0"}, {0x00, 0xFF, 0x81, 0x01, HIT_OWN, "hit: 01, ADD 00"},
        {0x30, 0xCF, 0x81, 0x00, HIT_OWN, "hit: 00 under MSK CF"}, {0x30, 0xCF, 0x81, 0x01, HIT_OWN, "hit: 01 under MSK CF"},
        {0x30, 0xEF, 0x81, 0x00, HIT_GENERAL_CALL, "hit: 00 under MSK EF"},
        {0x30, 0x00, 0x81, 0x00, HIT_OWN, "hit: 00 under MSK 00"}, {0x30, 0x00, 0x01, 0xCE, HIT_OWN, "hit: CE under MSK 00"},
        {0x30, 0x01, 0x01, 0xCF, HIT_OWN, "hit: CF under MSK 01"},
        {0x02, 0xFE, 0x81, 0x00, HIT_GENERAL_CALL, "hit: 00, ADD 02 under MSK FE"}
    };
    int i;

    for (i = 0; i < 20; i++) {
        addressed(rows[i].add, rows[i].msk, rows[i].con2, 0x00);
        expect(hit(rows[i].byte) == rows[i].which, rows[i].what);
        expect(first_byte(rows[i].byte) == rows[i].which && hit(rows[i].byte) == rows[i].which, rows[i].what);
        put(CON1, 0x06);
        expect(hit(rows[i].byte) == rows[i].which, rows[i].what);
    }
}

/* Every first byte on the bus, for some ADD and MSK, with GCEN and AHEN each 0 and 1. */
static void rule_taken(void)
{
    static const uint8_t adds[6] = {0x30, 0x31, 0x00, 0x01, 0x02, 0x80}, masks[6] = {0xFF, 0xFE, 0xF0, 0x7D, 0x01, 0x00};
    unsigned pick, byte;

    for (pick = 0; pick < 6 * 6 * 4; pick++)
        for (byte = 0; byte < 256; byte++) {
            addressed(adds[pick / 4 % 6], masks[pick / 24], pick & 1 ? GCEN | SEN : SEN, pick & 2 ? AHEN : 0x00);
            expect(first_byte(byte) == hit_of(image, byte), "every first byte");
        }
}

/* ADD, MSK and a first byte. */
typedef struct {
    uint8_t add, msk, byte;
} comparison;

/* The image that a first byte leaves at its eighth fall, where it hits this address; BUF, ADD and MSK are made 0 in it. */
static void left_by(settings s, comparison c, unsigned which, uint8_t *left)
{
    before_byte(DOOR_ADDRESS, s);
    image[ADD] = c.add;
    image[MSK] = c.msk;
    expect(hit(c.byte) == which, "a first byte by ADD and MSK");
    bits(c.byte);
    expect(reg(BUF) == loaded_buf(c.byte, s), "BUF after a first byte that was taken");
    memcpy(left, image, DOOR_IMAGE);
    left[BUF] = left[ADD] = left[MSK] = 0;
}

/* Own and general call are taken in the same way: the states after them differ in nothing else. */
static void rule_same_way(void)
{
    static const comparison general = {0x30, 0xFF, 0x00};
    static const comparison own[4] = {{0x00, 0xFF, 0x00}, {0x01, 0xFF, 0x00}, {0x30, 0xCF, 0x00}, {0x30, 0xFF, 0x30}};
    uint8_t by_general[DOOR_IMAGE], by_own[DOOR_IMAGE];
    unsigned pick;
    int i;

    for (pick = 0; pick < SETTINGS; pick++) {
        left_by(some_settings(pick), general, HIT_GENERAL_CALL, by_general);
        for (i = 0; i < 4; i++) {
            left_by(some_settings(pick), own[i], HIT_OWN, by_own);
            expect(memcmp(by_general, by_own, DOOR_IMAGE) == 0, "own and general call in the same way");
        }
    }
}

/* A byte with these put into ADD and MSK, GCEN 0 and 1, beside the reading bit by bit. */
static void asked(unsigned add, unsigned msk, unsigned byte)
{
    unsigned con2;

    image[ADD] = (uint8_t)add;
    image[MSK] = (uint8_t)msk;
    for (con2 = 0; con2 <= GCEN; con2 += GCEN) {
        image[CON2] = (uint8_t)con2;
        expect(hit(byte) == hit_of(image, byte), "hit as bit by bit");
    }
}

/* Each ADD with each MSK: 00, 01, ADD, and ADD but for any one bit. Then each ADD with each byte, in a module that is off,
   under a mask of each bit, of none, of half the bits and of all. */
static void rule_registers(void)
{
    static const uint8_t masks[13] = {0x01, 0x02, 0x04, 0x08, 0x10, 0x20, 0x40, 0x80, 0x00, 0x0F, 0xF0, 0xFE, 0xFF};
    unsigned add, other, i;

    fresh(0x30, 32);
    for (add = 0; add < 256; add++)
        for (other = 0; other < 256; other++) {
            asked(add, other, 0x00);
            asked(add, other, 0x01);
            for (i = 0; i <= 8; i++)
                asked(add, other, add ^ (1u << i & 0xFF));
        }
    put(CON1, 0x06);
    for (add = 0; add < 256; add++)
        for (other = 0; other < 256; other++)
            for (i = 0; i < 13; i++)
                asked(add, masks[i], other);
}

/* ---- Refusals ---- */

/* Refusals at setup, in register access and in a sample; each leaves the state as it was. */
static void refusals_single(void)
{
    uint8_t old[DOOR_IMAGE];

    fresh(0x30, 32);
    memcpy(old, image, DOOR_IMAGE);
    expect(is_refusal(door.setup(image, 47, 0, 0), 6, 0), "setup: 6 before 5");
    expect(is_refusal(door.setup(image, 48, 0, 0), 5, 0), "setup: n 0");
    expect(is_refusal(door.setup(image, 48, 0, 257), 5, 0), "setup: n 257");
    expect(is_refusal(door.setup(image, 48, 0, UINT64_MAX), 5, 0), "setup: n of all ones");
    expect(is_refusal(door.read(image, 49, 9), 6, 0), "read: 6 before 1");
    expect(is_refusal(door.read(image, 48, 8), 1, 0), "read: 1");
    expect(is_refusal(door.write(image, 0, 9, 0), 6, 0), "write: 6 before 1");
    expect(is_refusal(door.write(image, 48, 255, 0xFF), 1, 0), "write: 1");
    expect(is_refusal(door.write(image, 48, CON2, 0x02), 2, 0), "write: master only");
    expect(is_refusal(door.write(image, 48, CON2, 0x10), 2, 0), "write: master only, the highest");
    expect(is_refusal(door.write(image, 48, CON3, 0x10), 2, 0), "write: BOEN");
    expect(is_refusal(door.write(image, 48, CON1, 0x25), 3, 0), "write: 3 before 8");
    expect(is_refusal(door.write(image, 48, CON1, 0xEE), 8, 0), "write: 8");
    expect(is_refusal(door.write(image, 48, CON1, 0x37), 8, 0), "write: 8 to ten bits");
    expect(is_refusal(door.write(image, 47, CON1, 0xEE), 6, 0), "write: 6 before 8");
    expect(is_refusal(door.hit(image, 47, 0x30), 6, 0), "hit: 6");
    expect(is_refusal(door.sample(image, 47, 4), 6, 0), "sample: 6 before 4");
    expect(is_refusal(door.sample(image, 48, 4), 4, 0), "sample: 4");
    expect(memcmp(old, image, DOOR_IMAGE) == 0, "refusals leave the state");
    put(CON1, 0x15);
    expect(reg(CON1) == 0x15, "any mode with SSPEN 0");
    expect(is_refusal(door.write(image, 48, CON1, 0x25), 3, 0), "write: 3 while off, with the mode that stands");
    put(MSK, 0xF0);
    expect(is_refusal(door.write(image, 48, CON1, 0x27), 9, 0), "write: 9 while off");
    put(CON1, 0x2E);
    expect(reg(CON1) == 0x2E, "write: no 8 while off");
    expect(is_refusal(door.write(image, 48, CON1, 0x27), 8, 0), "write: 8 before 9");
}

/* Refusals of windows and traces, in their order, without a sum that wraps. */
static void refusals_run(void)
{
    static const uint8_t good[3] = {3, 2, 4}, bad[4] = {3, 2, 5, 255};
    uint8_t old[DOOR_IMAGE];

    fresh(0x30, 32);
    memcpy(old, image, DOOR_IMAGE);
    expect(is_refusal(door.call(image, 48, buffer, 40, 9, 32), 5, 0), "window over the end");
    expect(is_refusal(door.call(image, 48, buffer, 40, 0, 31), 5, 0), "window of another length");
    expect(is_refusal(door.call(image, 48, buffer, 40, UINT64_MAX, 32), 5, 0), "start of all ones");
    expect(is_refusal(door.call(image, 48, buffer, 40, UINT64_MAX - 31, 32), 5, 0), "sum that would wrap to 0");
    expect(is_refusal(door.call(image, 48, buffer, 40, 8, UINT64_MAX - 7), 5, 0), "n that would wrap");
    expect(is_refusal(door.call(image, 48, buffer, 31, 0, 32), 5, 0), "buffer too short");
    expect(is_refusal(door.call(image, 47, buffer, 31, 0, 32), 6, 0), "call: 6 before 5");
    expect(is_refusal(door.run(image, 47, buffer, 31, 0, 32, bad, 4), 6, 0), "run: 6 first");
    expect(is_refusal(door.run(image, 48, buffer, 31, 0, 32, bad, 4), 5, 0), "run: 5 before 4");
    expect(is_refusal(door.run(image, 48, buffer, 31, 0, 32, good, 2), 5, 0), "run: 5 without a handler call");
    expect(is_refusal(door.run(image, 48, buffer, 40, 8, 32, bad, 4), 4, 2), "run: the first bad item");
    expect(memcmp(old, image, DOOR_IMAGE) == 0, "refused runs leave the state");
    expect(is_refusal(door.run(image, 48, buffer, 40, 8, 32, good, 0), 0, 0), "run of no items");
    expect(memcmp(old, image, DOOR_IMAGE) == 0, "a run of no items leaves the state");
    expect(is_refusal(door.run(image, 48, buffer, 40, 8, 32, good, 3), 0, 0), "run");
    expect(image[12] == 2, "a run is made");
}

/* ---- State images ---- */

/* The paper's clauses on registers, straight off the image. UA is none of its bits: byte 8 tells it. */
static int registers_are_a_states(const uint8_t *i)
{
    int enabled = (i[CON1] & 0x20) != 0;

    return (i[STAT] & 0x18) != 0x18 && (i[STAT] & 0x02) == 0 && (i[CON3] & 0x10) == 0 && (i[CON2] & 0x1E) == 0
        && i[FLAG] <= 1 && (!enabled || mode_can_run(i[CON1])) && (!mode_runs_ten(i[CON1]) || i[MSK] == 0xFF)
        && (enabled || (i[8] == DOOR_QUIET && i[13] == 0));
}

/* What only ten bits have, straight off the image: which byte a phase belongs to or what follows it, and the full match. */
static int ten_bits_are_a_states(const uint8_t *i)
{
    int theirs = i[8] == DOOR_HELD_ADD || i[14] != 0 || i[15] != 0;

    if (i[15] > 1 || (theirs && !mode_runs_ten(i[CON1])))
        return 0;
    switch (i[8]) {
    case DOOR_ADDRESS:
        return i[14] == 0 || i[14] == 2;
    case DOOR_HELD_BEFORE:
    case DOOR_SLOT:
        return i[14] <= 3;
    case DOOR_HELD_ADD:
        return i[14] <= 2;
    default:
        return i[14] == 0;
    }
}

/* The parts of each phase, straight off the image. */
static int phase_is_a_states(const uint8_t *i)
{
    int clear = i[9] == 0 && i[10] == 0;
    int none = clear && i[11] == 0;
    int ckp = (i[CON1] & 0x10) != 0;
    int high = i[12] == 2 || i[12] == 3;

    switch (i[8]) {
    case DOOR_QUIET:
    case DOOR_MASTER_ACK:
    case DOOR_HELD_ADD:
        return none;
    case DOOR_ADDRESS:
        return i[9] <= 8 && i[10] < (1 << i[9]) && i[11] == 0 && (i[9] < 8 || high);
    case DOOR_DATA:
        if (i[11] == 1)
            return clear && !ckp;
        return i[9] <= 8 && i[10] < (1 << i[9]) && i[11] == 0 && (i[9] < 8 || high);
    case DOOR_HELD_BEFORE:
        return clear && i[11] <= 1 && !ckp;
    case DOOR_SLOT:
        return clear && i[11] >= 1 && i[11] <= 3;
    case DOOR_HELD_SENDING:
        return none && !ckp;
    case DOOR_SENDING:
        return i[9] <= 7 && i[11] == 0;
    default:
        return 0;
    }
}

/* Whether 48 bytes are a state's image, straight off the image. */
static int is_a_state(const uint8_t *i)
{
    unsigned n = i[16] + 256u * i[17], pointer = i[18] + 256u * i[19];
    int place, marked = (i[STAT] & S) != 0 && (i[12] == 2 || i[12] == 3) && i[8] == DOOR_ADDRESS && i[9] == 0;

    for (place = 21; place < DOOR_IMAGE; place++)
        if (i[place] != 0)
            return 0;
    if (i[12] > 3 && i[12] != 255)
        return 0;
    if (i[13] > 1 || (i[13] == 1 && !marked))
        return 0;
    if (n < 1 || n > 256 || pointer >= n || i[20] > 1)
        return 0;
    return registers_are_a_states(i) && phase_is_a_states(i) && ten_bits_are_a_states(i);
}

static uint64_t seed = 88172645463325252u;

/* The next random number below a limit. */
static unsigned below(unsigned limit)
{
    seed ^= seed << 13;
    seed ^= seed >> 7;
    seed ^= seed << 17;
    return (unsigned)(seed >> 33) % limit;
}

/* Random registers near enough to a state's. */
static void near_registers(uint8_t *i)
{
    int place;

    for (place = 0; place < 8; place++)
        i[place] = (uint8_t)below(256);
    i[STAT] &= below(4) ? 0xED : 0xFF;
    i[CON1] = (uint8_t)((i[CON1] & (below(2) ? 0xF8 : 0xE8)) | 0x06 | below(2));
    i[CON2] &= below(16) ? 0xE1 : 0xFF;
    i[CON3] &= below(16) ? 0xEF : 0xFF;
    if (below(4))
        i[MSK] = 0xFF;
    i[FLAG] &= below(16) ? 0x01 : 0xFF;
}

/* Random bytes near enough to an image that many are a state's. */
static void near_image(uint8_t *i)
{
    static const unsigned lengths[6] = {1, 2, 32, 255, 256, 257};
    unsigned n = lengths[below(6)], pointer = below(20) ? below(n) : below(300);
    unsigned shift = below(9), strange = below(DOOR_IMAGE);

    memset(i, 0, DOOR_IMAGE);
    near_registers(i);
    i[8] = (uint8_t)below(below(16) ? DOOR_PHASES : 256);
    i[9] = (uint8_t)(below(2) ? below(10) : 0);
    i[10] = (uint8_t)(below(2) ? below(1u << (i[9] < 8 ? i[9] : 8)) : below(256) >> shift);
    i[11] = (uint8_t)(below(2) ? below(5) : i[8] == DOOR_SLOT);
    i[12] = (uint8_t)(below(4) ? below(5) : 255);
    i[13] = (uint8_t)(below(4) ? 0 : below(3));
    i[14] = (uint8_t)(below(mode_runs_ten(i[CON1]) ? 2 : 16) ? 0 : below(5));
    i[15] = (uint8_t)(below(mode_runs_ten(i[CON1]) ? 2 : 16) ? 0 : below(3));
    i[16] = (uint8_t)n;
    i[17] = (uint8_t)(n >> 8);
    i[18] = (uint8_t)pointer;
    i[19] = (uint8_t)(pointer >> 8);
    i[20] = (uint8_t)below(below(8) ? 2 : 256);
    if (!below(16))
        i[strange] = (uint8_t)below(256);
}

/* Any call on the image under check; a state stays a state, and only reads and writes are refused, as the paper has it.
   Answers the refusal. */
static unsigned any_call(unsigned n)
{
    unsigned pick = below(6), number = below(9), value = below(256), wanted = 0;
    uint8_t old[DOOR_IMAGE];
    door_answer a;

    memcpy(old, image, DOOR_IMAGE);
    if (pick == 0) {
        wanted = number > FLAG;
        a = door.read(image, DOOR_IMAGE, (uint8_t)number);
    } else if (pick == 1) {
        wanted = write_refusal(old, number, value);
        a = door.write(image, DOOR_IMAGE, (uint8_t)number, (uint8_t)value);
    } else if (pick == 2) {
        a = door.call(image, DOOR_IMAGE, buffer, BUFFER, GUARD, n);
    } else {
        a = door.sample(image, DOOR_IMAGE, (uint8_t)(value & 3));
    }
    expect(is_a_state(image), "a state stays a state");
    expect(a.refusal == wanted, "on a state, refused as the paper has it");
    expect(wanted == 0 || memcmp(old, image, DOOR_IMAGE) == 0, "a refusal leaves the state");
    return wanted;
}

/* Whether every field of a view but the refusal is 0. */
static int is_empty(door_view v)
{
    return !(v.buf | v.stat | v.con1 | v.con2 | v.con3 | v.add | v.msk | v.flag | v.scl_pulled | v.sda_pulled
             | v.phase | v.bits | v.byte | v.refused | v.wire | v.mark | v.due | v.n | v.pointer | v.which | v.next | v.full);
}

/* How often random images came to what they are to come to. */
typedef struct {
    unsigned long states, ten, modes, masks;
} reach;

/* An image that is a state's: looked at, asked which address a byte hits, and taken through a few calls. */
static void take_state(unsigned byte, reach *r)
{
    unsigned n = image[16] + 256u * image[17], i, refusal;

    r->states++;
    r->ten += image[8] == DOOR_HELD_ADD || image[14] != 0 || image[15] != 0;
    expect(now().refusal == 0, "look on a state");
    expect(hit(byte) == hit_of(image, byte), "hit on a state");
    expect(image[8] != DOOR_SLOT || in_slot(image[PART_AT]), "look on a slot");
    for (i = 0; i < 6; i++) {
        refusal = any_call(n);
        r->modes += refusal == 8;
        r->masks += refusal == 9;
    }
}

/* An image that is no state's: refused by every call, and untouched. */
static void refuse_bytes(unsigned byte)
{
    static const uint8_t quiet_trace[1] = {3};
    uint8_t old[DOOR_IMAGE];

    memcpy(old, image, DOOR_IMAGE);
    expect(now().refusal == 6 && is_empty(now()), "look on no state");
    expect(is_refusal(door.hit(image, DOOR_IMAGE, (uint8_t)byte), 6, 0), "hit on no state");
    expect(is_refusal(door.read(image, DOOR_IMAGE, 0), 6, 0), "read on no state");
    expect(is_refusal(door.write(image, DOOR_IMAGE, CON1, 0), 6, 0), "write on no state");
    expect(is_refusal(door.sample(image, DOOR_IMAGE, 3), 6, 0), "sample on no state");
    expect(is_refusal(door.call(image, DOOR_IMAGE, buffer, BUFFER, 0, 1), 6, 0), "call on no state");
    expect(is_refusal(door.run(image, DOOR_IMAGE, buffer, BUFFER, 0, 1, quiet_trace, 1), 6, 0), "run on no state");
    expect(memcmp(old, image, DOOR_IMAGE) == 0, "no state stays untouched");
}

/* Random images: refused exactly when no state's. */
static void images(unsigned long rounds)
{
    reach r = {0, 0, 0, 0};

    while (rounds-- > 0) {
        unsigned pick = below(HIT_BYTES), any = below(256);

        near_image(image);
        if (is_a_state(image))
            take_state(hit_byte(image, pick, any), &r);
        else
            refuse_bytes(hit_byte(image, pick, any));
    }
    expect(r.ten > 0 && r.states > r.ten && r.modes > 0 && r.masks > 0, "states of seven and ten bits, changes of mode, masks");
    printf("images that were states %lu, with parts of ten bits %lu, changes of mode refused %lu, masks refused %lu\n",
           r.states, r.ten, r.modes, r.masks);
}

/* ---- The finder ---- */

/* Whether the finder gives this part for an item. */
static int found(const uint8_t *record, size_t length, uint64_t item, uint64_t start, uint64_t part)
{
    door_part p = door.find(record, length, item);

    return p.refusal == 0 && p.item == 0 && p.start == start && p.length == part;
}

/* Refusals of the finder, and records written out. */
static void finder(void)
{
    static const uint8_t record[14] = {2, 3, 2, 3, 2, 0, 1, 3, 2, 0, 2, 3, 3, 0};
    static const uint8_t bad[4] = {3, 2, 7, 9};
    door_part p = door.find(bad, 4, 99);

    expect(p.refusal == 4 && p.item == 2 && p.start == 0 && p.length == 0, "find: 4 before 7");
    p = door.find(record, 14, 14);
    expect(p.refusal == 7 && p.item == 0 && p.start == 0 && p.length == 0, "find: 7");
    p = door.find(record, 14, UINT64_MAX);
    expect(p.refusal == 7 && p.item == 0, "find: item of all ones");
    p = door.find(record, 0, 0);
    expect(p.refusal == 7 && p.item == 0, "find: an empty record");
    expect(found(record, 14, 0, 0, 0), "find: the first item");
    expect(found(record, 14, 1, 1, 0), "find: a Stop before any Start");
    expect(found(record, 14, 2, 2, 6), "find: at a Start");
    expect(found(record, 14, 7, 2, 6), "find: the item before the next Start");
    expect(found(record, 14, 8, 8, 4), "find: at the next Start");
    expect(found(record, 14, 11, 8, 4), "find: at a Stop");
    expect(found(record, 14, 12, 12, 0), "find: after a Stop");
    expect(found(record, 10, 9, 8, 2), "find: up to the end");
}

/* The Start and Stop of item i by the module itself: the change of S or P, or a fresh address. */
static void finder_by_module(void)
{
    uint8_t record[64];
    uint64_t from[65];
    int inside[65], i, last = 0;
    uint64_t begin = 0;

    fresh(0xFE, 1);
    put(CON3, 0x60);
    for (i = 0; i < 64; i++) {
        record[i] = (uint8_t)below(4);
        put(FLAG, 0);
        items(record[i] == 0 ? "0" : record[i] == 1 ? "1" : record[i] == 2 ? "2" : "3");
        if (reg(FLAG) && (reg(STAT) & S))
            begin = (uint64_t)i;
        inside[i] = (reg(STAT) & S) != 0 || last;
        last = (reg(STAT) & S) != 0;
        from[i] = begin;
        if (now().phase == DOOR_ADDRESS && now().bits == 7)
            return;
    }
    inside[64] = 0;
    for (i = 0; i < 64; i++) {
        int end = i + 1;

        while (inside[i] && inside[end] && from[end] == from[i])
            end++;
        expect(inside[i] ? found(record, 64, (uint64_t)i, from[i], (uint64_t)end - from[i])
                         : found(record, 64, (uint64_t)i, (uint64_t)i, 0), "find: as the module sees it");
    }
}

/* All checks. */
int main(void)
{
    int i;

    bench_levels();
    bench_addresses();
    bench_overflow();
    bench_pointer();
    bench_reading();
    rule_disabling();
    rule_disabling_later();
    rule_mode();
    rule_ckp();
    readings();
    whole_bytes();
    rule_refused();
    rule_ackdt();
    rule_decided();
    rule_decided_by_ackdt();
    rule_cut();
    rule_flag();
    rule_case();
    rule_hit();
    rule_taken();
    rule_same_way();
    rule_registers();
    refusals_single();
    refusals_run();
    images(1000000);
    finder();
    for (i = 0; i < 2000; i++)
        finder_by_module();
    printf("checks %lu failures %lu\n", checks, failures);
    return failures == 0 ? 0 : 1;
}
