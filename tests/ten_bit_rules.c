/* Checks the rules of ten-bit addresses through the door: sentence by sentence as step lists, then over every byte, every slot,
   every hold and every image that they speak of, with the whole state that each has to leave. */
#include "modes.h"
#include "ten_bit_rules.h"

enum { BUF, STAT, CON1, CON2, CON3, ADD, MSK, FLAG, AT_PHASE, AT_COUNT, AT_BYTE, AT_WIRE = 12, AT_MARK, AT_N = 16 };

enum { BF = 0x01, RW = 0x04, S = 0x08, P = 0x10, DA = 0x20, SSPOV = 0x40, SSPEN = 0x20, CKP = 0x10 };

/* Bits of CON2 and CON3. */
enum { GCEN = 0x80, ACKDT = 0x20, SEN = 0x01, ACKTIM = 0x80, AHEN = 0x02, DHEN = 0x01 };

/* The state that a check wants, beside the one that the door works on. */
static uint8_t wanted[DOOR_IMAGE];
static unsigned long checks;

/* ---- States put together ---- */

/* A setting of all the bits that these rules ask about, by a number below SETTINGS: BF, SSPOV, CKP, ACKDT, SEN, GCEN, AHEN,
   DHEN, D/A, R/W, the full match, and which of the two modes. */
enum { SETTINGS = 4096 };

static void settle(unsigned pick, unsigned add)
{
    memset(image, 0, DOOR_IMAGE);
    image[BUF] = 0x99;
    image[STAT] = (uint8_t)(S | (pick & 1 ? BF : 0) | (pick & 256 ? DA : 0) | (pick & 512 ? RW : 0));
    image[CON1] = (uint8_t)(SSPEN | (pick & 2 ? SSPOV : 0) | (pick & 4 ? CKP : 0) | (pick & 2048 ? 0x0F : 0x07));
    image[CON2] = (uint8_t)((pick & 8 ? ACKDT : 0) | (pick & 16 ? SEN : 0) | (pick & 32 ? GCEN : 0));
    image[CON3] = (uint8_t)((pick & 64 ? AHEN : 0) | (pick & 128 ? DHEN : 0));
    image[ADD] = (uint8_t)add;
    image[MSK] = 0xFF;
    image[FULL_AT] = (pick & 1024) != 0;
    image[AT_N] = MEMORY;
}

/* The phase of a state put together, with its parts; what stands there is then also what is wanted. */
static void put_phase(int phase, unsigned part, unsigned which, unsigned wire)
{
    image[AT_PHASE] = (uint8_t)phase;
    image[PART_AT] = (uint8_t)part;
    image[WHICH_AT] = (uint8_t)which;
    image[AT_WIRE] = (uint8_t)wire;
    if (phase == DOOR_HELD_BEFORE || phase == DOOR_HELD_SENDING || (phase == DOOR_DATA && part == 1))
        image[CON1] &= 0xFF & ~CKP;
    memcpy(wanted, image, DOOR_IMAGE);
}

/* The phase that is wanted, with its parts and no bits. */
static void want_phase(int phase, unsigned part, unsigned which)
{
    wanted[AT_PHASE] = (uint8_t)phase;
    wanted[AT_COUNT] = wanted[AT_BYTE] = 0;
    wanted[PART_AT] = (uint8_t)part;
    wanted[WHICH_AT] = (uint8_t)which;
}

/* The state is in every byte the one that is wanted. */
static void expect_wanted(const char *what, unsigned more)
{
    char text[TEXT];
    size_t i = 0;

    checks++;
    while (i < DOOR_IMAGE && image[i] == wanted[i])
        i++;
    if (i == DOOR_IMAGE)
        return;
    snprintf(text, TEXT, "%u: byte %lu is %02X and should be %02X", more, (unsigned long)i, image[i], wanted[i]);
    fail(what, text);
}

/* ---- Bytes at their eighth fall ---- */

/* What the intake of a byte has to leave; holds says whether its hold before acknowledge is enabled. */
static void want_intake(unsigned byte, unsigned which, int holds)
{
    int refused = (wanted[STAT] & BF) || (wanted[CON1] & SSPOV);

    if (wanted[STAT] & BF)
        wanted[CON1] |= SSPOV;
    else
        wanted[BUF] = (uint8_t)byte;
    wanted[STAT] |= BF;
    if (wanted[CON3] & (AHEN | DHEN))
        wanted[CON3] |= ACKTIM;
    if (holds) {
        wanted[FLAG] = 1;
        wanted[CON1] &= 0xFF & ~CKP;
        want_phase(DOOR_HELD_BEFORE, (unsigned)refused, which);
    } else {
        want_phase(DOOR_SLOT, refused ? SLOT_REFUSED : SLOT_PULLING, which);
    }
}

/* A first byte: high byte, high byte to send, or quiet; the full match ends but for one that asks to send and fits. */
static void first_byte(unsigned pick, unsigned add, unsigned byte)
{
    int fits = byte >> 1 == add >> 1, asks = byte & 1, full;

    settle(pick, add);
    put_phase(DOOR_ADDRESS, 0, BYTE_OTHER, 0);
    full = wanted[FULL_AT];
    wanted[AT_WIRE] = byte & 1;
    wanted[FULL_AT] = fits && asks && full;
    if (fits && (!asks || full)) {
        wanted[STAT] = (uint8_t)((wanted[STAT] & ~(DA | RW)) | (asks ? RW : 0));
        want_intake(byte, asks ? BYTE_HIGH_TO_SEND : BYTE_HIGH, wanted[CON3] & AHEN);
    } else {
        want_phase(DOOR_QUIET, 0, 0);
    }
    (void)clocks(byte);
    expect_wanted("a first byte", pick << 8 | byte);
}

/* A low byte: R/W and the full match stay; one that does not match leaves every register. */
static void low_byte(unsigned pick, unsigned add, unsigned byte)
{
    settle(pick, add);
    put_phase(DOOR_ADDRESS, 0, BYTE_LOW, 0);
    wanted[AT_WIRE] = byte & 1;
    if (byte == add) {
        wanted[STAT] &= 0xFF & ~DA;
        want_intake(byte, BYTE_LOW, wanted[CON3] & AHEN);
    } else {
        want_phase(DOOR_SLOT, SLOT_DECLINED, BYTE_LOW);
    }
    (void)clocks(byte);
    expect_wanted("a low byte", pick << 8 | byte);
}

/* Every byte against some ADD, and the bytes around ADD with every setting. */
static void eighth_falls(void)
{
    static const uint8_t adds[8] = {0xF4, 0xF5, 0xA5, 0x00, 0x01, 0xFF, 0x80, 0x30};
    unsigned i, byte, pick;

    for (i = 0; i < 8; i++)
        for (byte = 0; byte < 256; byte++)
            for (pick = 0; pick < 2048; pick += 32) {
                first_byte(pick ^ byte % 32, adds[i], byte);
                low_byte(pick ^ byte % 32, adds[i], byte);
            }
    for (pick = 0; pick < SETTINGS; pick++)
        for (i = 0; i < 4; i++) {
            first_byte(pick, adds[pick % 8], adds[pick % 8] ^ i);
            low_byte(pick, adds[pick % 8], adds[pick % 8] ^ i);
        }
}

/* ---- Slots at their ninth fall, and holds before acknowledge ---- */

/* What a slot of seven bits or of data leaves that was acknowledged: STAT tells. */
static void want_acknowledged(void)
{
    int sends = (wanted[STAT] & (RW | DA)) == RW, sen = wanted[CON2] & SEN;

    if (sends || sen)
        wanted[CON1] &= 0xFF & ~CKP;
    want_phase(sends ? DOOR_HELD_SENDING : DOOR_DATA, !sends && sen, 0);
}

/* A slot of a byte and of a case. Only the slot says which byte it was, whatever STAT says. */
static void ninth_fall(unsigned pick, unsigned which, unsigned slot)
{
    int pulls = slot == SLOT_PULLING;

    settle(pick, 0xF4);
    put_phase(DOOR_SLOT, slot, which, 2);
    wanted[AT_WIRE] = 0;
    wanted[FLAG] = slot != SLOT_DECLINED || which == BYTE_LOW;
    if (which == BYTE_LOW) {
        wanted[FULL_AT] |= (uint8_t)pulls;
        want_phase(DOOR_HELD_ADD, 0, pulls ? NEXT_DATA : NEXT_QUIET);
    } else if (!pulls) {
        wanted[FULL_AT] &= which != BYTE_HIGH_TO_SEND;
        want_phase(DOOR_QUIET, 0, 0);
    } else if (which == BYTE_HIGH) {
        want_phase(DOOR_HELD_ADD, 0, NEXT_LOW_BYTE);
    } else if (which == BYTE_HIGH_TO_SEND) {
        wanted[CON1] &= 0xFF & ~CKP;
        want_phase(DOOR_HELD_SENDING, 0, 0);
    } else {
        want_acknowledged();
    }
    levels("0");
    expect_wanted("a ninth fall", pick << 8 | which << 4 | slot);
}

/* A hold before acknowledge, released: the slot is of the same byte; refused stays refused, else ACKDT declines. */
static void released(unsigned pick, unsigned which, unsigned refused)
{
    settle(pick, 0xF4);
    put_phase(DOOR_HELD_BEFORE, refused, which, 0);
    wanted[CON1] |= CKP;
    want_phase(DOOR_SLOT, refused ? SLOT_REFUSED : wanted[CON2] & ACKDT ? SLOT_DECLINED : SLOT_PULLING, which);
    put(CON1, image[CON1] | CKP, 0);
    expect_wanted("a release", pick << 8 | which << 4 | refused);
}

/* Each byte and each case with every setting. */
static void slots_and_holds(void)
{
    unsigned pick, which, slot;

    for (pick = 0; pick < SETTINGS; pick++)
        for (which = 0; which < BYTES; which++) {
            for (slot = SLOT_PULLING; slot < SLOT_CASES; slot++)
                ninth_fall(pick, which, slot);
            released(pick, which, 0);
            released(pick, which, 1);
        }
}

/* A Start or a Stop from a phase with SCL high: the full match stays over a Start and ends by a Stop. */
static void condition(unsigned pick, int phase, unsigned part, unsigned which, int stops)
{
    settle(pick & ~512u, 0xF4);
    put_phase(phase, part, which, stops ? 2 : 3);
    wanted[AT_WIRE] = stops ? 3 : 2;
    wanted[AT_MARK] = !stops;
    wanted[FLAG] = pick & 2048 ? 1 : 0;
    wanted[FULL_AT] = stops ? 0 : wanted[FULL_AT];
    wanted[STAT] = (uint8_t)(stops ? (wanted[STAT] & ~S) | P : wanted[STAT] & ~DA);
    want_phase(stops ? DOOR_QUIET : DOOR_ADDRESS, 0, 0);
    levels(stops ? "3" : "2");
    expect_wanted(stops ? "a Stop" : "a Start", pick << 8 | which);
}

/* From quiet, from a first byte, from a low byte, from data, and from slots that do not pull. */
static void conditions(void)
{
    unsigned pick, which;
    int stops;

    for (pick = 0; pick < SETTINGS; pick++)
        for (stops = 0; stops < 2; stops++) {
            condition(pick, DOOR_QUIET, 0, 0, stops);
            condition(pick, DOOR_ADDRESS, 0, BYTE_OTHER, stops);
            condition(pick, DOOR_ADDRESS, 0, BYTE_LOW, stops);
            condition(pick, DOOR_DATA, 0, 0, stops);
            for (which = 0; which < BYTES; which++)
                condition(pick, DOOR_SLOT, which & 1 ? SLOT_REFUSED : SLOT_DECLINED, which, stops);
        }
}

/* ---- The hold for ADD, and ADD elsewhere ---- */

/* ADD written in the hold: the byte is stored and what follows begins, and no register else changes. */
static void update(unsigned pick, unsigned next, unsigned value)
{
    settle(pick, 0xF4);
    image[FLAG] = pick / 8 % 2;
    put_phase(DOOR_HELD_ADD, 0, next, pick & 3);
    wanted[ADD] = (uint8_t)value;
    if (next == NEXT_LOW_BYTE)
        want_phase(DOOR_ADDRESS, 0, BYTE_LOW);
    else
        want_phase(next == NEXT_DATA ? DOOR_DATA : DOOR_QUIET, 0, 0);
    put(ADD, value, 0);
    expect_wanted("ADD in the hold for it", pick << 8 | next);
}

/* Another register written in the hold: phase and full match are as they were, SCL is pulled, and STAT reads with UA. */
static void other_write(unsigned pick, unsigned next, unsigned number, unsigned value)
{
    door_view v;

    settle(pick, 0xF4);
    put_phase(DOOR_HELD_ADD, 0, next, 0);
    (void)door.write(image, DOOR_IMAGE, number, (uint8_t)value);
    checks++;
    v = door.look(image, DOOR_IMAGE);
    if (v.refusal != 0 || memcmp(image + AT_PHASE, wanted + AT_PHASE, AT_N - AT_PHASE) != 0 || !v.scl_pulled || v.next != next
        || v.which != 0)
        fail("another register in the hold for ADD", "the hold has changed");
    if ((v.stat & 0x02) == 0 || door.read(image, DOOR_IMAGE, STAT).value != v.stat)
        fail("another register in the hold for ADD", "UA is not 1");
}

/* A sample in the hold: the wire is remembered with SCL low, and nothing else happens. A handler call leaves the hold. */
static void hold_stays(unsigned pick, unsigned next, unsigned level)
{
    const char digits[2] = {(char)('0' + level), '\0'};

    settle(pick, 0xF4);
    put_phase(DOOR_HELD_ADD, 0, next, pick % 4);
    wanted[AT_WIRE] = level & SDA;
    levels(digits);
    expect_wanted("a sample in the hold for ADD", pick << 8 | level);
    image[FLAG] = 1;
    call_handler();
    checks++;
    if (memcmp(image + AT_PHASE, wanted + AT_PHASE, AT_N - AT_PHASE) != 0)
        fail("a handler call in the hold for ADD", "the hold has changed");
}

/* Disabling in the hold. */
static void switched_off(unsigned pick, unsigned next)
{
    settle(pick, 0xF4);
    put_phase(DOOR_HELD_ADD, 0, next, 1);
    wanted[STAT] = wanted[FULL_AT] = 0;
    wanted[CON1] = 0x17;
    want_phase(DOOR_QUIET, 0, 0);
    put(CON1, 0x17, 0);
    expect_wanted("disabling in the hold for ADD", pick << 8 | next);
}

/* Every write of every register but ADD, and but those that disable. */
static void other_writes(unsigned pick, unsigned next)
{
    unsigned number, value;

    for (number = 0; number <= FLAG; number++)
        for (value = 0; value < 256; value++)
            if (number != ADD && (number != CON1 || (value & SSPEN)))
                other_write(pick, next, number, value);
}

/* Every setting with each of what follows; other writes with some settings. */
static void holds_for_add(void)
{
    unsigned pick, next;

    for (pick = 0; pick < SETTINGS; pick++)
        for (next = 0; next < NEXTS; next++) {
            update(pick, next, pick % 256);
            hold_stays(pick, next, pick / 4 % 4);
            switched_off(pick, next);
        }
    for (pick = 0; pick < SETTINGS; pick += 110)
        other_writes(pick, pick % NEXTS);
}

/* ADD written in any other phase than the hold for it: stored, and no byte else changes. */
static void add_elsewhere(void)
{
    static const struct { uint8_t phase, part, which; } phases[16] = {
        {DOOR_QUIET, 0, 0}, {DOOR_ADDRESS, 0, BYTE_OTHER}, {DOOR_ADDRESS, 0, BYTE_LOW}, {DOOR_DATA, 0, 0}, {DOOR_DATA, 1, 0},
        {DOOR_HELD_BEFORE, 0, BYTE_OTHER}, {DOOR_HELD_BEFORE, 1, BYTE_HIGH}, {DOOR_HELD_BEFORE, 0, BYTE_LOW},
        {DOOR_HELD_BEFORE, 0, BYTE_HIGH_TO_SEND}, {DOOR_SLOT, 1, BYTE_HIGH}, {DOOR_SLOT, 3, BYTE_LOW},
        {DOOR_SLOT, 2, BYTE_HIGH_TO_SEND}, {DOOR_SLOT, 1, BYTE_OTHER}, {DOOR_HELD_SENDING, 0, 0}, {DOOR_SENDING, 0, 0},
        {DOOR_MASTER_ACK, 0, 0}
    };
    unsigned pick, i;

    for (pick = 0; pick < SETTINGS; pick++)
        for (i = 0; i < 16; i++) {
            settle(pick, 0xF4);
            image[FLAG] = pick / 8 % 2;
            put_phase(phases[i].phase, phases[i].part, phases[i].which, pick & 3);
            wanted[ADD] = (uint8_t)pick;
            put(ADD, pick & 0xFF, 0);
            expect_wanted("ADD elsewhere", pick << 8 | i);
        }
}

/* ---- A whole address on the bus ---- */

/* Whether a byte is acknowledged: SDA is low at its ninth rise. Goes on to its ninth fall. */
static int acknowledged(unsigned byte)
{
    unsigned wire;

    (void)clocks(byte);
    (void)drive(SDA);
    wire = drive(SCL | SDA);
    (void)drive(SDA);
    return !(wire & SDA);
}

/* A high byte and a low byte to a fresh module with ten bits: each is acknowledged exactly where it fits. */
static void whole_address(unsigned high, unsigned low, unsigned first, unsigned second)
{
    int fits = (first ^ high) < 2 && first % 2 == 0, matches = second == low;

    (void)door.setup(image, DOOR_IMAGE, (uint8_t)high, MEMORY);
    act_all("w2=16 w2=37 =320");
    checks++;
    if (acknowledged(first) != fits || door.look(image, DOOR_IMAGE).scl_pulled != fits)
        fail("a high byte", "is acknowledged and held for exactly where it fits");
    if (!fits)
        return;
    (void)door.read(image, DOOR_IMAGE, BUF);
    put(ADD, low, 0);
    if (acknowledged(second) != matches || !door.look(image, DOOR_IMAGE).scl_pulled)
        fail("a low byte", "is acknowledged exactly where it matches, and held for in every case");
    if (door.look(image, DOOR_IMAGE).full != matches)
        fail("a low byte", "makes the full match exactly where it matches");
}

/* Some addresses, with every first byte, and with every low byte. */
static void whole_addresses(void)
{
    static const uint8_t addresses[5][2] = {{0xF0, 0x00}, {0xF6, 0xFF}, {0xF4, 0xA5}, {0xF2, 0xF2}, {0x30, 0x31}};
    unsigned i, byte;

    for (i = 0; i < 5; i++)
        for (byte = 0; byte < 256; byte++) {
            whole_address(addresses[i][0], addresses[i][1], byte, addresses[i][1]);
            whole_address(addresses[i][0], addresses[i][1], addresses[i][0], byte);
        }
}

/* ---- Images ---- */

/* Which numbers a phase may have in byte 11 and in byte 14, a bit for each. */
static const struct { uint8_t parts, bytes; } allowed[DOOR_PHASES] = {
    {0x01, 0x01}, {0x01, 0x05}, {0x03, 0x01}, {0x03, 0x0F}, {0x0E, 0x0F}, {0x01, 0x01}, {0x01, 0x01}, {0x01, 0x01}, {0x01, 0x07}
};

/* Whether the image is a state's, of those that images() makes: S 1, P 0, no bits or eight. */
static int is_a_state(void)
{
    unsigned phase = image[AT_PHASE], part = image[PART_AT], byte = image[WHICH_AT], con1 = image[CON1];
    int ten = mode_runs_ten(con1), high = image[AT_WIRE] == 2, eight = image[AT_COUNT] == 8;
    int held = phase == DOOR_HELD_BEFORE || phase == DOOR_HELD_SENDING || (phase == DOOR_DATA && part == 1);

    if (phase >= DOOR_PHASES || part > 3 || byte > 3)
        return 0;
    if (!(allowed[phase].parts >> part & 1) || !(allowed[phase].bytes >> byte & 1) || image[FULL_AT] > 1)
        return 0;
    if ((con1 & SSPEN) ? !mode_can_run(con1) : phase != DOOR_QUIET || image[AT_MARK])
        return 0;
    if (ten ? image[MSK] != 0xFF : phase == DOOR_HELD_ADD || byte != 0 || image[FULL_AT])
        return 0;
    if (image[AT_MARK] && !(phase == DOOR_ADDRESS && !eight && high))
        return 0;
    if (eight && !((phase == DOOR_ADDRESS || (phase == DOOR_DATA && part == 0)) && high))
        return 0;
    return !held || !(con1 & CKP);
}

/* The image as it stands, beside the list above. */
static void image_taken(void)
{
    door_view v = door.look(image, DOOR_IMAGE);

    checks++;
    if (v.refusal != (is_a_state() ? 0u : 6u))
        fail("an image", v.refusal == 0 ? "is taken and should not" : "is refused and should not");
}

/* Byte 14, byte 15, byte 11, bits, mark and wire of an image of this phase, each with what is in its range and what is not. */
static void images_of_phase(int phase)
{
    static const uint8_t wires[3] = {0, 2, 255};
    unsigned pick;

    for (pick = 0; pick < 6 * 3 * 5 * 2 * 2 * 3; pick++) {
        image[AT_PHASE] = (uint8_t)phase;
        image[WHICH_AT] = (uint8_t)(pick % 6);
        image[FULL_AT] = (uint8_t)(pick / 6 % 3);
        image[PART_AT] = (uint8_t)(pick / 18 % 5);
        image[AT_COUNT] = (uint8_t)(pick / 90 % 2 * 8);
        image[AT_MARK] = (uint8_t)(pick / 180 % 2);
        image[AT_WIRE] = wires[pick / 360 % 3];
        image_taken();
    }
}

/* Every SSPM with SSPEN and CKP each 0 and 1, with and without a mask. Sending has places up to 7, so no eight. */
static void images(void)
{
    static const uint8_t masks[3] = {0xFF, 0xFE, 0x00};
    unsigned con1, i;
    int phase;

    for (con1 = 0; con1 < 64; con1++)
        for (i = 0; i < 3; i++)
            for (phase = 0; phase <= DOOR_PHASES; phase++) {
                settle(0, 0xF4);
                image[CON1] = (uint8_t)con1;
                image[MSK] = masks[i];
                images_of_phase(phase);
            }
}

/* UA is 1 in no image: byte 8 alone tells it, in every phase. */
static void images_with_ua(void)
{
    int phase;

    for (phase = 0; phase < DOOR_PHASES; phase++) {
        settle(0, 0xF4);
        put_phase(phase, phase == DOOR_SLOT, 0, 0);
        image_taken();
        checks++;
        if (((door.look(image, DOOR_IMAGE).stat & 0x02) != 0) != (phase == DOOR_HELD_ADD))
            fail("UA", "is 1 exactly in the hold for ADD");
        image[STAT] |= 0x02;
        if (door.look(image, DOOR_IMAGE).refusal != 6)
            fail("UA", "is no bit of an image");
    }
}

/* All checks. */
int main(void)
{
    go_through(rows, sizeof rows / sizeof rows[0]);
    sequence = "every case";
    step = "states put together";
    eighth_falls();
    slots_and_holds();
    conditions();
    holds_for_add();
    add_elsewhere();
    step = "whole addresses";
    whole_addresses();
    step = "images";
    images();
    images_with_ua();
    printf("ten-bit rules: sequences %lu steps %lu checks %lu failures %lu\n", sequences, steps, checks, failures);
    return steps > 0 && checks > 0 && failures == 0 ? 0 : 1;
}
