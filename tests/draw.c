/* Checks drawings through the door: words by hand on small records, lanes and refusals at every edge, every cut of a record, and
   random traffic on random states beside the single calls. */
#include "expect.h"
#include "modes.h"
#include "traffic.h"
#include "words.h"

#include <stdio.h>
#include <stdlib.h>
#include <string.h>

enum { BUF, STAT, CON1, CON2, CON3, ADD, MSK, FLAG, REGISTERS };

enum { IMAGE = DOOR_IMAGE, AT_WIRE = 12, N = 32, BUFFER = 300, START = 7, LONGEST = 4096, BEHIND = 4 };

enum { LONG_RUN = 100000 }; /* random items from which on every phase and every bit of a word have to come up */

/* What stands in lanes that no word was written to. */
static const uint64_t filler = 0x5A5A5A5A5A5A5A5Au;

/* The state under check, its buffer with the window at START, a record and its lanes. */
static uint8_t image[IMAGE], buffer[BUFFER], record[LONGEST];
static uint64_t lanes[LONGEST + BEHIND];
static const word_scene scene = {image, buffer, BUFFER, START, N};

/* ---- States and records ---- */

/* A fresh state over a memory that begins with two bytes. */
static void fresh(uint8_t add, uint8_t first, uint8_t second)
{
    memset(buffer, 0, BUFFER);
    buffer[START] = first;
    buffer[START + 1] = second;
    expect(door.setup(image, IMAGE, add, N).refusal == 0, "setup", add);
}

/* A register write that must be taken. */
static void put(uint32_t number, uint8_t value)
{
    expect(door.write(image, IMAGE, number, value).refusal == 0, "write", number * 256ul + value);
}

/* Switches over to a mode, with the module switched off before. */
static void switch_over(uint8_t mode)
{
    put(CON1, 0x10 | mode);
    put(CON1, 0x30 | mode);
}

/* Levels written as digits, spaces skipped, into bytes; answers how many. */
static size_t levels(const char *text, uint8_t *into)
{
    size_t length = 0;

    for (; *text != '\0'; text++)
        if (*text != ' ')
            into[length++] = (uint8_t)(*text - '0');
    return length;
}

/* All lanes without a word. */
static void clear_lanes(void)
{
    size_t i;

    for (i = 0; i < LONGEST + BEHIND; i++)
        lanes[i] = filler;
}

/* Whether the lanes from a place on have no word. */
static int no_words_from(size_t place)
{
    while (place < LONGEST + BEHIND && lanes[place] == filler)
        place++;
    return place == LONGEST + BEHIND;
}

/* ---- Words by hand ---- */

/* Items of a record in which all that is seen stays, but for the wire: it is the record's, or as it is written here. What happens
   at an item happens at the first of them. Letters: d SDA pulled, c SCL pulled, i SSPIF, k CKP, o SSPOV, w WCOL, a ACKSTAT,
   t ACKTIM; h the handler was called, = it stored a byte, S Start, P Stop, ! conflict. */
typedef struct {
    const char *levels, *wire;
    uint8_t phase, stat;
    const char *bits, *happens;
    uint16_t pointer;
    uint8_t buf;
} row;

/* The bits of these letters. */
static uint64_t bits_of(const char *text)
{
    static const char names[] = "dcikowath=SP!";
    static const uint8_t places[] = {
        WORD_SDA_PULLED, WORD_SCL_PULLED, WORD_SSPIF, WORD_CKP, WORD_SSPOV, WORD_WCOL, WORD_ACKSTAT, WORD_ACKTIM,
        WORD_CALLED, WORD_STORED, WORD_START, WORD_STOP, WORD_CONFLICT
    };
    uint64_t bits = 0;

    for (; *text != '\0'; text++)
        bits |= word_put(places[strchr(names, *text) - names], 1);
    return bits;
}

/* The words of a row, put behind those that there are. */
static size_t row_words(const row *r, uint64_t *into)
{
    uint8_t wire[LONGEST];
    size_t length = levels(r->wire[0] == '\0' ? r->levels : r->wire, wire), i;

    for (i = 0; i < length; i++)
        into[i] = wire[i] | word_put(WORD_PHASE, r->phase) | word_put(WORD_STAT, r->stat) | bits_of(r->bits)
            | (i == 0 ? bits_of(r->happens) : 0) | word_put(WORD_POINTER, r->pointer) | word_put(WORD_BUF, r->buf);
    return length;
}

/* Draws the record of these rows on the state, and compares word by word. */
static void draw_rows(const char *what, const row *rows, size_t count)
{
    static uint64_t wanted[LONGEST];
    size_t length = 0, i;

    for (i = 0; i < count; i++) {
        (void)levels(rows[i].levels, record + length);
        length += row_words(&rows[i], wanted + length);
    }
    clear_lanes();
    expect(word_took(word_draw(&scene, record, length, lanes, LONGEST), length), what, length);
    for (i = 0; i < length; i++) {
        expect(lanes[i] == wanted[i], what, i);
        if (lanes[i] != wanted[i])
            printf("item %lu is %016llX, not %016llX\n", (unsigned long)i, (unsigned long long)lanes[i],
                   (unsigned long long)wanted[i]);
    }
    expect(no_words_from(length), what, length);
}

#define DRAW_ROWS(what, rows) draw_rows(what, rows, sizeof(rows) / sizeof(rows)[0])

/* A Start and the address 30 up to its eighth bit, as many words begin; the same for 31. */
#define ADDRESS_30 {"33", "", DOOR_QUIET, 0x00, "k", "", 0, 0x00}, {"2", "", DOOR_ADDRESS, 0x08, "k", "S", 0, 0x00}, \
    {"0 20 20 31 31 20 20 20 2", "", DOOR_ADDRESS, 0x08, "k", "", 0, 0x00}
#define ADDRESS_31 {"3", "", DOOR_QUIET, 0x00, "k", "", 0, 0x00}, {"2", "", DOOR_ADDRESS, 0x08, "k", "S", 0, 0x00}, \
    {"0 20 20 31 31 20 20 20 3", "", DOOR_ADDRESS, 0x08, "k", "", 0, 0x00}

/* A write of the pointer 05 and of 1C. The handler is called at the first item with SCL high after a hold, not where SCL is low
   in it; the pointer moves with the call; the byte 1C alone is stored. */
static void write_message(void)
{
    static const row rows[] = {
        ADDRESS_30,
        {"02", "", DOOR_SLOT, 0x09, "dk", "", 0, 0x30},
        {"010", "", DOOR_DATA, 0x09, "ci", "", 0, 0x30},
        {"2", "", DOOR_DATA, 0x08, "k", "h", 0, 0x30},
        {"0 20 20 20 20 31 20 3", "", DOOR_DATA, 0x08, "k", "", 0, 0x30},
        {"102", "", DOOR_SLOT, 0x29, "dk", "", 0, 0x05},
        {"0110", "", DOOR_DATA, 0x29, "ci", "", 0, 0x05},
        {"2", "", DOOR_DATA, 0x28, "k", "h", 5, 0x05},
        {"0 20 20 31 31 31 20 2", "", DOOR_DATA, 0x28, "k", "", 5, 0x05},
        {"02", "", DOOR_SLOT, 0x29, "dk", "", 5, 0x1C},
        {"00", "", DOOR_DATA, 0x29, "ci", "", 5, 0x1C},
        {"2", "", DOOR_DATA, 0x28, "k", "h=", 6, 0x1C},
        {"33", "", DOOR_QUIET, 0x30, "k", "P", 6, 0x1C}
    };
    uint8_t after[BUFFER];

    fresh(0x30, 0x11, 0x22);
    memcpy(after, buffer, BUFFER);
    after[START + 5] = 0x1C;
    DRAW_ROWS("write message", rows);
    expect(memcmp(buffer, after, BUFFER) == 0, "write message: memory", 0);
}

/* A read of A5 and of 3C, the first acknowledged by the master and the second not. */
static void read_message(void)
{
    static const row rows[] = {
        ADDRESS_31,
        {"102", "", DOOR_SLOT, 0x0D, "dk", "", 0, 0x31},
        {"01", "", DOOR_HELD_SENDING, 0x0D, "ci", "", 0, 0x31},
        {"3", "", DOOR_SENDING, 0x0D, "k", "h", 1, 0xA5},
        {"102", "", DOOR_SENDING, 0x0D, "dk", "", 1, 0xA5},
        {"013", "", DOOR_SENDING, 0x0D, "k", "", 1, 0xA5},
        {"10202", "", DOOR_SENDING, 0x0D, "dk", "", 1, 0xA5},
        {"013", "", DOOR_SENDING, 0x0D, "k", "", 1, 0xA5},
        {"102", "", DOOR_SENDING, 0x0D, "dk", "", 1, 0xA5},
        {"013", "", DOOR_SENDING, 0x0D, "k", "", 1, 0xA5},
        {"102", "", DOOR_MASTER_ACK, 0x2C, "k", "", 1, 0xA5},
        {"00", "", DOOR_HELD_SENDING, 0x2C, "ci", "", 1, 0xA5},
        {"2", "", DOOR_SENDING, 0x2D, "dk", "h", 2, 0x3C},
        {"02", "", DOOR_SENDING, 0x2D, "dk", "", 2, 0x3C},
        {"013131313", "", DOOR_SENDING, 0x2D, "k", "", 2, 0x3C},
        {"10202", "", DOOR_SENDING, 0x2D, "dk", "", 2, 0x3C},
        {"01", "", DOOR_MASTER_ACK, 0x2C, "k", "", 2, 0x3C},
        {"3", "", DOOR_MASTER_ACK, 0x2C, "ka", "", 2, 0x3C},
        {"102", "", DOOR_QUIET, 0x28, "kai", "", 2, 0x3C},
        {"3", "", DOOR_QUIET, 0x30, "kai", "P", 2, 0x3C}
    };

    fresh(0x30, 0xA5, 0x3C);
    DRAW_ROWS("read message", rows);
}

/* A conflict is an item 3 under a pull of SDA, each time; not an item 1 or 2, and not without a pull. */
static void conflicts(void)
{
    static const row in_slot[] = {
        ADDRESS_30,
        {"1", "", DOOR_SLOT, 0x09, "dk", "", 0, 0x30},
        {"1", "0", DOOR_SLOT, 0x09, "dk", "", 0, 0x30},
        {"2", "", DOOR_SLOT, 0x09, "dk", "", 0, 0x30},
        {"3", "2", DOOR_SLOT, 0x09, "dk", "!", 0, 0x30},
        {"22", "", DOOR_SLOT, 0x09, "dk", "", 0, 0x30},
        {"3", "2", DOOR_SLOT, 0x09, "dk", "!", 0, 0x30},
        {"3", "2", DOOR_SLOT, 0x09, "dk", "!", 0, 0x30},
        {"1", "0", DOOR_DATA, 0x09, "ci", "", 0, 0x30},
        {"1", "", DOOR_DATA, 0x09, "ci", "", 0, 0x30},
        {"3", "", DOOR_DATA, 0x08, "k", "h", 0, 0x30},
        {"3", "", DOOR_DATA, 0x08, "k", "", 0, 0x30}
    };
    static const row in_sending[] = {
        ADDRESS_31,
        {"102", "", DOOR_SLOT, 0x0D, "dk", "", 0, 0x31},
        {"1", "0", DOOR_HELD_SENDING, 0x0D, "ci", "", 0, 0x31},
        {"3", "2", DOOR_SENDING, 0x0D, "dk", "h!", 1, 0x3C},
        {"1", "0", DOOR_SENDING, 0x0D, "dk", "", 1, 0x3C},
        {"3", "2", DOOR_SENDING, 0x0D, "dk", "!", 1, 0x3C}
    };

    fresh(0x30, 0, 0);
    DRAW_ROWS("conflict in a slot", in_slot);
    fresh(0x30, 0x3C, 0);
    DRAW_ROWS("conflict with the call's own pull", in_sending);
}

/* A slot's own pull after a wire of 3, which no trace leads to: the module reads a Start, which ends the pull. The conflict is by
   the pull before the sample, and the Start by the wire with it. */
static void own_start(void)
{
    static const row to_slot[] = {ADDRESS_30, {"0", "", DOOR_SLOT, 0x09, "dk", "", 0, 0x30}};
    static const row start[] = {{"3", "2", DOOR_ADDRESS, 0x09, "k", "S!", 0, 0x30}};
    static const row no_start[] = {{"2", "", DOOR_ADDRESS, 0x09, "k", "S", 0, 0x30}};
    static const row stand[] = {{"3", "2", DOOR_SLOT, 0x09, "dk", "!", 0, 0x30}};

    fresh(0x30, 0, 0);
    DRAW_ROWS("up to a slot", to_slot);
    image[AT_WIRE] = 3;
    DRAW_ROWS("a Start of its own", start);
    fresh(0x30, 0, 0);
    DRAW_ROWS("up to a slot", to_slot);
    image[AT_WIRE] = 3;
    DRAW_ROWS("a Start by all", no_start);
    fresh(0x30, 0, 0);
    DRAW_ROWS("up to a slot", to_slot);
    image[AT_WIRE] = 2;
    DRAW_ROWS("no Stop under a pull", stand);
}

/* A Start after which SDA moves while SCL is high: neither a Stop nor a Start until SCL has been low (the mark). The first item
   of all is only remembered, whatever it is. */
static void marked(void)
{
    static const row rows[] = {
        {"2", "", DOOR_QUIET, 0x00, "k", "", 0, 0x00}, {"3", "", DOOR_QUIET, 0x10, "k", "P", 0, 0x00},
        {"2", "", DOOR_ADDRESS, 0x08, "k", "S", 0, 0x00}, {"323", "", DOOR_ADDRESS, 0x08, "k", "", 0, 0x00},
        {"12", "", DOOR_ADDRESS, 0x08, "k", "", 0, 0x00}, {"3", "", DOOR_QUIET, 0x10, "k", "P", 0, 0x00},
        {"2", "", DOOR_ADDRESS, 0x08, "k", "S", 0, 0x00}, {"0 1", "", DOOR_ADDRESS, 0x08, "k", "", 0, 0x00}
    };

    fresh(0x30, 0, 0);
    DRAW_ROWS("mark", rows);
}

/* A disabled module reads neither Start nor Stop, and is quiet. */
static void disabled(void)
{
    static const row rows[] = {{"3 2 3 2 0 2 3 1", "", DOOR_QUIET, 0x00, "k", "", 0, 0x00}};

    fresh(0x30, 0, 0);
    put(CON1, 0x16);
    DRAW_ROWS("disabled", rows);
}

/* With SSPM 1110 a Start and a Stop set SSPIF; no hold, no call. */
static void flagged(void)
{
    static const row start[] = {
        {"3", "", DOOR_QUIET, 0x00, "k", "", 0, 0x00}, {"2", "", DOOR_ADDRESS, 0x08, "ki", "S", 0, 0x00},
        {"02", "", DOOR_ADDRESS, 0x08, "ki", "", 0, 0x00}
    };
    static const row stop[] = {{"3", "", DOOR_QUIET, 0x10, "ki", "P", 0, 0x00}};

    fresh(0x30, 0, 0);
    switch_over(MODE_SEVEN_FLAGGED);
    DRAW_ROWS("SSPM 1110, a Start", start);
    put(FLAG, 0);
    DRAW_ROWS("SSPM 1110, a Stop", stop);
}

/* Without SEN nothing is held, so that nothing is called, though SSPIF is 1 and SCL goes high; the byte after the address finds
   BF 1 and is refused with SSPOV. */
static void not_held(void)
{
    static const row rows[] = {
        ADDRESS_30,
        {"02", "", DOOR_SLOT, 0x09, "dk", "", 0, 0x30},
        {"0 20 20 20 20 20 31 20 3", "", DOOR_DATA, 0x09, "ki", "", 0, 0x30},
        {"13", "", DOOR_SLOT, 0x29, "kio", "", 0, 0x30},
        {"13", "", DOOR_QUIET, 0x29, "kio", "", 0, 0x30}
    };

    fresh(0x30, 0, 0);
    put(CON2, 0x00);
    DRAW_ROWS("not held", rows);
}

/* With AHEN the clock is held before the acknowledge too, with ACKTIM; the handler's load there sets WCOL. */
static void held_before(void)
{
    static const row rows[] = {
        ADDRESS_31,
        {"110", "", DOOR_HELD_BEFORE, 0x0D, "cit", "", 0, 0x31},
        {"2", "", DOOR_SLOT, 0x0C, "dkw", "h", 1, 0x31},
        {"2", "", DOOR_SLOT, 0x0C, "dkw", "", 1, 0x31},
        {"01", "", DOOR_HELD_SENDING, 0x0C, "ciw", "", 1, 0x31},
        {"2", "", DOOR_SENDING, 0x0D, "dkw", "h", 2, 0x3C}
    };

    fresh(0x30, 0xA5, 0x3C);
    put(CON3, 0x02);
    DRAW_ROWS("held before the acknowledge", rows);
}

/* A call that does nothing, since SSPIF was cleared, is a call all the same: at each item with SCL high, and the hold stays. */
static void idle_calls(void)
{
    static const row to_hold[] = {
        ADDRESS_30, {"02", "", DOOR_SLOT, 0x09, "dk", "", 0, 0x30}, {"0", "", DOOR_DATA, 0x09, "ci", "", 0, 0x30}
    };
    static const row idle[] = {
        {"2", "0", DOOR_DATA, 0x09, "c", "h", 0, 0x30}, {"10", "", DOOR_DATA, 0x09, "c", "", 0, 0x30},
        {"3", "1", DOOR_DATA, 0x09, "c", "h", 0, 0x30}, {"3", "1", DOOR_DATA, 0x09, "c", "h", 0, 0x30}
    };

    fresh(0x30, 0, 0);
    DRAW_ROWS("up to a hold", to_hold);
    put(FLAG, 0);
    DRAW_ROWS("calls that do nothing", idle);
    expect(door.look(image, IMAGE).due == 0, "a call that does nothing", 0);
}

/* Ten bits: the hold for ADD is not ended by a call, which comes at each item with SCL high; the first clears SSPIF. */
static void held_for_add(void)
{
    static const row to_hold[] = {
        {"3", "", DOOR_QUIET, 0x00, "k", "", 0, 0x00}, {"2", "", DOOR_ADDRESS, 0x08, "k", "S", 0, 0x00},
        {"0 31 31 31 31 20 31 20 2", "", DOOR_ADDRESS, 0x08, "k", "", 0, 0x00},
        {"02", "", DOOR_SLOT, 0x09, "dk", "", 0, 0xF4},
        {"01", "", DOOR_HELD_ADD, 0x0B, "cik", "", 0, 0xF4},
        {"2", "0", DOOR_HELD_ADD, 0x0B, "ck", "h", 0, 0xF4}, {"3", "1", DOOR_HELD_ADD, 0x0B, "ck", "h", 0, 0xF4},
        {"10", "", DOOR_HELD_ADD, 0x0B, "ck", "", 0, 0xF4}, {"2", "0", DOOR_HELD_ADD, 0x0B, "ck", "h", 0, 0xF4}
    };
    static const row low[] = {
        {"31 20 31 20 20 31 31 3", "", DOOR_ADDRESS, 0x08, "k", "", 0, 0xF4}, {"1", "", DOOR_SLOT, 0x09, "dk", "", 0, 0xA7}
    };

    fresh(0xF4, 0, 0);
    switch_over(MODE_TEN);
    DRAW_ROWS("held for ADD", to_hold);
    expect(door.read(image, IMAGE, BUF).value == 0xF4, "read of BUF", 0);
    put(ADD, 0xA7);
    DRAW_ROWS("a low byte", low);
}

/* All words by hand. */
static void words_by_hand(void)
{
    write_message();
    read_message();
    conflicts();
    own_start();
    marked();
    disabled();
    flagged();
    not_held();
    held_before();
    idle_calls();
    held_for_add();
}

#ifdef WHERRYOAR_H
/* The header's names for the parts of a word. */
static void names_of_header(void)
{
    static const uint64_t bits[15] = {
        WHERRYOAR_WORD_SDA, WHERRYOAR_WORD_SCL, WHERRYOAR_WORD_SDA_PULLED, WHERRYOAR_WORD_SCL_PULLED, WHERRYOAR_WORD_SSPIF,
        WHERRYOAR_WORD_CKP, WHERRYOAR_WORD_SSPOV, WHERRYOAR_WORD_WCOL, WHERRYOAR_WORD_ACKSTAT, WHERRYOAR_WORD_ACKTIM,
        WHERRYOAR_WORD_CALLED, WHERRYOAR_WORD_STORED, WHERRYOAR_WORD_START, WHERRYOAR_WORD_STOP, WHERRYOAR_WORD_CONFLICT
    };
    static const uint8_t places[15] = {0, 1, 2, 3, 16, 17, 18, 19, 20, 21, 22, 23, 24, 25, 26};
    const uint64_t word = 0xFEDCBA9876543210u;
    int i;

    for (i = 0; i < 15; i++)
        expect(bits[i] == (uint64_t)1 << places[i], "a bit's name", places[i]);
    expect(WHERRYOAR_WORD_PHASE(word) == 0x1 && WHERRYOAR_WORD_STAT(word) == 0x32, "phase and STAT by name", 0);
    expect(WHERRYOAR_WORD_POINTER(word) == 0xBA98 && WHERRYOAR_WORD_BUF(word) == 0xDC, "pointer and BUF by name", 0);
}
#endif

/* ---- Lengths and refusals ---- */

/* A record with a write and a read message, calls, conflicts and SCL high in a hold: what a host may come across. */
static size_t some_record(uint8_t *into)
{
    static const char text[] =
        "33 2 0 20 20 31 31 20 20 20 20 2 010 2 0 20 20 20 20 31 20 31 02 0110 20 20 20 31 31 31 20 20 2 0 0 2 3 33"
        "2 0 20 20 31 31 20 20 20 31 02 01 1 31 10 20 13 10 20 20 13 10 20 13 10 2 000 20 20 13 13 13 31 20 23 1 2 0 2 3"
        "2 3 2 0 0 1 1 3 1 3 0 2 0 2 3 3 1 2 0 20 20 31 31 20 20 20 20 3 33 1 0 0 33 1 33 0 2 0 3 1 0 2";

    return levels(text, into);
}

/* Lanes shorter than the record, as long and longer: as many items as the shorter has, and the lanes behind stay. A bad level
   right behind the taken part is not looked at. */
static void lengths(void)
{
    uint8_t wanted_image[IMAGE], wanted_buffer[BUFFER];
    uint64_t wanted[LONGEST];
    size_t length = some_record(record), count, i;

    fresh(0x30, 0xA5, 0x3C);
    memcpy(wanted_image, image, IMAGE);
    memcpy(wanted_buffer, buffer, BUFFER);
    for (i = 0; i <= length; i++) {
        word_scene singly = {wanted_image, wanted_buffer, BUFFER, START, N};
        uint8_t behind = record[i];

        for (count = i; count <= i + 1; count++) {
            fresh(0x30, 0xA5, 0x3C);
            clear_lanes();
            record[i] = 4;
            expect(word_took(word_draw(&scene, record, count, lanes, 2 * i + 1 - count), i), "taken", i);
            expect(memcmp(lanes, wanted, i * sizeof lanes[0]) == 0 && no_words_from(i), "words of the shorter", i);
            expect(memcmp(image, wanted_image, IMAGE) == 0, "state of the shorter", i);
            expect(memcmp(buffer, wanted_buffer, BUFFER) == 0, "buffer of the shorter", i);
        }
        record[i] = behind;
        if (i < length)
            wanted[i] = word_singly(&singly, record[i]);
    }
}

/* No items, with null pointers where a length is 0. */
static void no_items(void)
{
    uint8_t old[IMAGE];

    fresh(0x30, 1, 2);
    (void)levels("33 2 0", record);
    (void)word_draw(&scene, record, 4, lanes, 4);
    memcpy(old, image, IMAGE);
    clear_lanes();
    expect(word_took(word_draw(&scene, NULL, 0, NULL, 0), 0), "neither record nor lanes", 0);
    expect(word_took(word_draw(&scene, NULL, 0, lanes, LONGEST), 0), "no record", 0);
    expect(word_took(word_draw(&scene, record, 4, NULL, 0), 0), "no lanes", 0);
    expect(memcmp(old, image, IMAGE) == 0 && no_words_from(0), "no items change nothing", 0);
    expect(word_refused(door.draw(NULL, 0, NULL, 0, 0, N, NULL, 0, NULL, 0), 6, 0), "no bytes at all", 0);
    expect(word_refused(door.draw(image, IMAGE, NULL, 0, 0, N, NULL, 0, NULL, 0), 5, 0), "no buffer", 0);
    expect(word_refused(door.draw(image, IMAGE, NULL, 0, 0, 0, NULL, 0, NULL, 0), 5, 0), "no buffer, and n 0", 0);
}

/* A drawing of the record with this length and window has to be refused so, and to leave state, buffer and lanes. */
static void refuse(size_t state_length, uint64_t start, uint64_t n, size_t length, unsigned refusal, uint64_t item)
{
    uint8_t old_image[IMAGE], old_buffer[BUFFER];
    door_taken t;

    memcpy(old_image, image, IMAGE);
    memcpy(old_buffer, buffer, BUFFER);
    clear_lanes();
    t = door.draw(image, state_length, buffer, BUFFER, start, n, record, length, lanes, LONGEST);
    expect(word_refused(t, refusal, item), "refusal and its item", refusal * 1000ul + (unsigned long)item);
    expect(memcmp(old_image, image, IMAGE) == 0, "state after a refusal", refusal);
    expect(memcmp(old_buffer, buffer, BUFFER) == 0 && no_words_from(0), "buffer and lanes after a refusal", refusal);
}

/* 6 before 5 before 4; the first bad level is named, wherever it stands, though the items before it would store and draw. */
static void refusals_in_order(void)
{
    size_t length = some_record(record), bad;

    fresh(0x30, 0xA5, 0x3C);
    for (bad = 0; bad < length; bad++) {
        uint8_t old = record[bad];

        record[length - 1] = 255;
        record[bad] = (uint8_t)(4 + bad % 252);
        refuse(IMAGE, START, N, length, 4, bad);
        refuse(IMAGE, START, N + 1, length, 5, 0);
        refuse(IMAGE, BUFFER - N + 1, N, length, 5, 0);
        refuse(IMAGE, UINT64_MAX, N, length, 5, 0);
        refuse(IMAGE - 1, UINT64_MAX, N, length, 6, 0);
        image[AT_WIRE] = 4;
        refuse(IMAGE, START, N, length, 6, 0);
        refuse(IMAGE, UINT64_MAX, 0, length, 6, 0);
        image[AT_WIRE] = 255;
        record[bad] = old;
    }
}

/* ---- Cuts ---- */

/* A record cut anywhere, and one drawn item by item, gives the words, state and buffer of the whole. */
static void cuts(void)
{
    uint8_t whole_image[IMAGE], whole_buffer[BUFFER];
    uint64_t whole[LONGEST];
    size_t length = some_record(record), cut, i;

    fresh(0x30, 0xA5, 0x3C);
    expect(word_took(word_draw(&scene, record, length, whole, length), length), "whole", length);
    memcpy(whole_image, image, IMAGE);
    memcpy(whole_buffer, buffer, BUFFER);
    for (cut = 0; cut <= length + 1; cut++) {
        fresh(0x30, 0xA5, 0x3C);
        clear_lanes();
        for (i = 0; i < length && cut > length; i++)
            expect(word_took(word_draw(&scene, record + i, 1, lanes + i, 1), 1), "an item by itself", i);
        if (cut <= length) {
            expect(word_took(word_draw(&scene, record, cut, lanes, cut), cut), "first part", cut);
            expect(word_took(word_draw(&scene, record + cut, length - cut, lanes + cut, length - cut), length - cut),
                   "second part", cut);
        }
        expect(memcmp(lanes, whole, length * sizeof lanes[0]) == 0 && no_words_from(length), "words of a cut record", cut);
        expect(memcmp(image, whole_image, IMAGE) == 0, "state of a cut record", cut);
        expect(memcmp(buffer, whole_buffer, BUFFER) == 0, "buffer of a cut record", cut);
    }
}

/* ---- Random traffic on random states, beside single calls ---- */

/* A state with its buffer. */
typedef struct {
    uint8_t image[IMAGE], buffer[BUFFER];
} device;

/* A record so far, the words of its items by single calls, the state that it begins with and the one that they lead to. */
typedef struct {
    traffic source;
    uint8_t record[LONGEST];
    uint64_t wanted[LONGEST + BEHIND], lanes[LONGEST + BEHIND];
    size_t length;
    device before, stepped;
    uint64_t start, n;            /* the window; n is the state's */
    int as_wire;                  /* whether the record mostly shows what the module pulls */
    int dense;                    /* whether a level stands for many samples */
    unsigned long items, records, differences;
    unsigned long phases[DOOR_PHASES], happened[64], off, for_add; /* what has come up: by a word's phase, by its bits, and calls
                                                                      while disabled or in the hold for ADD */
} bench;

/* Counts what a word shows. */
static void count_word(bench *b, uint64_t word)
{
    int place;

    b->items++;
    b->phases[(word >> WORD_PHASE & 0xF) % DOOR_PHASES]++;
    for (place = WORD_SSPIF; place <= WORD_CONFLICT; place++)
        b->happened[place] += (unsigned long)word_has(word, place);
    b->for_add += (word >> WORD_PHASE & 0xF) == DOOR_HELD_ADD && word_has(word, WORD_CALLED);
    b->off += !(b->stepped.image[CON1] & 0x20);
}

/* Tells the first difference with the items that led to it. */
static void differ(bench *b, const char *what, size_t item)
{
    size_t i;

    if (b->differences++ > 0)
        return;
    printf("difference: %s, item %lu of %lu: word %016llX, single calls %016llX, state before ", what, (unsigned long)item,
           (unsigned long)b->length, (unsigned long long)b->lanes[item], (unsigned long long)b->wanted[item]);
    for (i = 0; i < IMAGE; i++)
        printf("%02X", b->before.image[i]);
    printf(", items ");
    for (i = 0; i <= item && i < b->length; i++)
        printf("%u", b->record[i]);
    printf("\n");
}

/* Draws the record in two parts, the second with lanes to spare, from the state that it began with, and compares. */
static void compare(bench *b)
{
    device drawn = b->before;
    word_scene s = {drawn.image, drawn.buffer, BUFFER, b->start, b->n};
    size_t cut = traffic_once_in(&b->source, 2) ? 0 : traffic_below(&b->source, (unsigned)b->length + 1), i;
    int fine;

    for (i = 0; i < b->length + BEHIND; i++)
        b->lanes[i] = filler;
    fine = word_took(word_draw(&s, b->record, cut, b->lanes, cut), cut)
        && word_took(word_draw(&s, b->record + cut, b->length - cut, b->lanes + cut, b->length - cut + BEHIND), b->length - cut);
    for (i = 0; fine && i < b->length && b->lanes[i] == b->wanted[i]; i++)
        continue;
    if (i < b->length)
        differ(b, fine ? "word" : "answer", i);
    for (i = b->length; i < b->length + BEHIND; i++)
        if (b->lanes[i] != filler)
            differ(b, "a word behind the record", i);
    if (memcmp(&drawn, &b->stepped, sizeof drawn) != 0)
        differ(b, "state or buffer at the end", b->length);
    b->records++;
    b->length = 0;
    b->before = b->stepped;
}

/* The level that a record shows: what the module pulls is mostly low in it, the clock so long as it is held. */
static uint8_t shown(bench *b, unsigned level, const door_view *v)
{
    if (b->as_wire && v->sda_pulled && !traffic_once_in(&b->source, 50))
        level &= ~(unsigned)TRAFFIC_SDA;
    if (b->as_wire && v->scl_pulled && !traffic_once_in(&b->source, 6))
        level &= ~(unsigned)TRAFFIC_SCL;
    return (uint8_t)level;
}

/* What software does in the hold for ADD, between two records: mostly it reads BUF, and it writes ADD. */
static void serve_hold(bench *b, unsigned next)
{
    compare(b);
    if (!traffic_once_in(&b->source, 4))
        (void)door.read(b->stepped.image, IMAGE, BUF);
    (void)door.write(b->stepped.image, IMAGE, ADD, traffic_update(&b->source, next));
    b->before = b->stepped;
}

/* What software does between two records elsewhere: register writes of any kind, which may be refused. */
static void software(bench *b)
{
    uint8_t *state = b->stepped.image;
    door_view v = door.look(state, IMAGE);
    unsigned times = traffic_below(&b->source, 3), number, value;

    while (times-- > 0) {
        number = traffic_below(&b->source, REGISTERS);
        value = traffic_below(&b->source, 256);
        if (number == CON1 && !traffic_once_in(&b->source, 8))
            value = (value & 0xD0) | 0x20 | (v.con1 & 0x0F);
        if (number != ADD && number != MSK)
            (void)door.write(state, IMAGE, number, (uint8_t)(number == CON2 ? value & 0xE1 : value));
    }
}

/* One to three bits of the state turned over, where that is a state too: often one that traffic seldom comes to. */
static void disturb(bench *b)
{
    uint8_t changed[IMAGE];
    unsigned bits = 1 + traffic_below(&b->source, 3);
    door_view v;

    memcpy(changed, b->stepped.image, IMAGE);
    while (bits-- > 0)
        changed[traffic_below(&b->source, 21)] ^= (uint8_t)(1u << traffic_below(&b->source, 8));
    v = door.look(changed, IMAGE);
    if (v.refusal != 0)
        return;
    memcpy(b->stepped.image, changed, IMAGE);
    b->n = v.n;
}

/* Takes a level of the traffic, once or many times over; a handler call is none, since a drawing calls by itself. */
static int take(void *to, unsigned item)
{
    bench *b = to;
    word_scene s = {b->stepped.image, b->stepped.buffer, BUFFER, b->start, b->n};
    door_view v = door.look(b->stepped.image, IMAGE), old;
    unsigned times = b->dense ? traffic_times(&b->source) : 1;
    uint8_t level = shown(b, item, &v);

    if (item == TRAFFIC_CALL)
        return v.scl_pulled;
    if (b->length + times > LONGEST)
        compare(b);
    while (times-- > 0) {
        old = v;
        b->record[b->length] = level;
        b->wanted[b->length] = word_singly(&s, level);
        count_word(b, b->wanted[b->length++]);
        v = door.look(b->stepped.image, IMAGE);
        if (v.sda_pulled != old.sda_pulled || v.scl_pulled != old.scl_pulled)
            level = shown(b, item, &v);
    }
    if (v.phase != DOOR_HELD_ADD || !traffic_once_in(&b->source, 4))
        return v.scl_pulled;
    serve_hold(b, v.next);
    return 0;
}

/* A fresh state over any bytes, with seven or ten address bits, and the traffic for it. */
static void begin(bench *b)
{
    static const uint16_t lengths_n[6] = {1, 2, 3, 32, 255, 256};
    traffic *t = &b->source;
    uint8_t *state = b->stepped.image, mode;
    unsigned i;

    for (i = 0; i < BUFFER; i++)
        b->stepped.buffer[i] = (uint8_t)traffic_below(t, 256);
    t->n = lengths_n[traffic_below(t, 6)];
    b->n = t->n;
    b->start = traffic_below(t, BUFFER - 255);
    b->as_wire = !traffic_once_in(t, 4);
    b->dense = traffic_once_in(t, 16);
    t->add = traffic_add(t);
    traffic_choose_ten(t, traffic_once_in(t, 3));
    mode = modes_all[2 * t->ten + traffic_once_in(t, 4)];
    if (door.setup(state, IMAGE, t->add, t->n).refusal != 0 || door.write(state, IMAGE, CON1, 0x10 | mode).refusal != 0
        || door.write(state, IMAGE, CON1, 0x30 | mode).refusal != 0)
        differ(b, "setup", 0);
    b->before = b->stepped;
    b->length = 0;
}

/* Some messages and noise; records of their own and over each other's ends, mostly with software between two of them. */
static void round_of(bench *b)
{
    unsigned messages = 1 + traffic_below(&b->source, 12);

    begin(b);
    while (messages-- > 0) {
        b->source.left = 400;
        if (traffic_once_in(&b->source, 6))
            traffic_noise(&b->source);
        traffic_message(&b->source);
        if (traffic_once_in(&b->source, 3))
            continue;
        compare(b);
        software(b);
        if (traffic_once_in(&b->source, 2))
            disturb(b);
        b->before = b->stepped;
    }
    compare(b);
}

/* Whether every phase and every bit of a word has come up, items while disabled and calls in the hold for ADD. */
static int all_reached(const bench *b)
{
    int i;

    for (i = 0; i < DOOR_PHASES; i++)
        if (b->phases[i] == 0)
            return 0;
    for (i = WORD_SSPIF; i <= WORD_CONFLICT; i++)
        if (b->happened[i] == 0)
            return 0;
    return b->off > 0 && b->for_add > 0;
}

/* Random records of about so many items in all; tells them as the first part of a line. */
static int random_records(unsigned long items, uint64_t seed)
{
    static bench b;

    b.source.seed = seed;
    b.source.longest = 60;
    b.source.take = take;
    b.source.to = &b;
    while (b.items < items && b.differences == 0)
        round_of(&b);
    printf("items %lu records %lu calls %lu in the hold for ADD %lu stored %lu Starts %lu Stops %lu conflicts %lu while off %lu"
           " differences %lu; ", b.items, b.records, b.happened[WORD_CALLED], b.for_add, b.happened[WORD_STORED],
           b.happened[WORD_START], b.happened[WORD_STOP], b.happened[WORD_CONFLICT], b.off, b.differences);
    return b.differences == 0 && (items < LONG_RUN || all_reached(&b));
}

/* The arguments: about how many random items, and a seed. */
int main(int argc, char **argv)
{
    unsigned long items = argc > 1 ? strtoul(argv[1], NULL, 10) : 1000000ul;
    int fine;

    words_by_hand();
#ifdef WHERRYOAR_H
    names_of_header();
#endif
    lengths();
    no_items();
    refusals_in_order();
    cuts();
    fine = random_records(items, argc > 2 ? strtoul(argv[2], NULL, 10) | 1u : 20261116u);
    printf("checks %lu failures %lu\n", checks, failures);
    return fine && failures == 0 ? 0 : 1;
}
