/* Wherryoar: the model of Microchip's MSSP as an I2C slave, for a host in C.

   A state (module and handler) is an image of WHERRYOAR_STATE_LENGTH bytes in the caller's memory. wherryoar_setup makes
   one; every other function takes one, and is proved to do what this header says for every input: stray levels, a mangled
   image, a window past the end of memory.

   - Every call ends, and touches only what it is lent.
   - A refused call answers the number of the first refusal that applies, in the order 6, 1, 2, 3, 8, 9, 5, 4, 7, and leaves
     state and buffer exactly as they were.
   - What no proof can cover is yours to keep: state, buffer, trace, record and lanes must not overlap; a length must not be
     longer than the memory behind its pointer; a pointer may be null only where its length is 0.
   - The library keeps no state of its own, allocates nothing and calls nothing: calls on different states may run on
     different threads at once; two calls on one state or one buffer may not.
   - An image is good for this version of the library. One that an older version made means the same or is refused with 6,
     and is never misread. Of the images of 0.3.0 those of an acknowledge slot that does not pull are refused: they do not
     say whether the byte was. The layout is in docs/LAYOUT.md.
   - wherryoar_view has grown at its end with 0.6.0: a host is compiled against the header of the archive that it links.
   - A call takes at most 704 bytes of stack, wherryoar_draw at most 768; wherryoar_sample at most 512, and at most 300 where
     the sample leaves the state as it is: the level is on the wire what is remembered of it.
   - Compiled for x86-64.                                                                                             */

/* How to use it, for the programmer of a scope.

   ADD. Eight bits, as the address byte stands on the wire; bit 0, R/W, plays no part. The 7-bit address 0x21 is ADD 0x42.

   Levels. 2 * SCL + SDA: 3 both lines high, 2 SDA low, 1 SCL low, 0 both low. What the model pulls after an item acts from
   the next item on.

   A wire record or a trace: know which one you have.
   - A wire record is what the wire showed, the slave's own pulls included; a probe captures one. It is for wherryoar_draw
     and wherryoar_find.
   - A trace is what everybody else drives, with the handler's calls; a program that plays the master makes one. It is for
     wherryoar_run, its levels one by one for wherryoar_sample.
   No function can tell them apart, so a mix-up is not refused. A wire record given to wherryoar_run has no handler calls in
   it: the answer is 0, and from the first acknowledged byte on the clock is held for ever. A trace given to wherryoar_draw
   is refused only for the calls in it; without them each hold ends as soon as the master lets SCL go, and each acknowledge
   shows as a conflict.

   When to call the handler. It is the firmware: call it where wherryoar_look shows flag 1 (SSPIF) or scl_pulled 1 (the
   clock is held), before the next sample that shows SCL high; until the call the model keeps SCL low and misses the clocks
   that follow. One call ends a hold; where SSPIF is 0 a call does nothing. A host without a firmware of its own leaves it to
   wherryoar_draw, or calls the handler wherever scl_pulled is 1. It is a firmware for the registers as setup chooses them: a
   host that clears SSPIF itself, or runs ten-bit addresses, ends the holds by its own writes.

   Several slaves on one wire, a state for each. Of a wire record each draws the same items and needs to know nothing of the
   others. With samples, feed each what all the others drive: the wire is low where the sample is low or any of them pulls,
   so each one's pull is in the samples of the others. examples/lanes.c does it for two.

   Feed the whole record and not the screen. Bytes are counted from a Start: a model that begins at the left edge does not
   know of the message that was under way. To jump about in a long record keep a copy of the state, and of the window's bytes,
   every so many items, and go on from the last copy before the screen.                                               */
#ifndef WHERRYOAR_H
#define WHERRYOAR_H

#include <stddef.h>
#include <stdint.h>

#ifdef __cplusplus
extern "C" {
#endif

/* The version of this header and of the archive that it belongs to, as numbers and as text. */
#define WHERRYOAR_VERSION_MAJOR 0
#define WHERRYOAR_VERSION_MINOR 7
#define WHERRYOAR_VERSION_PATCH 0
#define WHERRYOAR_VERSION WHERRYOAR_DOTTED(WHERRYOAR_VERSION_MAJOR, WHERRYOAR_VERSION_MINOR, WHERRYOAR_VERSION_PATCH)
#define WHERRYOAR_DOTTED(a, b, c) WHERRYOAR_QUOTED(a) "." WHERRYOAR_QUOTED(b) "." WHERRYOAR_QUOTED(c)
#define WHERRYOAR_QUOTED(number) #number

/* The length of a state's image in bytes. */
#define WHERRYOAR_STATE_LENGTH 48

/* Refusals. */
#define WHERRYOAR_DONE 0            /* not refused */
#define WHERRYOAR_NO_REGISTER 1     /* a register number above 7 */
#define WHERRYOAR_RESERVED_BIT 2    /* a write sets CON2 bits 4..1 or BOEN */
#define WHERRYOAR_NO_MODE 3         /* a write to CON1 with SSPEN 1 and SSPM none of 0110, 1110, 0111, 1111 */
#define WHERRYOAR_NO_ITEM 4         /* a level above 3, an item above 4 */
#define WHERRYOAR_NO_WINDOW 5       /* window not inside its buffer or not of the setup's length; n outside 1 to 256 */
#define WHERRYOAR_NO_STATE 6        /* the bytes are no state's image; at setup, not 48 bytes */
#define WHERRYOAR_PAST_RECORD 7     /* the finder's item number is not below the record's length */
#define WHERRYOAR_MODE_CHANGE 8     /* a write to CON1 with another SSPM, while SSPEN is 1 and stays so */
#define WHERRYOAR_MASKED_TEN_BITS 9 /* a write after which a ten-bit SSPM would stand with SSPEN 1 and a MSK other than FF */

/* The refusals in words, by number: static const char *const texts[] = WHERRYOAR_REFUSAL_TEXTS; puts(texts[answer.refusal]); */
#define WHERRYOAR_REFUSAL_TEXTS                                                                                               \
    {                                                                                                                         \
        "done",                                                                                                               \
        "register number above 7",                                                                                            \
        "a write sets a bit that has to be 0: CON2 bits 4 to 1, or BOEN",                                                     \
        "a write to CON1 turns on a mode that is not modelled: SSPM is none of 0110, 1110, 0111, 1111",                       \
        "an item is not what it can be: a level above 3, or in a trace an item above 4",                                      \
        "the window is not inside its buffer, not of the setup's length, or n is not 1 to 256",                               \
        "the bytes are no state's image, which is 48 bytes made by wherryoar_setup",                                          \
        "the item number is not below the record's length",                                                                   \
        "a write to CON1 changes SSPM while the module runs: write SSPEN 0 first",                                            \
        "a ten-bit mode runs with MSK FF alone",                                                                              \
    }

/* Register numbers. */
#define WHERRYOAR_BUF 0
#define WHERRYOAR_STAT 1
#define WHERRYOAR_CON1 2
#define WHERRYOAR_CON2 3
#define WHERRYOAR_CON3 4
#define WHERRYOAR_ADD 5
#define WHERRYOAR_MSK 6
#define WHERRYOAR_FLAG 7            /* SSPIF in bit 0 */

/* Phases. */
#define WHERRYOAR_QUIET 0
#define WHERRYOAR_ADDRESS 1
#define WHERRYOAR_DATA 2
#define WHERRYOAR_HELD_BEFORE_ACKNOWLEDGE 3
#define WHERRYOAR_SLOT 4
#define WHERRYOAR_HELD_FOR_SENDING 5
#define WHERRYOAR_SENDING 6
#define WHERRYOAR_MASTER_ACKNOWLEDGE 7
#define WHERRYOAR_HELD_FOR_ADD 8    /* ten bits: the clock is held until ADD is written; UA is 1 exactly here */

/* Which byte an address, a hold before acknowledge or a slot belongs to. */
#define WHERRYOAR_OTHER_BYTE 0      /* a seven-bit address, a first byte whose bits still come, or a data byte */
#define WHERRYOAR_HIGH_BYTE 1       /* ten bits: a high byte with R/W 0 */
#define WHERRYOAR_LOW_BYTE 2        /* ten bits: a low byte */
#define WHERRYOAR_HIGH_TO_SEND 3    /* ten bits: a high byte with R/W 1 after the full match */

/* What follows when ADD is written in the hold for it. */
#define WHERRYOAR_NEXT_QUIET 0      /* the low byte was not acknowledged */
#define WHERRYOAR_NEXT_LOW_BYTE 1
#define WHERRYOAR_NEXT_DATA 2

/* Which address a first byte hits. */
#define WHERRYOAR_NO_HIT 0          /* none: the module takes no part in the message */
#define WHERRYOAR_OWN_HIT 1         /* its own: the byte fits ADD under MSK; 00 too, where it fits */
#define WHERRYOAR_GENERAL_CALL 2    /* the general call: 00 where GCEN is 1, and it does not fit; never in a ten-bit mode */

/* An item of a trace: a level 0 to 3 (2 * SCL + SDA) is a sample, this one a handler call. */
#define WHERRYOAR_CALL_ITEM 4

/* A word of wherryoar_draw: what is seen after its item. Bits 27 to 31 and 56 to 63 are 0. */
#define WHERRYOAR_WORD_SDA ((uint64_t)1 << 0)        /* the wire as the module saw it: low where the record is low or it pulls */
#define WHERRYOAR_WORD_SCL ((uint64_t)1 << 1)
#define WHERRYOAR_WORD_SDA_PULLED ((uint64_t)1 << 2)
#define WHERRYOAR_WORD_SCL_PULLED ((uint64_t)1 << 3)
#define WHERRYOAR_WORD_PHASE(word) ((unsigned)((word) >> 4 & 0xF))
#define WHERRYOAR_WORD_STAT(word) ((unsigned)((word) >> 8 & 0xFF))
#define WHERRYOAR_WORD_SSPIF ((uint64_t)1 << 16)
#define WHERRYOAR_WORD_CKP ((uint64_t)1 << 17)
#define WHERRYOAR_WORD_SSPOV ((uint64_t)1 << 18)
#define WHERRYOAR_WORD_WCOL ((uint64_t)1 << 19)
#define WHERRYOAR_WORD_ACKSTAT ((uint64_t)1 << 20)
#define WHERRYOAR_WORD_ACKTIM ((uint64_t)1 << 21)
#define WHERRYOAR_WORD_CALLED ((uint64_t)1 << 22)    /* the handler was called before this item */
#define WHERRYOAR_WORD_STORED ((uint64_t)1 << 23)    /* that call stored a byte */
#define WHERRYOAR_WORD_START ((uint64_t)1 << 24)     /* a Start at this item, as the enabled module reads the wire */
#define WHERRYOAR_WORD_STOP ((uint64_t)1 << 25)
#define WHERRYOAR_WORD_CONFLICT ((uint64_t)1 << 26)  /* the record shows both lines high while the module pulled SDA */
#define WHERRYOAR_WORD_POINTER(word) ((unsigned)((word) >> 32 & 0xFFFF))
#define WHERRYOAR_WORD_BUF(word) ((unsigned)((word) >> 48 & 0xFF))

/* What a call answers. */
typedef struct {
    uint32_t refusal;   /* 0: done */
    uint32_t value;     /* read: the register's byte; hit: which address, 0 to 2; else 0, and 0 after a refusal */
    uint64_t item;      /* refusal 4 of a run: the number of the first bad item; else 0 */
} wherryoar_answer;

/* A part of the caller's record. */
typedef struct {
    uint32_t refusal;   /* 0: done */
    uint64_t item;      /* refusal 4: the number of the first bad level; else 0 */
    uint64_t start;     /* where the part begins; 0 after a refusal */
    uint64_t length;    /* how many items it has; 0 where the item lies in no message, and after a refusal */
} wherryoar_part;

/* How far a drawing went. */
typedef struct {
    uint32_t refusal;   /* 0: done */
    uint64_t item;      /* refusal 4: the number of the first bad level; else 0 */
    uint64_t samples;   /* how many items of the record were taken; 0 after a refusal */
    uint64_t items;     /* how many words were written: as many; 0 after a refusal */
} wherryoar_taken;

/* What a scope draws of a state. After a refusal every other field is 0. */
typedef struct {
    uint32_t refusal;
    uint8_t buf, stat, con1, con2, con3, add, msk, flag;   /* the eight registers, read without effect */
    uint8_t scl_pulled, sda_pulled;                        /* 1: the module pulls the line low */
    uint8_t phase;                                         /* 0 to 8, as above */
    uint8_t bits;      /* address, data: bits so far, 0 to 8; sending: the place, 0 to 7; else 0 */
    uint8_t byte;      /* address, data: those bits as a number; sending: the byte; else 0 */
    uint8_t refused;   /* held before acknowledge, slot: 1 where BF or SSPOV refused the byte, which sets SSPIF when the slot
                          ends; 0 where it is acknowledged, or declined by ACKDT (no SSPIF but after a low byte), where a low
                          byte does not match, and in every other phase */
    uint8_t wire;      /* the remembered wire, 0 to 3; 255: none yet */
    uint8_t mark;      /* 1: a Start has come and SCL has not been low since */
    uint8_t due;       /* 1: the next data byte is the pointer */
    uint16_t n;        /* the window's length, 1 to 256 */
    uint16_t pointer;  /* the handler's pointer, below n */
    uint8_t which;     /* address, held before acknowledge, slot: which byte, 0 to 3 as above; else 0 */
    uint8_t next;      /* held for ADD: what follows, 0 to 2 as above; else 0 */
    uint8_t full;      /* 1: the full match stands, both bytes of the ten-bit address were acknowledged */
} wherryoar_view;

/* Makes a state: a module set up afresh with ADD and a handler over n bytes (CON1 36, CON2 01, CON3 00, MSK FF, pointer 0).
   Refuses with 6 (state_length is not 48), 5 (n is not 1 to 256). After a refusal the bytes are as they were. */
wherryoar_answer wherryoar_setup(uint8_t *state, size_t state_length, uint8_t add, uint64_t n);

/* Reads a register; value is its byte. A read of BUF clears BF, other reads change nothing. The number is 32 bits wide, so
   that 256 is refused and not taken for 0; so is a sample's level.
   Refuses with 6 (no state's image), 1 (number above 7). After a refusal the state is as it was. */
wherryoar_answer wherryoar_read(uint8_t *state, size_t state_length, uint32_t number);

/* Writes a register. WCOL, SSPOV and SSPIF can only be cleared; ACKSTAT and ACKTIM ignore writes; STAT takes SMP and CKE;
   BUF takes the byte while the clock is held for sending and else sets WCOL; CKP 1 in CON1 ends a hold, but not the one for
   ADD, which ADD ends. The mode stands while the module runs: to go from SSPM 0110, which setup chooses, to 1110, write CON1
   with SSPEN 0 first, then 3E.
   Ten-bit addresses (SSPM 0111, and 1111 with the interrupts of 1110): with SSPEN 0 write the high byte, 11110 A9 A8 0, to
   ADD, then 37 to CON1. After an acknowledged high byte with R/W 0 (next is WHERRYOAR_NEXT_LOW_BYTE), and after every low
   byte, SSPIF and UA are 1 and the clock is held until ADD is written: with the low byte, then with the high byte again.
   wherryoar_call does not do that: the handler is for seven bits. examples/ten_bit.c is a firmware for ten.
   Refuses with 6 (no state's image), 1 (number above 7), 2 (CON2 bits 4..1 or BOEN set), 3 (CON1 with SSPEN 1 and another
   SSPM than 0110, 1110, 0111 and 1111), 8 (CON1 with SSPEN 1 where SSPEN is 1, in whatever phase, and another SSPM than the one
   that stands), 9 (CON1 with SSPEN 1 and SSPM 0111 or 1111 where MSK is not FF; MSK with another value than FF where SSPEN is 1
   and SSPM is 0111 or 1111). After a refusal the state is as it was: no hold is ended, and WCOL and SSPOV are not cleared. */
wherryoar_answer wherryoar_write(uint8_t *state, size_t state_length, uint32_t number, uint8_t value);

/* Feeds one sample: what everybody else drives, 2 * SCL + SDA. The wire is low where the sample is low or the module pulls.
   Refuses with 6 (no state's image), 4 (level above 3). After a refusal the state is as it was. */
wherryoar_answer wherryoar_sample(uint8_t *state, size_t state_length, uint32_t level);

/* Calls the handler once over the n bytes of buffer from start; the bytes outside them never change.
   Refuses with 6 (no state's image), 5 (the window is not inside the buffer, or n is not the setup's). After a refusal state
   and buffer are as they were. */
wherryoar_answer wherryoar_call(uint8_t *state, size_t state_length, uint8_t *buffer, size_t buffer_length,
                                uint64_t start, uint64_t n);

/* Takes a whole trace: items 0 to 3 are samples, 4 is a handler call; the same as the single calls one after the other.
   Refuses with 6 (no state's image), 5 (window, as above), 4 (an item above 4; item is the first one's number), before
   anything is changed. After a refusal state and buffer are as they were. */
wherryoar_answer wherryoar_run(uint8_t *state, size_t state_length, uint8_t *buffer, size_t buffer_length,
                               uint64_t start, uint64_t n, const uint8_t *trace, size_t trace_length);

/* Draws a whole wire record: a word for each item, in lanes. A record holds what the wire showed, the slave's own pulls
   included. For each item: where the module holds the clock (it pulls SCL) and the record shows SCL high, the handler is
   called first; then the item is taken as a sample; then its word is written, with the bits above. The same as those calls
   one after the other, and a record may be cut anywhere: the next call goes on where this one was. Takes as many items as the
   shorter of record and lanes has; what is behind them in lanes stays, and a bad level behind them is not looked at.
   Refuses with 6 (no state's image), 5 (window, as above), 4 (a level above 3 among the items that would be taken; item is
   the first one's number), before anything is changed. After a refusal state, buffer and lanes are as they were. */
wherryoar_taken wherryoar_draw(uint8_t *state, size_t state_length, uint8_t *buffer, size_t buffer_length, uint64_t start,
                               uint64_t n, const uint8_t *record, size_t record_length, uint64_t *lanes, size_t lanes_length);

/* What the scope draws of a state; changes nothing. Refuses with 6 (no state's image). */
wherryoar_view wherryoar_look(const uint8_t *state, size_t state_length);

/* Which address a first byte after a Start hits by this state's registers, whether the module is enabled or not: value is 0
   none, 1 own, 2 general call, as above. It fits where it has ADD's bit in each of bits 7..1 whose MSK bit is 1; bit 0 is R/W,
   and bit 0 of ADD and of MSK plays no part. Own comes before general call, and 01 is no general call. Where SSPM is 0111 or
   1111 the byte is a high byte: own where it has ADD's bits 7..1, whatever MSK and GCEN are, else none. An enabled module takes
   the byte in, at the fall after its eighth bit, exactly where this says own or general call, and both in the same way: what it
   shows afterwards does not tell which; but a high byte with R/W 1 only while the full match stands. To label an address on
   screen, ask with the byte that wherryoar_look shows in WHERRYOAR_ADDRESS with 8 bits, before that fall; where its which is
   WHERRYOAR_LOW_BYTE it is no first byte, and matches where it is ADD.
   Changes nothing. Refuses with 6 (no state's image). */
wherryoar_answer wherryoar_hit(const uint8_t *state, size_t state_length, uint8_t byte);

/* The message that an item of a wire record lies in, as a part of that record: from its Start up to its Stop (included), the
   next Start (excluded) or the end; an item in no message gives the empty part at it. The record holds wire levels 0 to 3.
   Refuses with 4 (a level above 3; item is the first one's number), 7 (item not below record_length). */
wherryoar_part wherryoar_find(const uint8_t *record, size_t record_length, uint64_t item);

#ifdef __cplusplus
}
#endif

#endif
