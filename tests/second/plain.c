/* The plain reader and the plain device in plain C, fed with wire levels one by one. */
#include "plain.h"

#include <string.h>

enum { SDA = 1, SCL = 2, NO_WIRE = 255 };

/* ---- The plain reader ---- */

/* Start: a first byte follows, with nothing of it read yet. */
static int reader_start(plain_reader *r)
{
    r->mark = 1;
    r->inside = 1;
    r->first = 1;
    r->rises = 0;
    r->falls = 0;
    r->byte = 0;
    return PLAIN_START;
}

/* Stop: nothing is read until the next Start. */
static int reader_stop(plain_reader *r)
{
    r->inside = 0;
    r->rises = 0;
    r->falls = 0;
    return PLAIN_STOP;
}

/* A rise inside a message: eight bits, then the answer in the ninth slot. */
static int reader_rise(plain_reader *r, uint8_t sda)
{
    r->rises++;
    if (r->rises <= 8)
        r->byte = (uint8_t)(r->byte << 1 | sda);
    else
        r->answer = sda;
    return PLAIN_NOTHING;
}

/* A fall inside a message is the one after the last rise; the ninth ends the byte. */
static int reader_fall(plain_reader *r)
{
    r->falls = r->rises;
    return r->falls == 9 ? PLAIN_BYTE : PLAIN_NOTHING;
}

/* The next level, with SCL edges before conditions. */
static int reader_level(plain_reader *r, uint8_t now)
{
    uint8_t before = r->wire;

    r->wire = now;
    if (before == NO_WIRE)
        return PLAIN_NOTHING;
    if (!(now & SCL))
        r->mark = 0;
    if ((before ^ now) & SCL) {
        if (!r->inside)
            return PLAIN_NOTHING;
        return (now & SCL) ? reader_rise(r, now & SDA) : reader_fall(r);
    }
    if (!(now & SCL) || r->mark || before == now)
        return PLAIN_NOTHING;
    return (now & SDA) ? reader_stop(r) : reader_start(r);
}

/* After a byte's end the next one is no first byte, and nothing of it is read yet. */
static void reader_next_byte(plain_reader *r)
{
    r->first = 0;
    r->rises = 0;
    r->falls = 0;
    r->byte = 0;
}

/* ---- The plain device ---- */

/* Whether the byte under way, with its eight bits read, has the device's address. */
static int is_own_address(const plain_device *d)
{
    return d->reader.first && d->reader.byte >> 1 == d->add >> 1;
}

/* Moves the pointer on by one place, modulo n. */
static void pointer_on(plain_device *d)
{
    d->pointer++;
    if (d->pointer == d->n)
        d->pointer = 0;
}

/* Lays out the byte at the pointer, pointer on. */
static void lay_out(plain_device *d)
{
    d->laid_out = d->memory[d->pointer];
    pointer_on(d);
}

/* Keeps memory and pointer as they are before a byte of the device's own. */
static void keep_earlier(plain_device *d)
{
    d->served = 1;
    d->earlier_pointer = d->pointer;
    memcpy(d->earlier_memory, d->memory, sizeof d->memory);
}

/* The device's address begins a turn. */
static void take_address(plain_device *d)
{
    keep_earlier(d);
    if (d->reader.byte & 1) {
        d->turn = PLAIN_READ_TURN;
        lay_out(d);
    } else {
        d->turn = PLAIN_WRITE_TURN;
        d->due = 1;
    }
}

/* A later byte in a write turn: the pointer if one is due, else stored. */
static void take_written(plain_device *d)
{
    keep_earlier(d);
    if (d->due) {
        d->pointer = (uint16_t)(d->reader.byte % d->n);
        d->due = 0;
    } else {
        d->memory[d->pointer] = d->reader.byte;
        pointer_on(d);
    }
}

/* A byte of a read turn went out: the master's 0 lays out the next, its 1 ends the turn. */
static void take_answer(plain_device *d)
{
    if (d->reader.answer) {
        d->turn = PLAIN_NO_TURN;
        return;
    }
    keep_earlier(d);
    lay_out(d);
}

/* The ninth fall of any byte on the wire. */
static void byte_ended(plain_device *d)
{
    if (is_own_address(d))
        take_address(d);
    else if (d->turn == PLAIN_WRITE_TURN)
        take_written(d);
    else if (d->turn == PLAIN_READ_TURN)
        take_answer(d);
    reader_next_byte(&d->reader);
}

/* A fresh device. */
void plain_setup(plain_device *d, uint8_t add, uint16_t n, const uint8_t *memory)
{
    memset(d, 0, sizeof *d);
    d->reader.wire = NO_WIRE;
    d->add = add;
    d->n = n;
    memcpy(d->memory, memory, n);
    memcpy(d->earlier_memory, memory, n);
}

/* The next wire level. */
int plain_level(plain_device *d, uint8_t level)
{
    int brought = reader_level(&d->reader, level);

    d->served = 0;
    if (brought == PLAIN_START || brought == PLAIN_STOP)
        d->turn = PLAIN_NO_TURN;
    else if (brought == PLAIN_BYTE)
        byte_ended(d);
    return brought;
}

/* Whether a low SDA is owed: in the ninth slot of its own bytes, at the 0 bits of a byte laid out. */
int plain_owes(const plain_device *d, int held)
{
    uint8_t falls = d->reader.falls;

    if (d->turn == PLAIN_READ_TURN && falls < 8) {
        if (held && falls == 0)
            return 0; /* its first bit begins with the item after the end of the hold */
        return ((d->laid_out >> (7 - falls)) & 1) == 0;
    }
    if (falls != 8)
        return 0;
    return is_own_address(d) || d->turn == PLAIN_WRITE_TURN;
}
