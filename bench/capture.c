/* Makes the capture that the bench measures with. */
#include "capture.h"

/* So many samples of one level. */
static void samples(capture *c, unsigned level, unsigned times)
{
    while (times-- > 0 && c->length < CAPTURE_LONGEST)
        c->items[c->length++] = (uint8_t)level;
}

/* One clock: SCL low, then high; called puts a handler call behind the fall. */
static void clock_once(capture *c, unsigned sda, unsigned per_clock, int called)
{
    unsigned low = per_clock / 2;

    samples(c, sda, 1);
    if (called)
        samples(c, CAPTURE_CALL, 1);
    samples(c, sda, low - 1);
    samples(c, CAPTURE_SCL | sda, per_clock - low);
}

/* A byte with its ninth clock; all but an address begin with the handler call for the byte before. */
static void byte(capture *c, unsigned value, unsigned ninth, unsigned per_clock, int called)
{
    int i;

    for (i = 7; i >= 0; i--)
        clock_once(c, (value >> i) & 1, per_clock, called && i == 7);
    clock_once(c, ninth, per_clock, 0);
}

/* A Start. */
static void start(capture *c, unsigned per_clock)
{
    samples(c, CAPTURE_SCL | CAPTURE_SDA, per_clock / 2);
    samples(c, CAPTURE_SCL, per_clock - per_clock / 2);
}

/* A Stop, with the handler call for the last byte before it. */
static void stop(capture *c, unsigned per_clock)
{
    clock_once(c, 0, per_clock, 1);
    samples(c, CAPTURE_SCL | CAPTURE_SDA, per_clock / 2);
}

void capture_make(capture *c, unsigned per_clock, size_t items)
{
    unsigned i;

    c->length = 0;
    for (c->pairs = 0; c->length < items; c->pairs++) {
        start(c, per_clock);
        byte(c, CAPTURE_ADD, 1, per_clock, 0);
        byte(c, c->pairs * 5 & 0xFF, 1, per_clock, 1);
        for (i = 0; i < 8; i++)
            byte(c, (c->pairs * 37 + i * 101) & 0xFF, 1, per_clock, 1);
        stop(c, per_clock);
        start(c, per_clock);
        byte(c, CAPTURE_ADD | 1, 1, per_clock, 0);
        for (i = 0; i < 8; i++)
            byte(c, 0xFF, i == 7, per_clock, 1);
        stop(c, per_clock);
    }
}
