/* The traffic that tests drive: a master's messages with everything that can go wrong on a wire thrown in now and then. */
#include "traffic.h"

enum { SDA = TRAFFIC_SDA, SCL = TRAFFIC_SCL };

/* ---- Chance ---- */

/* The next random number below a limit. */
unsigned traffic_below(traffic *t, unsigned limit)
{
    uint64_t x = t->seed;

    x ^= x >> 12;
    x ^= x << 25;
    x ^= x >> 27;
    t->seed = x;
    return (unsigned)((x * 2685821657736338717u) >> 33) % limit;
}

/* True once in so many times. */
int traffic_once_in(traffic *t, unsigned times)
{
    return traffic_below(t, times) == 0;
}

/* ---- Items ---- */

/* One item, as long as any may be driven. */
static void drive(traffic *t, unsigned item)
{
    if (t->left == 0)
        return;
    t->left--;
    t->held = t->take(t->to, item);
}

/* A level as the master wants it, now and then with a stray level, a handler call or the same level before it. */
static void level(traffic *t, unsigned wanted)
{
    if (traffic_once_in(t, 400))
        drive(t, traffic_below(t, 4));
    if (traffic_once_in(t, 60))
        drive(t, TRAFFIC_CALL);
    if (traffic_once_in(t, 8))
        drive(t, wanted);
    drive(t, wanted);
}

/* SCL released with this SDA; while the clock is held the master waits, mostly until the handler is called. */
static void clock_high(traffic *t, unsigned sda)
{
    level(t, SCL | sda);
    while (t->left > 0 && t->held && !traffic_once_in(t, 40)) {
        if (traffic_once_in(t, 2))
            drive(t, TRAFFIC_CALL);
        drive(t, traffic_once_in(t, 4) ? sda : SCL | sda);
    }
}

/* ---- Bits, bytes, conditions ---- */

/* One bit; now and then SDA changes with the edge or in the middle of the low time. */
static void bit(traffic *t, unsigned sda)
{
    if (traffic_once_in(t, 6))
        drive(t, traffic_below(t, 2));
    if (!traffic_once_in(t, 6))
        level(t, sda);
    clock_high(t, sda);
    level(t, traffic_once_in(t, 6) ? !sda : sda);
}

/* Start, from wherever the wire is: SDA up, SCL up, SDA down, SCL down. */
static void start(traffic *t)
{
    level(t, SDA);
    clock_high(t, SDA);
    if (traffic_once_in(t, 10))
        level(t, SCL);
    level(t, SCL | SDA);
    level(t, SCL);
    if (traffic_once_in(t, 10)) {
        level(t, SCL | SDA);
        level(t, SCL);
    }
    level(t, traffic_once_in(t, 6) ? SDA : 0);
}

/* Stop: SDA down, SCL up, SDA up. */
static void stop(traffic *t)
{
    level(t, 0);
    clock_high(t, 0);
    level(t, SCL | SDA);
}

/* A byte with its ninth slot, cut short now and then; answers whether it came to its end. */
static int byte(traffic *t, unsigned value, unsigned ninth)
{
    int i;

    for (i = 7; i >= 0; i--) {
        if (traffic_once_in(t, 300))
            return 0;
        bit(t, (value >> i) & 1);
    }
    if (traffic_once_in(t, 100))
        return 0;
    bit(t, ninth);
    return 1;
}

/* How often a level is sampled: once, around a multiple of eight, or any number of times; seldom very often. */
unsigned traffic_times(traffic *t)
{
    unsigned pick = traffic_below(t, 4);

    if (traffic_once_in(t, 400))
        return 300 + traffic_below(t, 1500);
    if (pick == 0)
        return 1;
    return pick == 1 ? 1 + traffic_below(t, 70) : 8 * (1 + traffic_below(t, 4)) - 1 + traffic_below(t, 3);
}

/* ---- Messages ---- */

/* An ADD: 30, any, or now and then 00 or 01, with which the byte 00 is the device's own address. */
uint8_t traffic_add(traffic *t)
{
    if (traffic_once_in(t, 3))
        return 0x30;
    return (uint8_t)traffic_below(t, traffic_once_in(t, 4) ? 2 : 256);
}

/* An address byte: mostly the device's, both directions; else the general call, 01, which is none, or any. */
static unsigned some_address(traffic *t)
{
    unsigned pick = traffic_below(t, 12);

    if (pick < 8)
        return (t->add & 0xFEu) | (pick & 1);
    if (pick < 10)
        return 0x00;
    return pick == 10 ? 0x01 : traffic_below(t, 256);
}

/* Ten bits: mostly a high byte of the usual form, 11110, two bits and 0; at times the low byte is the same. */
void traffic_choose_ten(traffic *t, int ten)
{
    t->ten = (uint8_t)ten;
    if (!ten)
        return;
    t->add = traffic_once_in(t, 3) ? traffic_add(t) : (uint8_t)(0xF0 + 2 * traffic_below(t, 4));
    t->low = traffic_once_in(t, 8) ? t->add : (uint8_t)traffic_below(t, 256);
}

/* The low byte before it comes, else the high byte again; now and then any. */
uint8_t traffic_update(traffic *t, unsigned next)
{
    if (traffic_once_in(t, 12))
        return (uint8_t)traffic_below(t, 256);
    return next == 1 ? t->low : t->add;
}

/* A high byte: mostly the device's; else 00, 01, one but for a bit, or any. */
static unsigned some_high(traffic *t, unsigned asks)
{
    unsigned pick = traffic_below(t, 16), own = (t->add & 0xFEu) | asks;

    if (pick < 13)
        return own;
    if (pick == 13)
        return own ^ (2u << traffic_below(t, 7));
    return traffic_below(t, pick == 14 ? 2 : 256);
}

/* A low byte: mostly the device's; else one but for a bit, often the lowest, or any. */
static unsigned some_low(traffic *t)
{
    unsigned pick = traffic_below(t, 12);

    if (pick < 8)
        return t->low;
    if (pick < 11)
        return t->low ^ (pick == 8 ? 1u << traffic_below(t, 8) : 1u);
    return traffic_below(t, 256);
}

/* A pointer byte, mostly near the ends of the memory. */
static unsigned some_pointer(traffic *t)
{
    unsigned pick = traffic_below(t, 4);

    if (pick == 0)
        return traffic_below(t, 256);
    return pick == 1 ? 255 : (t->n - pick) & 0xFFu;
}

/* How many bytes follow an address: mostly few, at times more than the memory has. */
static unsigned some_length(traffic *t)
{
    return traffic_below(t, t->longest > 0 && traffic_once_in(t, 60) ? t->longest : 6);
}

/* The bytes after an address, as R/W says; answers whether they came to their end. */
static int bytes_after(traffic *t, unsigned reads, unsigned length)
{
    unsigned i;
    int whole = 1;

    for (i = 0; whole && i < length && t->left > 0; i++) {
        if (reads)
            whole = byte(t, 0xFF, i + 1 == length || traffic_once_in(t, 30));
        else
            whole = byte(t, i == 0 ? some_pointer(t) : traffic_below(t, 256), 1);
    }
    return whole;
}

/* A message with ten address bits: the high byte, seldom with R/W 1, the low byte and bytes written; then Restarts, mostly with
   R/W 1 and bytes read. */
static void ten_bit_message(traffic *t)
{
    unsigned reads = (unsigned)traffic_once_in(t, 10), length = some_length(t);
    int whole;

    start(t);
    whole = byte(t, some_high(t, reads), 1) && byte(t, some_low(t), 1) && bytes_after(t, 0, length / 2);
    while (whole && t->left > 0 && !traffic_once_in(t, 3)) {
        reads = (unsigned)!traffic_once_in(t, 4);
        start(t);
        whole = byte(t, some_high(t, reads), 1) && (reads || byte(t, some_low(t), 1));
        whole = whole && bytes_after(t, reads, some_length(t) / 2);
    }
}

/* A message with seven address bits. */
static void seven_bit_message(traffic *t)
{
    unsigned address = some_address(t), length = some_length(t);

    start(t);
    if (byte(t, address, 1))
        (void)bytes_after(t, address & 1, length);
}

/* A message. */
void traffic_message(traffic *t)
{
    if (t->ten && !traffic_once_in(t, 12))
        ten_bit_message(t);
    else
        seven_bit_message(t);
    if (!traffic_once_in(t, 4))
        stop(t);
}

/* Items without sense. */
void traffic_noise(traffic *t)
{
    unsigned items = traffic_below(t, 60);

    while (items-- > 0)
        drive(t, traffic_once_in(t, 8) ? (unsigned)TRAFFIC_CALL : traffic_below(t, 4));
}
