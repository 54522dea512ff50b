/* Runs module and handler beside the plain device over random traffic and checks that they agree after every item. */
#include "door.h"
#include "plain.h"
#include "traffic.h"

#include <stdio.h>
#include <stdlib.h>
#include <string.h>

enum { GUARD = 16, MEMORY = 256, BUFFER = GUARD + MEMORY + GUARD, GUARD_BYTE = 0x5A };

enum { ROUND = 4000, LONG_MESSAGE = 600, SHOWN = 60 };

/* What the traffic has reached, so that a pass says something. */
typedef struct {
    unsigned long items, calls, starts, stops, cut, holds, reads, writes, pointers, stored, sent, wraps;
} reach;

/* One round: the module with its memory and the plain device side by side. */
typedef struct {
    uint8_t image[DOOR_IMAGE];
    uint8_t buffer[BUFFER];
    uint8_t first_memory[MEMORY];
    traffic source; /* with ADD and n */
    plain_device plain;
    door_view view; /* the module after the last item */
    uint8_t trace[ROUND];
    size_t length;
    reach reached;
    unsigned long differences;
} bench;

/* ---- Checks ---- */

/* Tells a difference with the items that led to it. */
static void differ(bench *b, const char *what)
{
    size_t i = b->length > SHOWN ? b->length - SHOWN : 0;

    if (b->differences++ > 0)
        return;
    printf("difference: %s (n %u add %02X item %lu), the last items: ",
           what, b->source.n, b->source.add, (unsigned long)b->length);
    for (; i < b->length; i++)
        printf("%u", b->trace[i]);
    printf("\n");
}

/* Memory and pointer: the plain device's, or while the clock is held those before the last byte. */
static void check_memory(bench *b, int held)
{
    const uint8_t *wanted = held ? b->plain.earlier_memory : b->plain.memory;
    unsigned pointer = held ? b->plain.earlier_pointer : b->plain.pointer;

    if (memcmp(b->buffer + GUARD, wanted, b->source.n) != 0)
        differ(b, "memory");
    if (b->view.pointer != pointer)
        differ(b, "pointer");
    if (!held && b->plain.turn == PLAIN_WRITE_TURN && b->view.due != b->plain.due)
        differ(b, "pointer due");
}

/* Bytes outside the window never change. */
static void check_guards(bench *b)
{
    size_t i;

    for (i = 0; i < GUARD; i++)
        if (b->buffer[i] != GUARD_BYTE)
            differ(b, "byte before the window");
    for (i = GUARD + (size_t)b->source.n; i < BUFFER; i++)
        if (b->buffer[i] != GUARD_BYTE)
            differ(b, "byte after the window");
}

/* All that has to hold after any item. */
static void check(bench *b, door_answer a)
{
    int held;

    b->view = door.look(b->image, DOOR_IMAGE);
    held = b->view.scl_pulled;
    if (a.refusal != 0 || a.value != 0 || a.item != 0 || b->view.refusal != 0)
        differ(b, "refusal");
    check_memory(b, held);
    if (b->view.sda_pulled != plain_owes(&b->plain, held))
        differ(b, "SDA pulled where not owed, or owed and not pulled");
    if (held != !(b->view.con1 & 0x10))
        differ(b, "CKP");
    if (b->view.refused || (b->view.con1 & 0x40))
        differ(b, "a byte refused, or SSPOV set, with the handler alone");
}

/* ---- Items ---- */

/* Counts what a level brought. */
static void count(bench *b, int brought, int turn_before, int due_before)
{
    reach *r = &b->reached;

    r->starts += brought == PLAIN_START;
    r->stops += brought == PLAIN_STOP;
    r->cut += (brought == PLAIN_START || brought == PLAIN_STOP) && turn_before == PLAIN_READ_TURN;
    if (!b->plain.served)
        return;
    r->holds++;
    if (b->plain.turn == PLAIN_READ_TURN) {
        r->reads += turn_before == PLAIN_NO_TURN;
        r->sent++;
        r->wraps += b->plain.pointer == 0;
    } else if (turn_before == PLAIN_NO_TURN) {
        r->writes++;
    } else if (due_before) {
        r->pointers++;
    } else {
        r->stored++;
        r->wraps += b->plain.pointer == 0;
    }
}

/* One sample: the module gets what the others drive, the plain device what is then on the wire. */
static void sample(bench *b, unsigned level)
{
    unsigned wire = level & ~(unsigned)(b->view.scl_pulled * TRAFFIC_SCL + b->view.sda_pulled * TRAFFIC_SDA);
    int held_before = b->view.scl_pulled;
    int turn_before = b->plain.turn, due_before = b->plain.due;
    door_answer a;

    a = door.sample(b->image, DOOR_IMAGE, (uint8_t)level);
    count(b, plain_level(&b->plain, (uint8_t)wire), turn_before, due_before);
    check(b, a);
    if (b->view.wire != wire)
        differ(b, "wire");
    if (b->view.scl_pulled != (held_before || b->plain.served))
        differ(b, "hold without a byte of its own, or none after one, or ended by a sample");
}

/* One handler call: whatever hold there is, it ends. */
static void handle(bench *b)
{
    door_answer a;

    b->reached.calls++;
    a = door.call(b->image, DOOR_IMAGE, b->buffer, BUFFER, GUARD, b->source.n);
    check(b, a);
    check_guards(b);
    if (b->view.scl_pulled)
        differ(b, "hold not ended by one handler call");
}

/* Takes an item of the traffic; answers whether the clock is held after it. */
static int take(void *to, unsigned item)
{
    bench *b = to;

    b->trace[b->length++] = (uint8_t)item;
    b->reached.items++;
    if (item == TRAFFIC_CALL)
        handle(b);
    else
        sample(b, item);
    return b->view.scl_pulled;
}

/* ---- Rounds ---- */

/* A fresh module and a fresh plain device with the same memory. */
static void fresh(bench *b, uint16_t n)
{
    unsigned i;

    b->source.n = n;
    b->source.add = traffic_add(&b->source);
    b->source.left = ROUND;
    b->source.held = 0;
    b->length = 0;
    memset(b->buffer, GUARD_BYTE, BUFFER);
    for (i = 0; i < n; i++)
        b->first_memory[i] = (uint8_t)traffic_below(&b->source, 256);
    memcpy(b->buffer + GUARD, b->first_memory, n);
    plain_setup(&b->plain, b->source.add, n, b->first_memory);
    check(b, door.setup(b->image, DOOR_IMAGE, b->source.add, n));
}

/* The round's whole trace once more by one run. */
static void check_run(bench *b)
{
    uint8_t image[DOOR_IMAGE], buffer[BUFFER];
    door_answer a;

    memset(buffer, GUARD_BYTE, BUFFER);
    memcpy(buffer + GUARD, b->first_memory, b->source.n);
    (void)door.setup(image, DOOR_IMAGE, b->source.add, b->source.n);
    a = door.run(image, DOOR_IMAGE, buffer, BUFFER, GUARD, b->source.n, b->trace, b->length);
    if (a.refusal != 0 || memcmp(image, b->image, DOOR_IMAGE) != 0 || memcmp(buffer, b->buffer, BUFFER) != 0)
        differ(b, "the whole trace by one run");
}

/* Rounds for one n until so many items have gone by. */
static void rounds(bench *b, uint16_t n, unsigned long items)
{
    reach *r = &b->reached;

    memset(r, 0, sizeof *r);
    while (r->items < items && b->differences == 0) {
        fresh(b, n);
        while (b->source.left > 0 && b->differences == 0) {
            if (traffic_once_in(&b->source, 12))
                traffic_noise(&b->source);
            else
                traffic_message(&b->source);
        }
        check_run(b);
    }
    printf("n %u items %lu calls %lu starts %lu stops %lu reads cut %lu holds %lu"
           " read turns %lu write turns %lu pointers %lu stored %lu sent %lu wraps %lu\n",
           n, r->items, r->calls, r->starts, r->stops, r->cut, r->holds,
           r->reads, r->writes, r->pointers, r->stored, r->sent, r->wraps);
}

/* Agreement for n of 1, 2, 255 and 256; the argument is the number of items in all, the second the seed. */
int main(int argc, char **argv)
{
    static bench b;
    static const uint16_t lengths[4] = {1, 2, 255, 256};
    unsigned long items = argc > 1 ? strtoul(argv[1], NULL, 10) : 4000000ul;
    unsigned long total = 0;
    int i;

    b.source.seed = argc > 2 ? strtoul(argv[2], NULL, 10) | 1u : 20240229u;
    b.source.longest = LONG_MESSAGE;
    b.source.take = take;
    b.source.to = &b;
    for (i = 0; i < 4 && b.differences == 0; i++) {
        rounds(&b, lengths[i], items / 4);
        total += b.reached.items;
    }
    printf("items %lu differences %lu\n", total, b.differences);
    return total > 0 && b.differences == 0 ? 0 : 1;
}
