/* A host in C: two channels on one bus, each with a state and a window of its own, fed with a capture and drawn as lanes. */
#include "rows.h"

enum { GCEN = 0x80, SEN = 0x01 };

enum { CHANNELS = 2, MEMORY = 48, ITEMS = 4096 };

/* A channel: its state, its window in the host's memory, and what was seen of it after each item. */
typedef struct {
    uint8_t state[WHERRYOAR_STATE_LENGTH];
    uint8_t add;
    uint64_t start, n;
    wherryoar_view seen[ITEMS];
    uint32_t hit[ITEMS];    /* which address is hit, where a first byte is whole; else none */
} channel;

/* The host: two channels, one memory with a window for each, one capture. */
typedef struct {
    channel channels[CHANNELS];
    uint8_t memory[MEMORY];
    char driven[ITEMS];     /* the items as they were written */
    size_t length;
} host;

/* ---- Feeding ---- */

/* Sets up a channel over its window. */
static int set_up(channel *c, uint8_t add, uint64_t start, uint64_t n)
{
    c->add = add;
    c->start = start;
    c->n = n;
    return wherryoar_setup(c->state, sizeof c->state, add, n).refusal == WHERRYOAR_DONE;
}

/* Lets a channel answer the general call too; SEN stays as setup has it. */
static int turn_on_general_call(channel *c)
{
    return wherryoar_write(c->state, sizeof c->state, WHERRYOAR_CON2, GCEN | SEN).refusal == WHERRYOAR_DONE;
}

/* Keeps what is seen of a channel after an item. A first byte is compared as soon as it has its eight bits. */
static void keep(channel *c, size_t item)
{
    wherryoar_view v = wherryoar_look(c->state, sizeof c->state);

    c->seen[item] = v;
    c->hit[item] = WHERRYOAR_NO_HIT;
    if (v.phase == WHERRYOAR_ADDRESS && v.bits == 8)
        c->hit[item] = wherryoar_hit(c->state, sizeof c->state, v.byte).value;
}

/* The lines that a channel pulls low, as bits of a level. */
static unsigned pulls(const channel *c)
{
    wherryoar_view v = wherryoar_look(c->state, sizeof c->state);

    return (v.scl_pulled ? SCL : 0u) | (v.sda_pulled ? SDA : 0u);
}

/* One item for both channels. A sample is what everybody else drives: the master's level, less what the other one pulls. */
static int feed(host *h, char item)
{
    const unsigned pulled[CHANNELS] = {pulls(&h->channels[0]), pulls(&h->channels[1])};
    int i;

    if (h->length == ITEMS)
        return 0;
    for (i = 0; i < CHANNELS; i++) {
        channel *c = &h->channels[i];
        wherryoar_answer a;

        if (item == 'h')
            a = wherryoar_call(c->state, sizeof c->state, h->memory, sizeof h->memory, c->start, c->n);
        else
            a = wherryoar_sample(c->state, sizeof c->state, (uint8_t)((unsigned)(item - '0') & ~pulled[1 - i]));
        if (a.refusal != WHERRYOAR_DONE)
            return 0;
        keep(c, h->length);
    }
    h->driven[h->length++] = item;
    return 1;
}

/* The whole capture. */
static int feed_file(host *h, FILE *file)
{
    int c;

    while ((c = next_item(file)) != EOF) {
        if (c == 0 || !feed(h, (char)c)) {
            fprintf(stderr, "item %lu cannot be taken\n", (unsigned long)h->length);
            return 0;
        }
    }
    return 1;
}

/* ---- What happened at an item ---- */

/* The phase in a word short enough for its lane. */
static const char *phase_name(const wherryoar_view *v)
{
    static const char *const names[8] = {"quiet", "address", "data", "held", "ack", "held", "sending", "M"};

    if (v->scl_pulled)
        return "held";
    return v->phase == WHERRYOAR_SLOT && !v->sda_pulled ? "no" : names[v->phase & 7];
}

/* Whether an item begins a new stretch of the phase lane. */
static int begins_phase(const channel *c, size_t item)
{
    return item == 0 || is_start(c->seen, item) || strcmp(phase_name(&c->seen[item]), phase_name(&c->seen[item - 1])) != 0;
}

/* Whether an item begins a new stretch of the pointer lane. */
static int begins_pointer(const channel *c, size_t item)
{
    return item == 0 || c->seen[item].pointer != c->seen[item - 1].pointer;
}

/* ---- Lanes ---- */

/* A lane more that is on or off. */
static int is_acknowledging(const wherryoar_view *v)
{
    return v->phase == WHERRYOAR_SLOT && v->sda_pulled;
}

/* The label of a stretch of phases: its name, and the byte once it is whole. An address may be the general call. */
static void phase_label(const channel *c, size_t item, size_t end, char *label, size_t room)
{
    const wherryoar_view *v = &c->seen[end - 1];
    const char *name = c->hit[end - 1] == WHERRYOAR_GENERAL_CALL ? "general call" : phase_name(v);

    if (v->phase == WHERRYOAR_SENDING || v->bits == 8)
        snprintf(label, room, "%s %02X", name, v->byte);
    else
        snprintf(label, room, "%s", phase_name(&c->seen[item]));
}

/* The phases by name, or the pointer by number: a bar where a stretch begins, then its label. */
static void draw_stretches(const char *name, const host *h, const channel *c, row r,
                           int (*begins)(const channel *, size_t))
{
    size_t item = r.from, end;
    char label[24];

    for (; item < r.to; item = end) {
        end = item + 1;
        while (end < h->length && !begins(c, end))
            end++;
        if (begins == begins_phase)
            phase_label(c, item, end, label, sizeof label);
        else
            snprintf(label, sizeof label, "%u", c->seen[item].pointer);
        write_stretch(&r, item, end, begins(c, item), label);
    }
    print_row(name, &r);
}

/* ---- The picture ---- */

/* All lanes of a channel. */
static void draw_channel(const host *h, int number, row r)
{
    const channel *c = &h->channels[number];

    printf("channel %d, ADD %02X%s\n", number + 1, c->add, c->seen[r.from].con2 & GCEN ? ", GCEN" : "");
    draw_line("  SCL", c->seen, r, SCL);
    draw_line("  SDA", c->seen, r, SDA);
    draw_stretches("  phase", h, c, r, begins_phase);
    draw_bar("  SSPIF", c->seen, r, is_flagged);
    draw_bar("  held", c->seen, r, is_held);
    draw_bar("  ack", c->seen, r, is_acknowledging);
    draw_stretches("  pointer", h, c, r, begins_pointer);
}

/* The items in pieces of one width, and for each piece both channels. */
static void draw(const host *h)
{
    size_t from;

    for (from = 0; from < h->length; from += WIDTH) {
        row r = blank_row(from, h->length);

        putchar('\n');
        draw_items(h->driven, r);
        draw_channel(h, 0, r);
        draw_channel(h, 1, r);
    }
}

/* The bytes in the windows of both channels. */
static void print_memory(const host *h, const char *when)
{
    uint64_t i;
    int number;

    printf("\nmemory %s\n", when);
    for (number = 0; number < CHANNELS; number++) {
        printf("  channel %d ", number + 1);
        for (i = 0; i < h->channels[number].n; i++)
            printf(" %02X", h->memory[h->channels[number].start + i]);
        putchar('\n');
    }
}

/* What the lanes and their signs mean. */
static void print_legend(void)
{
    printf("A column is an item and shows what is seen after it; a pull acts from the next item on.\n"
           "  driven   what the master drives, 2 * SCL + SDA; h: both handlers are called\n"
           "  SCL, SDA the wire; S, P on SDA: Start, Stop\n"
           "  phase    quiet; address, data, sending, with the byte in hex; held: the clock is held;\n"
           "           general call: an address that hits by GCEN, not by ADD;\n"
           "           ack, no: the acknowledge slot, pulled or not; M: the master's acknowledge\n"
           "  SSPIF    # the flag is set\n"
           "  held     # the channel holds SCL low\n"
           "  ack      # the channel pulls SDA low in the acknowledge slot\n"
           "  pointer  the handler's place in the channel's memory, decimal\n");
}

/* Feeds the capture named to both channels and draws them. */
int main(int argc, char **argv)
{
    static host h;
    FILE *file = argc == 2 ? fopen(argv[1], "r") : NULL;
    size_t i;
    int fed;

    if (file == NULL) {
        fprintf(stderr, "usage: lanes CAPTURE\n");
        return 2;
    }
    for (i = 0; i < MEMORY; i++)
        h.memory[i] = (uint8_t)(0xA0 + i);
    fed = set_up(&h.channels[0], 0x30, 0, 16) && set_up(&h.channels[1], 0x52, 40, 8) &&
          turn_on_general_call(&h.channels[0]);
    print_legend();
    print_memory(&h, "before");
    fed = fed && feed_file(&h, file);
    fclose(file);
    if (!fed)
        return 1;
    draw(&h);
    print_memory(&h, "after");
    return 0;
}
