/* Firmware for ten-bit addresses, and a host in C that plays a capture to it: the module's lanes, and what was stored.

       ten_bit CAPTURE       draws the lanes
       ten_bit -w CAPTURE    writes the wire record instead, a byte of 0 to 3 for each sample

   The firmware does what it would do in the chip, by reads and writes of registers alone. */
#include "rows.h"

enum { DA = 0x20, RW = 0x04, UA = 0x02, BF = 0x01 };      /* of STAT */
enum { SSPEN = 0x20, CKP = 0x10, TEN_BITS = 0x07 };       /* of CON1; SSPM 0111 */
enum { SCIE = 0x20 };                                     /* of CON3 */

/* The ten-bit address, and the two bytes that the master sends for it: 11110, A9, A8, R/W, and then A7 to A0. */
enum { ADDRESS = 0x2A7, HIGH = 0xF0 | ADDRESS >> 8 << 1, LOW = ADDRESS & 0xFF };

enum { MEMORY = 16, ITEMS = 8192 };

/* A power supply: the module's state, and the firmware's memory with a place in it. */
typedef struct {
    uint8_t state[WHERRYOAR_STATE_LENGTH];
    uint8_t memory[MEMORY];
    uint8_t pointer;    /* below MEMORY */
    uint8_t due;        /* 1: the next data byte is the pointer */
    unsigned stored;    /* bytes stored so far */
    uint32_t refusal;   /* the first that a call answered; 0: none */
} supply;

/* The host: the supply, the capture, and what was seen after each item. */
typedef struct {
    supply supply;
    char driven[ITEMS];     /* the items as they were written */
    wherryoar_view seen[ITEMS];
    uint8_t pointer[ITEMS];
    unsigned stored[ITEMS];
    size_t length;
} host;

/* ---- Registers ---- */

/* Keeps the first refusal; the host ends with it. */
static void keep_refusal(supply *s, uint32_t refusal)
{
    if (s->refusal == WHERRYOAR_DONE)
        s->refusal = refusal;
}

/* Reads and writes a register of the chip. */
static uint8_t get(supply *s, uint32_t number)
{
    wherryoar_answer a = wherryoar_read(s->state, sizeof s->state, number);

    keep_refusal(s, a.refusal);
    return (uint8_t)a.value;
}

static void put(supply *s, uint32_t number, uint8_t value)
{
    keep_refusal(s, wherryoar_write(s->state, sizeof s->state, number, value).refusal);
}

/* ---- The firmware ---- */

/* Turns the module on for ten bits: CON1 37. The mode cannot change while it runs, so SSPEN is 0 first. MSK has to be FF, as
   it is after setup; SEN is 1, so that the clock is held after each data byte. SCIE: a Start interrupts too, see serve. */
static void turn_on(supply *s)
{
    put(s, WHERRYOAR_CON1, CKP | TEN_BITS);
    put(s, WHERRYOAR_CON3, SCIE);
    put(s, WHERRYOAR_ADD, HIGH);
    put(s, WHERRYOAR_CON1, SSPEN | CKP | TEN_BITS);
}

/* UA: one byte of the address has come, and ADD has to hold the other one: after the high byte the low one, after the low byte
   the high one for the next message. That write releases the clock; CKP has no part in it. A low byte that was another's asks
   for it too, and then the module takes no part in what follows. */
static void change_address(supply *s)
{
    uint8_t other = get(s, WHERRYOAR_ADD) == HIGH ? LOW : HIGH;

    get(s, WHERRYOAR_BUF); /* clears BF: a byte that comes while it is set is not acknowledged */
    s->due = 1;            /* the first data byte after the address is the pointer */
    put(s, WHERRYOAR_ADD, other);
}

/* The next place in the memory. */
static void pointer_on(supply *s)
{
    s->pointer = (uint8_t)((s->pointer + 1) % MEMORY);
}

/* A data byte: the pointer if one is due, else stored. */
static void take_data(supply *s)
{
    uint8_t byte = get(s, WHERRYOAR_BUF);

    if (s->due) {
        s->pointer = byte % MEMORY;
        s->due = 0;
        return;
    }
    s->memory[s->pointer] = byte;
    s->stored++;
    pointer_on(s);
}

/* The master reads: the byte at the pointer goes out. After the high byte with R/W 1 that byte is still in BUF. */
static void load(supply *s, uint8_t stat)
{
    if (!(stat & DA))
        get(s, WHERRYOAR_BUF);
    put(s, WHERRYOAR_BUF, s->memory[s->pointer]);
    pointer_on(s);
}

/* The interrupt: what holds the clock is served, the release last. Where nothing holds it, it was a Start or the end of a read.
   At a Start ADD gets the high byte: a master that gave up between the two bytes has left the low one there, and the module
   would never hear its address again. */
static void serve(supply *s)
{
    uint8_t stat;

    if (!(get(s, WHERRYOAR_FLAG) & SSPIF))
        return;
    put(s, WHERRYOAR_FLAG, 0);
    stat = get(s, WHERRYOAR_STAT);
    if (stat & UA) {
        change_address(s);
    } else if (get(s, WHERRYOAR_CON1) & CKP) {
        put(s, WHERRYOAR_ADD, HIGH);
    } else {
        if (stat & RW)
            load(s, stat);
        else
            take_data(s);
        put(s, WHERRYOAR_CON1, SSPEN | CKP | TEN_BITS);
    }
}

/* ---- Playing a capture ---- */

/* Sets up the module and lets the firmware turn it on. The library's own handler serves seven bits; it is never called here. */
static int set_up(supply *s)
{
    size_t i;

    for (i = 0; i < MEMORY; i++)
        s->memory[i] = (uint8_t)(0xD0 + i);
    keep_refusal(s, wherryoar_setup(s->state, sizeof s->state, HIGH, MEMORY).refusal);
    turn_on(s);
    return s->refusal == WHERRYOAR_DONE;
}

/* One item: a sample of what everybody else drives, or h, where the chip gets to its firmware. */
static int feed(host *h, char item)
{
    supply *s = &h->supply;
    size_t i = h->length;

    if (i == ITEMS)
        return 0;
    if (item == 'h')
        serve(s);
    else
        keep_refusal(s, wherryoar_sample(s->state, sizeof s->state, (uint32_t)(item - '0')).refusal);
    h->driven[i] = item;
    h->seen[i] = wherryoar_look(s->state, sizeof s->state);
    h->pointer[i] = s->pointer;
    h->stored[i] = s->stored;
    keep_refusal(s, h->seen[i].refusal);
    if (s->refusal != WHERRYOAR_DONE)
        return 0;
    h->length++;
    return 1;
}

/* The whole capture. */
static int feed_file(host *h, FILE *file)
{
    int c;

    while ((c = next_item(file)) != EOF)
        if (c == 0 || !feed(h, (char)c))
            return 0;
    return !ferror(file);
}

/* ---- Lanes ---- */

/* The phase in a word short enough for its lane. */
static const char *phase_name(const wherryoar_view *v)
{
    static const char *const names[] = {"quiet", "high", "data", "held", "ack", "held", "sending", "M", "held"};

    if (v->scl_pulled)
        return "held";
    if (v->phase == WHERRYOAR_ADDRESS && v->which == WHERRYOAR_LOW_BYTE)
        return "low";
    return v->phase == WHERRYOAR_SLOT && !v->sda_pulled ? "no" : names[v->phase];
}

/* Whether an item begins a new stretch: of the phases, or of what ADD holds. */
static int begins_phase(const wherryoar_view *seen, size_t item)
{
    return item == 0 || is_start(seen, item) || strcmp(phase_name(&seen[item]), phase_name(&seen[item - 1])) != 0;
}

static int begins_add(const wherryoar_view *seen, size_t item)
{
    return item == 0 || seen[item].add != seen[item - 1].add;
}

/* The label of a stretch by the last that was seen of it: the phase, with the byte once it is whole; or what ADD holds. */
static void label_phase(const wherryoar_view *last, char *label, size_t room)
{
    if (last->phase == WHERRYOAR_SENDING || last->bits == 8)
        snprintf(label, room, "%s %02X", phase_name(last), last->byte);
    else
        snprintf(label, room, "%s", phase_name(last));
}

static void label_add(const wherryoar_view *last, char *label, size_t room)
{
    snprintf(label, room, "%02X", last->add);
}

/* A lane of stretches with their labels. */
static void draw_stretches(const char *name, const host *h, row r, int (*begins)(const wherryoar_view *, size_t),
                           void (*label_of)(const wherryoar_view *, char *, size_t))
{
    size_t item = r.from, end;
    char label[24];

    for (; item < r.to; item = end) {
        end = item + 1;
        while (end < h->length && !begins(h->seen, end))
            end++;
        label_of(&h->seen[end - 1], label, sizeof label);
        write_stretch(&r, item, end, begins(h->seen, item), label);
    }
    print_row(name, &r);
}

/* The bytes that the firmware stored, each with its place: where the pointer was before. */
static void draw_stored(const char *name, const host *h, row r)
{
    size_t i;
    char label[24];

    for (i = r.from > 0 ? r.from : 1; i < r.to; i++) {
        if (h->stored[i] == h->stored[i - 1])
            continue;
        snprintf(label, sizeof label, "%u=%02X", h->pointer[i - 1], h->seen[i].buf);
        write_stretch(&r, i, r.to, 1, label);
    }
    print_row(name, &r);
}

/* Three lanes that are on or off. */
static int has_byte(const wherryoar_view *v)
{
    return v->stat & BF;
}

static int wants_address(const wherryoar_view *v)
{
    return v->stat & UA;
}

static int is_addressed(const wherryoar_view *v)
{
    return v->full;
}

/* ---- The picture ---- */

/* The items in pieces of one width, and for each piece all lanes. */
static void draw(const host *h)
{
    size_t from;

    for (from = 0; from < h->length; from += WIDTH) {
        row r = blank_row(from, h->length);

        putchar('\n');
        draw_items(h->driven, r);
        draw_line("  SCL", h->seen, r, SCL);
        draw_line("  SDA", h->seen, r, SDA);
        draw_stretches("  phase", h, r, begins_phase, label_phase);
        draw_bar("  SSPIF", h->seen, r, is_flagged);
        draw_bar("  BF", h->seen, r, has_byte);
        draw_bar("  UA", h->seen, r, wants_address);
        draw_bar("  held", h->seen, r, is_held);
        draw_bar("  full", h->seen, r, is_addressed);
        draw_stretches("  ADD", h, r, begins_add, label_add);
        draw_stored("  stored", h, r);
    }
}

/* The supply's memory. */
static void print_memory(const supply *s, const char *when)
{
    size_t i;

    printf("\nmemory %s\n ", when);
    for (i = 0; i < MEMORY; i++)
        printf(" %02X", s->memory[i]);
    putchar('\n');
}

/* What the lanes and their signs mean. */
static void print_legend(void)
{
    printf("A supply with the ten-bit address %03X: high byte %02X, to be read %02X, low byte %02X.\n",
           ADDRESS, HIGH, HIGH | 1, LOW);
    printf("A column is an item and shows what is seen after it; a pull acts from the next item on.\n"
           "  driven   what the master drives, 2 * SCL + SDA; h: the chip gets to its firmware\n"
           "  SCL, SDA the wire; S, P on SDA: Start, Stop\n"
           "  phase    quiet; high, low, data, sending, with the byte in hex; held: the clock is held;\n"
           "           ack, no: the acknowledge slot, pulled or not; M: the master's acknowledge\n"
           "  SSPIF    # the flag is set: an interrupt\n"
           "  BF       # BUF holds a byte: not read yet, or not sent yet\n"
           "  UA       # the firmware has to write ADD\n"
           "  held     # the module holds SCL low\n"
           "  full     # both address bytes were acknowledged: a Restart and %02X begin a read\n"
           "  ADD      what the next address byte is compared with\n"
           "  stored   a byte that the firmware stored, with its place\n",
           HIGH | 1);
}

/* The wire record: what the wire was at each sample. */
static void write_record(const host *h)
{
    size_t i;

    for (i = 0; i < h->length; i++)
        if (h->driven[i] != 'h')
            putchar(h->seen[i].wire);
}

/* Plays the capture named; then its lanes, or its wire record. */
int main(int argc, char **argv)
{
    static host h;
    int as_record = argc == 3 && strcmp(argv[1], "-w") == 0;
    FILE *file = argc == 2 || as_record ? fopen(argv[argc - 1], "r") : NULL;
    supply before;
    int fed;

    if (file == NULL) {
        fprintf(stderr, "usage: ten_bit [-w] CAPTURE, and the file must be there\n");
        return 2;
    }
    fed = set_up(&h.supply);
    before = h.supply;
    fed = fed && feed_file(&h, file);
    fclose(file);
    if (!fed) {
        fprintf(stderr, "item %lu cannot be taken, refusal %u\n", (unsigned long)h.length, (unsigned)h.supply.refusal);
        return 1;
    }
    if (as_record) {
        write_record(&h);
    } else {
        print_legend();
        print_memory(&before, "before");
        draw(&h);
        print_memory(&h.supply, "after");
    }
    return fflush(stdout) == 0 ? 0 : 1;
}
