/* Draws a wire record with the model beside it: the record comes as a stream on standard input, what happened goes to standard
   output as lines, and the lanes to a file. The command wherryoar makes the one and formats the other.

       draw ADD N MSK CON2 MEMORY [FILE]    numbers in hex, N in decimal; MEMORY the first N bytes in hex, or - where nobody
                                            knows them; FILE a VCD's header, to which the changes of its signals are added

   Exit status: 0 done, 1 the stream was broken, 2 the words above were, 3 FILE cannot be written, and why on standard error.

   The stream, numbers little-endian, COUNT of 32 bits and at most CHUNK:
       r COUNT levels              items one by one, a byte of 0 to 3 each (2 * SCL + SDA)
       t COUNT times levels        the same, with a double each for their times
       k COUNT levels counts       runs of equal items, how many in 64 bits each
       v COUNT places FIRST STEP PARTS    before the first item, if there is a FILE: a byte for each of its signals, the bit of
                                   4 * word + level that it is; and the clock of its times (64 bits each), as changes.h has it
       w FROM TO MOST              from here on lanes are told for the items from FROM up to TO: in the file, and by at most MOST
                                   lines in all (64 bits each)
       e                           the record's end
   The lines; TIME is - where none was sent, CONFLICT 1 where since the line before a time began in which the model pulls SDA
   and the record shows both lines high:
       S|P ITEM TIME CONFLICT                       a Start, a Stop
       B ITEM TIME BEGIN END HIT BYTE ANSWER MODEL SENT CONFLICT POINTER PLACE STORED
                                                    a byte, at its ninth rise; from its first rise to its ninth fall
       C ITEM TIME BEGIN END COUNT BITS CONFLICT    a byte cut off, at its last whole bit
       X ITEM TIME CONFLICT                         a conflict that is left to tell at the end, where it began
       W FROM TO                                    the items whose lanes are told from here on
       L ITEM TIME LEVEL WORD                       the lanes from this item on
       E ITEMS PHASES SINGLES ENDED WHOLE ANSWERED..    the end: how often SCL stood, and for a single item; then for each of
                                                    the eight readings the messages that ended, were whole, and answered  */
#include "changes.h"
#include "wherryoar.h"

#include <math.h>
#include <stdio.h>
#include <stdlib.h>
#include <string.h>

enum { SDA = 1, SCL = 2, HIGHEST_LEVEL = 3, NO_WIRE = 255 };
enum { CHUNK = 65536, LARGEST_MEMORY = 256, READINGS = 8, SHORT_RUN = 32 };
enum { BF = 0x01, D_A = 0x20 }; /* of STAT */

/* What lanes show of a word; what else is in it changes without a line. */
static const uint64_t SHOWN =
    WHERRYOAR_WORD_SDA_PULLED | WHERRYOAR_WORD_SCL_PULLED | (uint64_t)0xF << 4 | (uint64_t)BF << 8 | WHERRYOAR_WORD_SSPIF |
    WHERRYOAR_WORD_SSPOV | WHERRYOAR_WORD_CALLED | WHERRYOAR_WORD_STORED | WHERRYOAR_WORD_START | WHERRYOAR_WORD_CONFLICT |
    (uint64_t)0xFFFF << 32;

/* ---- A plain reader of the wire ---- */

/* What a level brings. */
enum { NOTHING, START, STOP, RISE, FALL, BYTE };

/* The byte under way; and how many messages have ended, how many of them were whole (bytes of nine clocks), and how many of
   those answered (the first byte was acknowledged, or no other came). */
typedef struct {
    uint8_t began;  /* the first level */
    uint8_t wire;   /* the last level; NO_WIRE before the first */
    uint8_t mark;   /* a Start was seen and SCL has not been low since */
    uint8_t inside; /* a Start was seen and no Stop since */
    uint8_t first;  /* the byte under way is the first after its Start */
    uint8_t rises;  /* of the byte under way, 0 to 9 */
    uint8_t falls;  /* of the byte under way, each the end of a whole bit, 0 to 8 */
    uint8_t byte;   /* its bits so far */
    uint8_t answer; /* SDA at its ninth rise */
    uint8_t hushed; /* SDA at the ninth rise of the first byte */
    uint64_t bytes; /* whole ones of this message */
    uint64_t ended, whole, answered;
} reader;

/* A Start or a Stop ends the message before it. Its own rise is no bit. */
static int take_condition(reader *r, int brought)
{
    int is_whole = r->inside && r->bytes > 0 && r->falls == 0;

    r->ended += r->inside;
    r->whole += (uint64_t)is_whole;
    r->answered += is_whole && (!r->hushed || r->bytes == 1);
    r->mark = r->inside = r->first = brought == START;
    r->rises = r->falls = 0;
    r->bytes = 0;
    return brought;
}

/* An SCL edge inside a message: eight bits and the answer at the rises; the ninth fall ends the byte. */
static int take_edge(reader *r, uint8_t now)
{
    if (now & SCL) {
        r->rises++;
        if (r->rises <= 8)
            r->byte = (uint8_t)(r->byte << 1 | (now & SDA));
        else
            r->answer = now & SDA;
        return RISE;
    }
    r->falls = r->rises;
    if (r->falls < 9)
        return FALL;
    if (r->first)
        r->hushed = r->answer;
    r->first = r->rises = r->falls = 0;
    r->bytes++;
    return BYTE;
}

/* The next level. Where SCL changes, a change of SDA in the same item is no condition. */
static int take_level(reader *r, uint8_t now)
{
    uint8_t before = r->wire;

    r->wire = now;
    if (before == NO_WIRE)
        r->began = now;
    if (before == NO_WIRE || before == now)
        return NOTHING;
    if (!(now & SCL))
        r->mark = 0;
    if ((before ^ now) & SCL)
        return r->inside ? take_edge(r, now) : NOTHING;
    if (!(now & SCL) || r->mark)
        return NOTHING;
    return take_condition(r, now & SDA ? STOP : START);
}

/* A level in another reading of the record: bit 0 of the reading exchanges the lines, bits 1 and 2 turn SCL and SDA over. */
static uint8_t read_as(unsigned reading, uint8_t level)
{
    unsigned turned = level ^ (reading & 2 ? SCL : 0u) ^ (reading & 4 ? SDA : 0u);

    return (uint8_t)(reading & 1 ? turned >> 1 | (turned & SDA) << 1 : turned);
}

/* ---- What is told ---- */

/* An item and its time in seconds, not a number where it has none. */
typedef struct {
    uint64_t item;
    double time;
} moment;

/* A byte's line from its ninth rise on, until the handler has taken it. */
typedef struct {
    int is_whole; /* its ninth clock has ended, and the handler's call is to come */
    moment at;
    uint64_t begin, end;
    reader read;  /* as it was at the ninth rise */
    char model;   /* - no part; a, n the slot, pulled or not; s, u sends a known, an unknown byte; o is elsewhere */
    unsigned sent;
    int conflict;
} byte_line;

/* The drawing: the model, the record's part at hand, and what was seen of the items so far. */
typedef struct {
    uint8_t state[WHERRYOAR_STATE_LENGTH];
    uint8_t memory[LARGEST_MEMORY];
    uint8_t known[LARGEST_MEMORY]; /* the byte at this place was given, or stored in the record */
    uint64_t n;
    uint8_t items[CHUNK], levels[CHUNK];
    uint64_t words[CHUNK], counts[CHUNK];
    double times[CHUNK];
    uint64_t item;        /* the number of the next item */
    uint8_t level;        /* of the item before; NO_WIRE before the first */
    uint64_t word;
    int conflict;         /* one began since the last line, and where */
    moment conflict_at;
    int is_unknown;       /* the byte being sent comes from a place that is not known */
    moment rise, whole;   /* the last rise, and the rise of the last whole bit */
    uint64_t begin;       /* the first rise of the byte under way */
    byte_line line;
    uint64_t from, to;    /* the items whose lanes are told */
    uint64_t told, most;  /* the lines that told them, and how many there may be */
    changes vcd;
    uint64_t edge, phases, singles; /* the last SCL edge; how many times between two edges, and how many of a single item */
    reader readings[READINGS];
} drawing;

static void print_moment(char letter, moment at)
{
    printf("%c %llu ", letter, (unsigned long long)at.item);
    if (isnan(at.time))
        putchar('-');
    else
        printf("%.17g", at.time);
}

/* A line of an item alone; the conflict is told with it. */
static void print_event(drawing *d, char letter, moment at)
{
    print_moment(letter, at);
    printf(" %d\n", d->conflict);
    d->conflict = 0;
}

/* A byte's line. word is 0 where the record ends before the handler's call; place is where the call stored, -1 where it did
   not. The registers that tell a hit are never written here, so that any state of the record will do. */
static void print_byte(drawing *d, uint64_t word, int place)
{
    byte_line *b = &d->line;

    print_moment('B', b->at);
    printf(" %llu %llu ", (unsigned long long)b->begin, (unsigned long long)b->end);
    if (b->read.first)
        printf("%u", (unsigned)wherryoar_hit(d->state, sizeof d->state, b->read.byte).value);
    else
        putchar('-');
    printf(" %02X %u %c %02X %d ", b->read.byte, b->read.answer, b->model, b->sent, b->conflict);
    if (word == 0)
        printf("- - -\n");
    else if (place < 0)
        printf("%02X - -\n", WHERRYOAR_WORD_POINTER(word));
    else
        printf("%02X %02X %02X\n", WHERRYOAR_WORD_POINTER(word), (unsigned)place, WHERRYOAR_WORD_BUF(word));
    b->is_whole = 0;
}

/* The bits of a byte that does not come to its end; the ones whose clock has ended. */
static void print_cut_off(drawing *d, const reader *r, uint64_t end)
{
    unsigned ended = r->falls < 8 ? r->falls : 8, begun = r->rises < 8 ? r->rises : 8;

    if (!r->inside || ended == 0)
        return;
    print_moment('C', d->whole);
    printf(" %llu %llu %u %02X %d\n", (unsigned long long)d->begin, (unsigned long long)end, ended,
           (unsigned)(r->byte >> (begun - ended)) & ((1u << ended) - 1), d->conflict);
    d->conflict = 0;
}

/* The lanes from an item on. */
static void tell_lanes(drawing *d, moment at)
{
    if (d->told < d->most) {
        print_moment('L', at);
        printf(" %u %llX\n", d->level, (unsigned long long)(d->word & SHOWN));
        d->told++;
    }
    if (d->vcd.file != NULL)
        write_lanes(&d->vcd, at.item, at.time, (d->word & SHOWN) << 2 | d->level);
}

/* ---- Item by item ---- */

/* What the model does at a ninth clock, by its word there. It is elsewhere if it is at no ninth clock, takes an address for data
   or data for an address, or has sent something where the wire has an address. */
static char model_at(const drawing *d, uint64_t word)
{
    int is_first = d->readings[0].first, takes_data = (WHERRYOAR_WORD_STAT(word) & D_A) != 0;

    switch (WHERRYOAR_WORD_PHASE(word)) {
    case WHERRYOAR_QUIET:
        return '-';
    case WHERRYOAR_SLOT:
        if (takes_data == is_first)
            return 'o';
        return word & WHERRYOAR_WORD_SDA_PULLED ? 'a' : 'n';
    case WHERRYOAR_MASTER_ACKNOWLEDGE:
        if (is_first)
            return 'o';
        return d->is_unknown ? 'u' : 's';
    default:
        return 'o';
    }
}

/* The handler was called before this item: it took the byte that waits, and may have stored or laid one out. */
static void take_call(drawing *d, uint64_t word)
{
    unsigned place = WHERRYOAR_WORD_POINTER(d->word);

    if (word & WHERRYOAR_WORD_STORED)
        d->known[place] = 1;
    if (WHERRYOAR_WORD_PHASE(word) == WHERRYOAR_SENDING)
        d->is_unknown = !d->known[place];
    if (d->line.is_whole)
        print_byte(d, word, word & WHERRYOAR_WORD_STORED ? (int)place : -1);
}

/* A rise: the ninth opens the byte's line. */
static void take_rise(drawing *d, moment now, uint64_t word)
{
    const reader *r = &d->readings[0];

    d->rise = now;
    if (r->rises == 1)
        d->begin = now.item;
    if (r->rises != 9)
        return;
    d->line.at = now;
    d->line.begin = d->begin;
    d->line.read = *r;
    d->line.model = model_at(d, word);
    d->line.sent = WHERRYOAR_WORD_BUF(word);
}

/* A byte's end: its line waits for the handler's call where the model holds the clock. */
static void take_byte(drawing *d, moment now, uint64_t word)
{
    d->line.end = now.item;
    d->line.conflict = d->conflict;
    d->conflict = 0;
    d->line.is_whole = 1;
    if (!(word & WHERRYOAR_WORD_SCL_PULLED))
        print_byte(d, word, -1);
}

/* How long SCL stood, in items. */
static void take_phase(drawing *d, moment now)
{
    d->phases++;
    d->singles += now.item - d->edge == 1;
    d->edge = now.item;
}

/* Another level than before, read in all eight ways; the first is as it stands. */
static void take_change(drawing *d, moment now, uint8_t level, uint64_t word)
{
    reader before = d->readings[0];
    int brought = take_level(&d->readings[0], level);
    unsigned i;

    for (i = 1; i < READINGS; i++)
        take_level(&d->readings[i], read_as(i, level));
    if (d->level != NO_WIRE && ((d->level ^ level) & SCL))
        take_phase(d, now);
    if (brought == RISE)
        take_rise(d, now, word);
    else if (brought == FALL)
        d->whole = d->rise;
    else if (brought == BYTE)
        take_byte(d, now, word);
    else if (brought != NOTHING) {
        print_cut_off(d, &before, now.item);
        print_event(d, brought == START ? 'S' : 'P', now);
    }
}

/* One item with its word. */
static void take_item(drawing *d, moment now, uint8_t level, uint64_t word)
{
    int is_other = level != d->level || ((word ^ d->word) & SHOWN) != 0;

    if (word & WHERRYOAR_WORD_CALLED)
        take_call(d, word);
    if (word & ~d->word & WHERRYOAR_WORD_CONFLICT) {
        d->conflict = 1;
        d->conflict_at = now;
    }
    if (level != d->level)
        take_change(d, now, level, word);
    d->level = level;
    d->word = word;
    if (now.item >= d->from && now.item < d->to && (is_other || now.item == d->from))
        tell_lanes(d, now);
}

/* ---- The record ---- */

static int refuse(const char *what)
{
    fprintf(stderr, "draw: %s\n", what);
    return 0;
}

/* Draws the first items at hand. */
static int draw(drawing *d, size_t count, int is_timed)
{
    size_t i;

    if (wherryoar_draw(d->state, sizeof d->state, d->memory, (size_t)d->n, 0, d->n, d->items, count, d->words, CHUNK).refusal !=
        WHERRYOAR_DONE)
        return refuse("an item is no level");
    for (i = 0; i < count; i++) {
        moment now;

        now.item = d->item++;
        now.time = is_timed ? d->times[i] : NAN;
        take_item(d, now, d->items[i], d->words[i]);
    }
    return 1;
}

/* So many further items like the last one: nothing is to be told of them, but the lanes where their part begins here. */
static void repeat(drawing *d, uint64_t count)
{
    moment first = {d->from, NAN};

    if (d->from >= d->item && d->from - d->item < count && d->from < d->to)
        tell_lanes(d, first);
    d->item += count;
}

/* A long run, item by item until one leaves the state as it was and the handler was not called. What drawing an item does hangs
   on state, memory and item alone, and all three are then the same for the next one: every further item of the run leaves
   them too, and its word is the same word. */
static int draw_long_run(drawing *d, uint8_t level, uint64_t count)
{
    uint8_t before[WHERRYOAR_STATE_LENGTH];

    do {
        memcpy(before, d->state, sizeof before);
        d->items[0] = level;
        if (!draw(d, 1, 0))
            return 0;
        count--;
    } while (count > 0 && ((d->word & WHERRYOAR_WORD_CALLED) || memcmp(before, d->state, sizeof before) != 0));
    repeat(d, count);
    return 1;
}

/* Runs: short ones are drawn together, as many as there is room for. */
static int draw_runs(drawing *d, uint32_t count)
{
    size_t filled = 0;
    uint32_t i;

    for (i = 0; i < count; i++) {
        int is_long = d->counts[i] > SHORT_RUN;

        if ((is_long || filled + SHORT_RUN > CHUNK) && filled > 0) {
            if (!draw(d, filled, 0))
                return 0;
            filled = 0;
        }
        if (is_long && !draw_long_run(d, d->levels[i], d->counts[i]))
            return 0;
        if (!is_long) {
            memset(d->items + filled, d->levels[i], (size_t)d->counts[i]);
            filled += (size_t)d->counts[i];
        }
    }
    return filled == 0 || draw(d, filled, 0);
}

static int take_bytes(void *room, size_t size, size_t count)
{
    return fread(room, size, count, stdin) == count;
}

static int take_number(uint64_t *number)
{
    return take_bytes(number, sizeof *number, 1);
}

static int take_window(drawing *d)
{
    if (!take_number(&d->from) || !take_number(&d->to) || !take_number(&d->most))
        return 0;
    printf("W %llu %llu\n", (unsigned long long)d->from, (unsigned long long)d->to);
    return 1;
}

/* The signals of the VCD, and the clock of its times. */
static int take_signals(changes *c, uint32_t count)
{
    uint32_t i;

    if (count > MOST_SIGNALS || !take_bytes(c->places, 1, count))
        return 0;
    for (i = 0; i < count; i++)
        if (c->places[i] >= 64)
            return 0;
    c->signals = count;
    return take_number(&c->first) && take_number(&c->step) && take_number(&c->parts) && c->step > 0 && c->parts > 0;
}

/* One part of the stream, by its letter. */
static int take_part(drawing *d, int letter)
{
    uint32_t count;
    int is_timed = letter == 't';

    if (letter == 'w')
        return take_window(d);
    if (!take_bytes(&count, sizeof count, 1) || count > CHUNK)
        return 0;
    if (letter == 'v')
        return take_signals(&d->vcd, count);
    if (letter == 'k')
        return take_bytes(d->levels, 1, count) && take_bytes(d->counts, sizeof *d->counts, count) && draw_runs(d, count);
    if (is_timed && !take_bytes(d->times, sizeof *d->times, count))
        return 0;
    return (is_timed || letter == 'r') && take_bytes(d->items, 1, count) && draw(d, count, is_timed);
}

/* The messages of a reading. Those of another than the given one count only if it begins with a free bus: with SDA turned over
   a Stop reads as a Start, and whole messages can come of that. */
static void print_messages(const reader *r, unsigned reading)
{
    int counts = reading == 0 || r->began == HIGHEST_LEVEL;

    printf(" %llu %llu %llu", (unsigned long long)(counts ? r->ended : 0), (unsigned long long)(counts ? r->whole : 0),
           (unsigned long long)(counts ? r->answered : 0));
}

/* The record's end: what is left to tell, and the counts. */
static void finish(drawing *d)
{
    unsigned i;

    if (d->line.is_whole)
        print_byte(d, 0, -1);
    print_cut_off(d, &d->readings[0], d->item);
    if (d->conflict)
        print_event(d, 'X', d->conflict_at);
    printf("E %llu %llu %llu", (unsigned long long)d->item, (unsigned long long)d->phases, (unsigned long long)d->singles);
    for (i = 0; i < READINGS; i++)
        print_messages(&d->readings[i], i);
    putchar('\n');
}

/* The whole stream; answers whether it was right, and everything could be written. */
static int draw_stream(drawing *d)
{
    int letter;

    while ((letter = getchar()) != 'e') {
        if (letter == EOF || !take_part(d, letter))
            return refuse("the stream is broken");
        if (d->vcd.wrong != NULL || ferror(stdout))
            return 0; /* nothing more can be written, or nobody reads it */
    }
    finish(d);
    if (d->vcd.file != NULL && !end_lanes(&d->vcd, d->to < d->item ? d->to : d->item))
        return 0;
    return fflush(stdout) == 0;
}

/* ---- The beginning ---- */

/* The bytes at the record's beginning. Those that nobody knows are FF, which pulls at no bit when it is sent. */
static int take_memory(drawing *d, const char *hex)
{
    uint64_t i;
    unsigned byte;

    memset(d->memory, 0xFF, sizeof d->memory);
    if (strcmp(hex, "-") == 0)
        return 1;
    for (i = 0; i < d->n; i++) {
        if (sscanf(hex + 2 * i, "%2x", &byte) != 1)
            return 0;
        d->memory[i] = (uint8_t)byte;
        d->known[i] = 1;
    }
    return 1;
}

/* Setup with ADD and n, then MSK and CON2. */
static int set_up(drawing *d, char **words)
{
    uint8_t add = (uint8_t)strtoul(words[0], NULL, 16), msk = (uint8_t)strtoul(words[2], NULL, 16);
    uint8_t con2 = (uint8_t)strtoul(words[3], NULL, 16);
    unsigned i;

    d->n = strtoul(words[1], NULL, 10);
    d->level = NO_WIRE;
    d->vcd.step = d->vcd.parts = 1;
    for (i = 0; i < READINGS; i++)
        d->readings[i].wire = NO_WIRE;
    return wherryoar_setup(d->state, sizeof d->state, add, d->n).refusal == WHERRYOAR_DONE &&
           wherryoar_write(d->state, sizeof d->state, WHERRYOAR_MSK, msk).refusal == WHERRYOAR_DONE &&
           wherryoar_write(d->state, sizeof d->state, WHERRYOAR_CON2, con2).refusal == WHERRYOAR_DONE &&
           take_memory(d, words[4]);
}

int main(int argc, char **argv)
{
    static drawing d;

    if (argc < 6 || argc > 7 || !set_up(&d, argv + 1)) {
        fprintf(stderr, "usage: draw ADD N MSK CON2 MEMORY [FILE]\n");
        return 2;
    }
    if (argc == 7 && (d.vcd.file = fopen(argv[6], "ab")) == NULL)
        d.vcd.wrong = strerror(errno);
    if (d.vcd.wrong == NULL && draw_stream(&d))
        return 0;
    if (d.vcd.wrong == NULL)
        return 1;
    fprintf(stderr, "%s\n", d.vcd.wrong);
    return 3;
}
