/* The fuzz target: bytes become calls through the door, and after each of them what the header promises is checked.

   With FUZZ_ARCHIVE the archive and the second program get the same calls and must answer and leave the same; without it
   the second program goes alone. */
#include "moments.h"
#include "promise.h"
#include "step.h"
#include "target.h"
#include "words.h"
#include "write_refusal.h"

#include <string.h>

enum { IMAGE = 48, LONGEST_IMAGE = 64, LONGEST_BUFFER = 300, LONGEST_BYTES = 4096, GUARD_BYTE = 0xA5, HANDLER_CALL = 4 };

/* The longest record of a drawing, and the most lanes: fifteen words of a message, each level up to four times. */
enum { LONGEST_LANES = 1200 };

/* The bytes that choose a drawing; at that place no input stored before there were drawings has one of them. */
enum { FIRST_DRAW = 140, LAST_DRAW = 171 };

enum { STAT = 1, CON1 = 2, ADD = 5, UA = 0x02, MODE_UNDER_WAY = 8, HIGHEST_REFUSAL = 9, SLOT = 4, HELD_ADD = 8 };

/* Lent memory is as long as it is said to be. Where address checking sees every access nothing stands around it; else, and
   always around what the archive gets, there are guard bytes. */
#if !defined(FUZZ_ARCHIVE) && defined(FUZZ_CHECKED)
enum { GUARD = 0 };
#else
enum { GUARD = 16 };
#endif

/* The bytes that are left to be turned into calls. */
typedef struct {
    const uint8_t *data;
    size_t left;
} source;

/* A program with its state and buffer, each longer than any length that is given. */
typedef struct {
    step_function *make;
    uint8_t image[LONGEST_IMAGE];
    uint8_t buffer[LONGEST_BUFFER];
    uint64_t lanes[LONGEST_LANES];
} program;

/* How often the second program came to each moment, a hit to each answer, a word to each of what happens at an item, and a call
   of a drawing to the hold for ADD. */
enum { HAPPENS = WORD_CONFLICT - WORD_CALLED + 1 };
static unsigned long reached[MOMENTS], hits[HITS], happened[HAPPENS], calls_for_add;

/* ---- From bytes to calls ---- */

/* The next byte; 0 when there is none. */
static uint8_t next(source *s)
{
    if (s->left == 0)
        return 0;
    s->left--;
    return *s->data++;
}

/* Mostly one number, else a byte, else one where a sum or a narrowing would go wrong. */
static uint64_t number(source *s, uint64_t usual)
{
    static const uint64_t odd[8] = {UINT64_MAX, UINT64_MAX - 31, UINT64_MAX - 255, (uint64_t)1 << 32,
                                    ((uint64_t)1 << 32) + 32, (uint64_t)1 << 63, 256, 257};
    uint8_t pick = next(s);

    if (pick < 200)
        return usual;
    return pick < 240 ? next(s) : odd[pick % 8];
}

/* A length for the state: mostly 48. */
static size_t state_length(source *s)
{
    uint8_t pick = next(s);

    if (pick < 224)
        return IMAGE;
    return pick < 232 ? (size_t)pick - 224 : (size_t)pick - 192; /* 0 to 7, 40 to 63 */
}

/* A window: mostly inside its buffer and of the setup's length. */
static void window(source *s, step *made, uint64_t n)
{
    uint8_t pick = next(s);

    made->buffer_length = pick < 200 ? LONGEST_BUFFER : pick;
    made->start = number(s, pick % 40);
    made->n = number(s, n);
}

/* The eight bits and the ninth slot of a byte, then a handler call; SDA of the ninth slot released or not. */
static size_t byte_items(uint8_t *items, unsigned value, unsigned ninth)
{
    size_t length = 0;
    int i;

    for (i = 8; i >= 0; i--) {
        unsigned sda = i == 0 ? ninth : (value >> (i - 1)) & 1;

        items[length++] = (uint8_t)sda;
        items[length++] = (uint8_t)(2 + sda);
    }
    items[length++] = (uint8_t)ninth;
    items[length++] = HANDLER_CALL;
    return length;
}

/* A word of a message: a Start, a Stop, an address, a byte whole or cut short, the byte in ADD, which a low byte has to be, or
   a handler call. */
static size_t word_items(source *s, const program *p, uint8_t *items)
{
    static const uint8_t start[3] = {1, 3, 2}, stop[3] = {0, 2, 3};
    uint8_t pick = next(s);
    unsigned high = pick >> 7;

    switch (pick % 8) {
    case 0:
        memcpy(items, start, 3);
        return 3;
    case 1:
        memcpy(items, stop, 3);
        return 3;
    case 2:
        return byte_items(items, 0x30 + high, 1);
    case 3:
        (void)byte_items(items, 0x30 + high, 1);
        return 17; /* up to and with the eighth fall */
    case 4:
        return byte_items(items, next(s), high) * (next(s) % 20u) / 20;
    case 5:
        items[0] = HANDLER_CALL;
        return 1;
    case 7:
        return byte_items(items, pick & 0x40 ? p->image[ADD] : next(s), high);
    default:
        return byte_items(items, next(s), high);
    }
}

/* A trace of sense. */
static size_t messages(source *s, const program *p, uint8_t *items)
{
    size_t length = 0;
    unsigned words = next(s) % 16;

    while (words-- > 0)
        length += word_items(s, p, items + length);
    return length;
}

/* A trace or record from the bytes as they come, each below a limit unless it is meant to be bad. */
static size_t raw(source *s, uint8_t *items, unsigned limit)
{
    size_t length = next(s), i;

    for (i = 0; i < length; i++) {
        uint8_t item = next(s);

        items[i] = (uint8_t)(item < 248 ? item % limit : item < 252 ? limit : item);
    }
    return length;
}

/* The value for CON1: SSPEN 1 and a mode that can run, bit 0 for ten bits. A change of mode under way is now and then tried,
   else SSPEN is 0: the module is disabled with the other mode stored. */
static uint8_t con1_value(const program *p, uint8_t value)
{
    uint8_t running = (uint8_t)((value & 0xD9) | 0x26);

    if (write_refusal(p->image, CON1, running) == MODE_UNDER_WAY && value % 8 > 1)
        return (uint8_t)(running & 0xDF);
    return running;
}

/* A register access: mostly to a register that is there, with a value that is not refused. */
static void register_access(source *s, const program *p, step *made)
{
    static const uint8_t allowed[8] = {0xFF, 0xFF, 0xDF, 0xE1, 0xEF, 0xFF, 0xFF, 0xFF};
    uint8_t pick = next(s);

    made->number = (uint8_t)(pick < 224 ? pick % 8 : pick);
    made->value = next(s);
    if (pick < 192)
        made->value &= allowed[made->number];
    if (pick < 192 && made->number == CON1)
        made->value = con1_value(p, made->value);
}

/* A first byte worth asking about. */
static uint8_t first_byte(source *s, const program *p)
{
    unsigned pick = next(s) % HIT_BYTES;

    return hit_byte(p->image, pick, next(s));
}

/* The levels of a record, each so many times; what is no level of a trace, its handler calls, is left out. */
static size_t record_of(const uint8_t *trace, size_t length, unsigned times, uint8_t *record)
{
    size_t count = 0, i;
    unsigned again;

    for (i = 0; i < length; i++)
        for (again = 0; again < times && trace[i] != HANDLER_CALL; again++)
            record[count++] = trace[i];
    return count;
}

/* A drawing: of messages or of any levels, now and then with a bad one; the lanes mostly as many as the record has items. */
static void drawing(source *s, const program *p, step *made, uint8_t *bytes)
{
    uint8_t trace[LONGEST_LANES], pick = next(s), lent = next(s);

    if (pick % 4 == 0)
        made->bytes_length = raw(s, bytes, 4);
    else
        made->bytes_length = record_of(trace, messages(s, p, trace), 1 + pick / 64u, bytes);
    made->lanes_length = lent < 200 ? made->bytes_length : next(s);
}

/* Which function a byte chooses. */
static int kind_of(uint8_t pick)
{
    return pick >= FIRST_DRAW && pick <= LAST_DRAW ? STEP_DRAW : pick % STEP_DRAW;
}

/* The next call. */
static step next_step(source *s, const program *p, uint8_t *bytes)
{
    step made;
    uint64_t n = (uint64_t)(p->image[16] | p->image[17] << 8);

    memset(&made, 0, sizeof made);
    made.which = kind_of(next(s));
    made.state_length = state_length(s);
    made.bytes = bytes;
    if (made.which == STEP_SETUP)
        made.n = number(s, 1 + next(s) % 40u);
    if (made.which == STEP_CALL || made.which == STEP_RUN || made.which == STEP_DRAW)
        window(s, &made, n);
    if (made.which == STEP_RUN)
        made.bytes_length = next(s) % 4 == 0 ? raw(s, bytes, 5) : messages(s, p, bytes);
    if (made.which == STEP_FIND) {
        made.bytes_length = raw(s, bytes, 4);
        made.item = number(s, made.bytes_length == 0 ? 0 : next(s) % made.bytes_length);
    }
    if (made.which == STEP_READ || made.which == STEP_WRITE)
        register_access(s, p, &made);
    if (made.which == STEP_SETUP)
        made.value = next(s) < 200 ? 0x30 : next(s);
    if (made.which == STEP_SAMPLE)
        made.value = (uint8_t)number(s, next(s) % 4);
    if (made.which == STEP_HIT)
        made.value = first_byte(s, p);
    if (made.which == STEP_DRAW)
        drawing(s, p, &made, bytes);
    return made;
}

/* ---- Lending ---- */

/* Memory of exactly this length with these bytes, between guard bytes. */
static uint8_t *lend(const uint8_t *bytes, size_t length)
{
    uint8_t *whole = malloc(length + 2 * GUARD + (GUARD == 0 && length == 0));

    if (whole == NULL)
        exit(2);
    memset(whole, GUARD_BYTE, length + 2 * GUARD);
    if (length > 0)
        memcpy(whole + GUARD, bytes, length);
    return whole + GUARD;
}

/* Takes it back; the guard bytes have to be there still. */
static void take_back(uint8_t *lent, uint8_t *bytes, size_t length)
{
    uint8_t *whole = lent - GUARD;
    size_t i;

    for (i = GUARD; i > 0; i--)
        promise(whole[i - 1] == GUARD_BYTE && lent[length + i - 1] == GUARD_BYTE, "a byte outside the lent memory");
    if (bytes != NULL && length > 0)
        memcpy(bytes, lent, length);
    free(whole);
}

/* Makes a call with everything lent. */
static outcome make(program *p, const step *s)
{
    uint8_t *image = lend(p->image, s->state_length);
    uint8_t *buffer = lend(p->buffer, s->buffer_length);
    uint8_t *bytes = lend(s->bytes, s->bytes_length);
    size_t lanes_size = s->lanes_length * sizeof p->lanes[0];
    uint8_t *lanes = lanes_size == 0 ? NULL : lend((const uint8_t *)p->lanes, lanes_size);
    uint8_t before[LONGEST_IMAGE];
    step lent = *s;
    outcome o;

    memcpy(before, p->image, LONGEST_IMAGE);
    lent.bytes = bytes;
    lent.lanes = (uint64_t *)(void *)lanes;
    o = p->make(&lent, image, buffer);
    promise(s->bytes_length == 0 || memcmp(bytes, s->bytes, s->bytes_length) == 0, "trace and record are only read");
    take_back(image, p->image, s->state_length);
    take_back(buffer, p->buffer, s->buffer_length);
    take_back(bytes, NULL, s->bytes_length);
    if (lanes != NULL)
        take_back(lanes, (uint8_t *)p->lanes, lanes_size);
    if (p->make == second_step && o.refusal == 0 && s->which >= STEP_READ && s->which <= STEP_CALL)
        moments_count(reached, before, p->image);
    return o;
}

/* ---- Promises ---- */

/* Which refusals each function can have, a bit for each. */
static const unsigned refusals[STEPS] = {
    1u << 6 | 1u << 5, 1u << 6 | 1u << 1, 1u << 6 | 1u << 1 | 1u << 2 | 1u << 3 | 1u << 8 | 1u << 9, 1u << 6 | 1u << 4,
    1u << 6 | 1u << 5, 1u << 6 | 1u << 5 | 1u << 4, 1u << 6, 1u << 4 | 1u << 7, 1u << 6, 1u << 6 | 1u << 5 | 1u << 4
};

/* How many values each function can answer beside no refusal. */
static const unsigned values[STEPS] = {1, 256, 1, 1, 1, 1, 1, 1, HITS, 1};

/* The number of the first byte above a limit, or the length. */
static size_t first_above(const uint8_t *bytes, size_t length, unsigned limit)
{
    size_t i = 0;

    while (i < length && bytes[i] <= limit)
        i++;
    return i;
}

/* Whether a function changes a state, and whether it can store. */
static int changes(const step *s)
{
    return s->which < STEP_LOOK || s->which == STEP_DRAW;
}
static int stores(const step *s)
{
    return s->which == STEP_CALL || s->which == STEP_RUN || s->which == STEP_DRAW;
}

/* What an answer may say. */
static void check_answer(const step *s, const outcome *o)
{
    unsigned highest = s->which == STEP_RUN ? 4 : 3;
    size_t looked_at = s->which == STEP_DRAW ? step_count(s) : s->bytes_length;
    int named = o->refusal == 4 && s->which != STEP_SAMPLE;
    int i;

    promise(o->refusal <= HIGHEST_REFUSAL && (o->refusal == 0 || (refusals[s->which] >> o->refusal & 1)),
            "no refusal of this function");
    promise(o->value == 0 || (o->refusal == 0 && o->value < values[s->which]), "a value where there is none");
    if (named)
        promise(o->item < looked_at && o->item == first_above(s->bytes, looked_at, highest), "first bad item");
    else
        promise(o->item == 0, "an item where there is none");
    for (i = 0; i < SEEN && o->refusal != 0; i++)
        promise(o->seen[i] == 0, "fields after a refusal");
    if (s->state_length != IMAGE && s->which != STEP_FIND)
        promise(o->refusal == 6, "an image of another length is none");
}

/* A write to a state is refused exactly as the paper has it. */
static void check_write(const program *before, const step *s, const outcome *o)
{
    if (s->which == STEP_WRITE && o->refusal != 6)
        promise(o->refusal == write_refusal(before->image, s->number, s->value), "another refusal of a write");
}

/* Which address a first byte hits is by the registers of the state alone. */
static void check_hit(const program *before, const step *s, const outcome *o)
{
    if (s->which != STEP_HIT || o->refusal != 0)
        return;
    promise(o->value == hit_of(before->image, s->value), "another address hit");
    hits[o->value]++;
}

/* A refusal leaves all, a look, a find and a hit too; the handler leaves what is outside its window, a drawing the lanes behind
   its items. */
static void check_kept(const program *before, const program *after, const step *s, const outcome *o)
{
    size_t drawn = o->refusal == 0 && s->which == STEP_DRAW ? step_count(s) : 0, i;

    if (o->refusal != 0 || !changes(s))
        promise(memcmp(before->image, after->image, LONGEST_IMAGE) == 0, "a state that should have stayed");
    promise(memcmp(before->image + IMAGE, after->image + IMAGE, LONGEST_IMAGE - IMAGE) == 0, "bytes behind the state");
    for (i = 0; i < LONGEST_BUFFER; i++)
        if (o->refusal != 0 || !stores(s) || i < s->start || i >= s->start + s->n)
            promise(before->buffer[i] == after->buffer[i], "a buffer byte that should have stayed");
    promise(memcmp(before->lanes + drawn, after->lanes + drawn, (LONGEST_LANES - drawn) * sizeof after->lanes[0]) == 0,
            "a lane that should have stayed");
}

/* The part lies in the record; it has the item in it, or is empty at the item. */
static void check_part(const step *s, const outcome *o)
{
    uint64_t start = o->seen[0], length = o->seen[1];

    if (s->which != STEP_FIND || o->refusal != 0)
        return;
    promise(start <= s->bytes_length && length <= s->bytes_length - start, "a part outside the record");
    promise(length == 0 ? start == s->item : s->item >= start && s->item - start < length, "a part without the item");
}

/* A view shows what its image tells: the case of a slot, which byte a phase belongs to or what follows it, the full match; and
   UA exactly in the hold for ADD. */
static void check_view(const program *p, const outcome *view)
{
    int hold_for_add = p->image[IMAGE_PHASE] == HELD_ADD;

    if (view->seen[SEEN_PHASE] == SLOT)
        promise(slot_case((unsigned)view->seen[SEEN_SDA_PULLED], (unsigned)view->seen[SEEN_REFUSED]) == p->image[PART_AT],
                "another case of a slot");
    promise(view->seen[SEEN_WHICH] == (hold_for_add ? 0 : p->image[WHICH_AT]), "another byte");
    promise(view->seen[SEEN_NEXT] == (hold_for_add ? p->image[WHICH_AT] : 0), "another phase that follows");
    promise(view->seen[SEEN_FULL] == p->image[FULL_AT], "another full match");
    promise(view->seen[SEEN_STAT] == (p->image[STAT] | (hold_for_add ? UA : 0u)), "another STAT");
}

/* After a call that was made the state is a state. */
static void check_state(program *p, const step *s, const outcome *o)
{
    step look;
    outcome view;

    if (o->refusal != 0 || !changes(s))
        return;
    memset(&look, 0, sizeof look);
    look.which = STEP_LOOK;
    look.state_length = IMAGE;
    view = make(p, &look);
    promise(view.refusal == 0, "a state after a call that was made");
    check_view(p, &view);
}

/* A run is its items one by one. */
static void check_run(const program *before, const program *after, const step *s, const outcome *o)
{
    program single = *before;
    size_t i;

    if (s->which != STEP_RUN || o->refusal != 0)
        return;
    for (i = 0; i < s->bytes_length; i++) {
        step one = *s;

        one.which = s->bytes[i] == HANDLER_CALL ? STEP_CALL : STEP_SAMPLE;
        one.value = s->bytes[i];
        one.bytes_length = 0;
        promise(make(&single, &one).refusal == 0, "an item of a run by itself");
    }
    promise(memcmp(single.image, after->image, LONGEST_IMAGE) == 0, "the state after a run and after its items");
    promise(memcmp(single.buffer, after->buffer, LONGEST_BUFFER) == 0, "the buffer after a run and after its items");
}

/* Counts what the words of the second program show. */
static void count_words(const program *p, size_t count)
{
    size_t i;
    int place;

    for (i = 0; p->make == second_step && i < count; i++) {
        for (place = 0; place < HAPPENS; place++)
            happened[place] += (unsigned long)word_has(p->lanes[i], WORD_CALLED + place);
        calls_for_add += word_has(p->lanes[i], WORD_CALLED) && (p->lanes[i] >> WORD_PHASE & 0xF) == HELD_ADD;
    }
}

/* A drawing takes all that it can, and is its single calls one by one. */
static void check_draw(const program *before, const program *after, const step *s, const outcome *o)
{
    program single = *before;
    step singly = *s;
    size_t count = step_count(s);

    if (s->which != STEP_DRAW || o->refusal != 0)
        return;
    promise(o->seen[0] == count && o->seen[1] == count, "samples and items of a drawing");
    singly.which = STEP_SINGLY;
    (void)make(&single, &singly);
    promise(memcmp(single.lanes, after->lanes, count * sizeof single.lanes[0]) == 0, "the words of a drawing and of its calls");
    promise(memcmp(single.image, after->image, LONGEST_IMAGE) == 0, "the state after a drawing and after its calls");
    promise(memcmp(single.buffer, after->buffer, LONGEST_BUFFER) == 0, "the buffer after a drawing and after its calls");
    count_words(after, count);
}

/* A call on one program with everything that is promised of it. */
static outcome made_well(program *p, const step *s)
{
    program before = *p;
    outcome o = make(p, s);

    check_answer(s, &o);
    check_write(&before, s, &o);
    check_hit(&before, s, &o);
    check_kept(&before, p, s, &o);
    check_part(s, &o);
    check_state(p, s, &o);
    check_run(&before, p, s, &o);
    check_draw(&before, p, s, &o);
    return o;
}

/* ---- The target ---- */

/* Now and then the image is not what a call left: bits or bytes of it, or all of it, come from the input. */
static void disturb(source *s, program *p)
{
    uint8_t pick = next(s);
    size_t i;

    if (pick >= 250) {
        for (i = 0; i < IMAGE; i++)
            p->image[i] = next(s);
    } else if (pick >= 192) {
        uint8_t place = (uint8_t)(next(s) % 24), bits = next(s);

        p->image[place] = pick % 2 == 0 ? bits : (uint8_t)(p->image[place] ^ 1u << bits % 8);
    }
}

/* A program with a fresh state, a zero buffer and lanes without words. */
static void fresh(program *p, step_function *make_step)
{
    step setup;

    memset(p, 0, sizeof *p);
    memset(p->lanes, GUARD_BYTE, sizeof p->lanes);
    p->make = make_step;
    memset(&setup, 0, sizeof setup);
    setup.which = STEP_SETUP;
    setup.state_length = IMAGE;
    setup.value = 0x30;
    setup.n = 32;
    promise(made_well(p, &setup).refusal == 0, "setup");
}

/* One call on every program there is; they have to agree. */
static outcome made_by_all(program *first, program *other, const step *s)
{
    outcome o;
#ifdef FUZZ_ARCHIVE
    outcome beside;

    memcpy(other->image, first->image, LONGEST_IMAGE);
    beside = made_well(other, s);
    o = made_well(first, s);
    promise(memcmp(&o, &beside, sizeof o) == 0, "archive and second program answer the same");
    promise(memcmp(first->image, other->image, LONGEST_IMAGE) == 0, "archive and second program leave the same state");
    promise(memcmp(first->buffer, other->buffer, LONGEST_BUFFER) == 0, "archive and second program store the same");
    promise(memcmp(first->lanes, other->lanes, sizeof first->lanes) == 0, "archive and second program draw the same");
#else
    (void)other;
    o = made_well(first, s);
#endif
    return o;
}

/* Tells what has come of a word, inside a line; answers whether each has. */
static int words_reached(void)
{
    static const char *const names[HAPPENS] = {"called", "stored", "Start", "Stop", "conflict"};
    int i, all = calls_for_add > 0;

    printf("words");
    for (i = 0; i < HAPPENS; i++) {
        printf(" %s %lu", names[i], happened[i]);
        all = all && happened[i] > 0;
    }
    printf(" called in the hold for ADD %lu", calls_for_add);
    return all;
}

/* Tells the answers of hit, what has come of a word and the moments of tests/moments.h; answers whether each has come. */
int target_reached(void)
{
    int words;

    hits_tell(hits);
    printf("; ");
    words = words_reached();
    printf("; ");
    moments_tell(reached);
    return words && hits_all(hits) && moments_all(reached);
}

/* All calls of one input; an image that was no state is put back after the call that it was refused by. */
int LLVMFuzzerTestOneInput(const uint8_t *data, size_t size)
{
    static uint8_t bytes[LONGEST_BYTES];
    source s = {data, size};
    program first, other;

    fresh(&first, second_step);
#ifdef FUZZ_ARCHIVE
    fresh(&other, wherryoar_step);
#endif
    while (s.left > 0) {
        uint8_t good[LONGEST_IMAGE];
        step made;

        memcpy(good, first.image, LONGEST_IMAGE);
        disturb(&s, &first);
        made = next_step(&s, &first, bytes);
        if (made_by_all(&first, &other, &made).refusal == 6)
            memcpy(first.image, good, LONGEST_IMAGE);
    }
    return 0;
}
