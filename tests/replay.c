/* Replays conformance cases through the door, step by step, again by whole stretches, and every row of samples again by a
   drawing; reports differences. */
#include "words.h"

#include <stdio.h>
#include <string.h>

enum { LINE = 4096, TEXT = 256, GUARD = 16, MEMORY = 256, BUFFER = GUARD + MEMORY + GUARD, STRETCH = 4096 };

enum { GUARD_BYTE = 0x5A, NO_WIRE = 255, HANDLER_CALL = 4, HIGHEST_REFUSAL = 9, DRAWN = 128 };

/* A state image with the buffer whose window it works on. */
typedef struct {
    uint8_t image[DOOR_IMAGE];
    uint8_t buffer[BUFFER];
} scene;

/* What a line of the cases says is seen; held and pulling are the two that only the phase's text tells. */
typedef struct {
    door_view view;
    int held;
    int pulling;
} sight;

/* A drawing as written: its levels, how many lanes it is lent, the words that it has to give, or the item that refuses it. */
typedef struct {
    uint8_t levels[DRAWN];
    size_t count;
    unsigned lanes;
    uint64_t words[DRAWN];
    size_t items;
    unsigned item;
} drawing;

/* One step as written: its letter, its numbers, and what follows it. */
typedef struct {
    char letter;
    unsigned number; /* level, or register */
    unsigned value;
    unsigned refusal;
    drawing draw;
    sight seen;
} step;

/* The replay as a whole. */
typedef struct {
    scene live;              /* goes step by step */
    uint8_t fresh[MEMORY];   /* the memory at the start of the case */
    scene before;            /* as live was when the stretch began */
    uint8_t trace[STRETCH];  /* the items of the stretch */
    size_t trace_length;
    scene before_row;        /* as live was when the row of samples began */
    uint8_t row[STRETCH];    /* their levels */
    uint64_t shown[STRETCH]; /* what the case says is seen after each, as a word has it */
    size_t row_length;
    unsigned n;
    unsigned long case_number, line_number;
    int open;   /* inside a case */
    int failed; /* the case has shown a difference, the rest of it is only parsed */
    unsigned long cases, steps, words, differences;
} replay;

/* ---- Reading a line: each takes its text off the front and answers whether it was there ---- */

/* This very text. */
static int word(const char **p, const char *text)
{
    size_t length = strlen(text);

    if (strncmp(*p, text, length) != 0)
        return 0;
    *p += length;
    return 1;
}

/* A decimal number of at most highest. */
static int decimal(const char **p, unsigned highest, unsigned *value)
{
    unsigned v = 0;
    int digits = 0;

    while (**p >= '0' && **p <= '9') {
        v = v * 10 + (unsigned)(**p - '0');
        if (v > highest)
            return 0;
        (*p)++;
        digits++;
    }
    *value = v;
    return digits > 0;
}

/* One hex digit, -1 if it is none. */
static int hex_digit(char c)
{
    if (c >= '0' && c <= '9')
        return c - '0';
    if (c >= 'A' && c <= 'F')
        return c - 'A' + 10;
    if (c >= 'a' && c <= 'f')
        return c - 'a' + 10;
    return -1;
}

/* A byte of two hex digits. */
static int hex(const char **p, unsigned *value)
{
    int high = hex_digit((*p)[0]);
    int low = high < 0 ? -1 : hex_digit((*p)[1]);

    if (low < 0)
        return 0;
    *value = (unsigned)(high * 16 + low);
    *p += 2;
    return 1;
}

/* A byte of two hex digits into a field. */
static int hex_field(const char **p, uint8_t *field)
{
    unsigned v;

    if (!hex(p, &v))
        return 0;
    *field = (uint8_t)v;
    return 1;
}

/* A decimal number into a byte-wide field. */
static int decimal_field(const char **p, unsigned highest, uint8_t *field)
{
    unsigned v;

    if (!decimal(p, highest, &v))
        return 0;
    *field = (uint8_t)v;
    return 1;
}

/* A driver letter or a dot. */
static int driver(const char **p, char letter, uint8_t *pulled)
{
    if (**p != letter && **p != '.')
        return 0;
    *pulled = **p == letter;
    (*p)++;
    return 1;
}

/* A 0 or a 1 that only the phase's text tells. */
static int yes_no(const char **p, int *value)
{
    unsigned v;

    if (!decimal(p, 1, &v))
        return 0;
    *value = (int)v;
    return 1;
}

/* The phases by their words, in the order of their numbers. */
static const char *const phase_words[DOOR_PHASES] = {
    "quiet", "address:", "data:", "before:", "slot:", "load", "send:", "answer", "update:"
};

/* The parts of a phase. */
static int parts(const char **p, sight *s)
{
    door_view *v = &s->view;

    switch (v->phase) {
    case DOOR_ADDRESS:
        return decimal_field(p, 8, &v->bits) && word(p, ":") && hex_field(p, &v->byte) && word(p, ":")
            && decimal_field(p, 3, &v->which);
    case DOOR_DATA:
        return decimal_field(p, 8, &v->bits) && word(p, ":") && hex_field(p, &v->byte) && word(p, ":")
            && yes_no(p, &s->held);
    case DOOR_HELD_BEFORE:
        return decimal_field(p, 1, &v->refused) && word(p, ":") && decimal_field(p, 3, &v->which);
    case DOOR_SLOT:
        return yes_no(p, &s->pulling) && word(p, ":") && decimal_field(p, 1, &v->refused) && word(p, ":")
            && decimal_field(p, 3, &v->which);
    case DOOR_SENDING:
        return hex_field(p, &v->byte) && word(p, ":") && decimal_field(p, 7, &v->bits);
    case DOOR_HELD_ADD:
        return decimal_field(p, 2, &v->next);
    default:
        return 1;
    }
}

/* The phase with its parts. */
static int phase(const char **p, sight *s)
{
    int i;

    for (i = 0; i < DOOR_PHASES; i++)
        if (word(p, phase_words[i])) {
            s->view.phase = (uint8_t)i;
            return parts(p, s);
        }
    return 0;
}

/* The remembered wire. */
static int wire(const char **p, uint8_t *field)
{
    if (word(p, "-")) {
        *field = NO_WIRE;
        return 1;
    }
    return decimal_field(p, 3, field);
}

/* The eight registers. */
static int registers(const char **p, door_view *v)
{
    return hex_field(p, &v->buf) && word(p, " ") && hex_field(p, &v->stat) && word(p, " ")
        && hex_field(p, &v->con1) && word(p, " ") && hex_field(p, &v->con2) && word(p, " ")
        && hex_field(p, &v->con3) && word(p, " ") && hex_field(p, &v->add) && word(p, " ")
        && hex_field(p, &v->msk) && word(p, " ") && hex_field(p, &v->flag);
}

/* All that is seen after a step, to the end of the line. */
static int seen(const char **p, unsigned n, sight *s)
{
    door_view *v = &s->view;
    unsigned pointer;

    memset(s, 0, sizeof *s);
    if (!(registers(p, v) && word(p, " ")))
        return 0;
    if (!(driver(p, 'C', &v->scl_pulled) && driver(p, 'D', &v->sda_pulled) && word(p, " ")))
        return 0;
    if (!(phase(p, s) && word(p, " ") && wire(p, &v->wire) && word(p, " ")))
        return 0;
    if (!(decimal_field(p, 1, &v->mark) && word(p, " ") && decimal_field(p, 1, &v->full) && word(p, " ")))
        return 0;
    if (!(decimal(p, 255, &pointer) && word(p, " ")))
        return 0;
    v->pointer = (uint16_t)pointer;
    v->n = (uint16_t)n;
    return decimal_field(p, 1, &v->due) && **p == '\0';
}

/* A word of 16 hex digits. */
static int hex_word(const char **p, uint64_t *value)
{
    unsigned byte, i;

    for (i = 0; i < 8; i++) {
        if (!hex(p, &byte))
            return 0;
        *value = *value << 8 | byte;
    }
    return 1;
}

/* Levels with commas between them, - where there is none. */
static int level_list(const char **p, drawing *d)
{
    unsigned level;

    if (word(p, "-"))
        return 1;
    do {
        if (d->count == DRAWN || !decimal(p, 255, &level))
            return 0;
        d->levels[d->count++] = (uint8_t)level;
    } while (word(p, ","));
    return 1;
}

/* Words with commas between them, to the end of the step; there may be none. */
static int word_list(const char **p, drawing *d)
{
    if (strncmp(*p, " > ", 3) == 0)
        return 1;
    if (!word(p, " "))
        return 0;
    do {
        if (d->items == DRAWN || !hex_word(p, &d->words[d->items++]))
            return 0;
    } while (word(p, ","));
    return 1;
}

/* The part of a step before its " > ". */
static int action(const char **p, step *s)
{
    s->letter = **p;
    if (word(p, "s "))
        return decimal(p, 255, &s->number);
    if (word(p, "w "))
        return decimal(p, 255, &s->number) && word(p, " ") && hex(p, &s->value);
    if (word(p, "d "))
        return level_list(p, &s->draw) && word(p, " ") && decimal(p, DRAWN, &s->draw.lanes) && word_list(p, &s->draw);
    if (!word(p, "r "))
        return word(p, "h");
    if (!decimal(p, 255, &s->number))
        return 0;
    return strncmp(*p, " > refused", 10) == 0 || (word(p, " ") && hex(p, &s->value));
}

/* A whole step. */
static int parse_step(const char *p, unsigned n, step *s)
{
    memset(s, 0, sizeof *s);
    if (!action(&p, s) || !word(&p, " > "))
        return 0;
    if (word(&p, "refused ")) {
        if (!decimal(&p, HIGHEST_REFUSAL, &s->refusal) || s->refusal == 0)
            return 0;
        if (s->letter == 'd' && word(&p, " at ") && !decimal(&p, DRAWN, &s->draw.item))
            return 0;
        return *p == '\0';
    }
    return seen(&p, n, &s->seen);
}

/* The memory's first bytes, at least one, to the end of the line; they repeat until n are there. */
static int memory(const char *p, unsigned n, uint8_t *bytes)
{
    unsigned given = 0, i;
    uint8_t byte;

    while (*p != '\0') {
        if (!hex_field(&p, &byte))
            return 0;
        if (given < n)
            bytes[given] = byte;
        given++;
    }
    for (i = given; given > 0 && i < n; i++)
        bytes[i] = bytes[i - given];
    return given > 0;
}

/* The places whose byte is another than at the start, each with that byte, to the end of the line; - where there is none. */
static int changed(const char *p, unsigned n, uint8_t *bytes)
{
    unsigned place, value;

    if (word(&p, "-"))
        return *p == '\0';
    do {
        if (!decimal(&p, n - 1, &place) || !word(&p, ":") || !hex(&p, &value) || bytes[place] == value)
            return 0;
        bytes[place] = (uint8_t)value;
    } while (word(&p, " "));
    return *p == '\0';
}

/* ---- Reporting ---- */

/* A sight as text, every field of it. */
static void render(const sight *s, char *text)
{
    const door_view *v = &s->view;

    snprintf(text, TEXT,
            "%02X %02X %02X %02X %02X %02X %02X %02X %c%c phase %u bits %u byte %02X refused %u"
            " held %d pulling %d which %u next %u wire %u mark %u full %u pointer %u due %u n %u refusal %lu",
            v->buf, v->stat, v->con1, v->con2, v->con3, v->add, v->msk, v->flag,
            v->scl_pulled == 0 ? '.' : v->scl_pulled == 1 ? 'C' : '?',
            v->sda_pulled == 0 ? '.' : v->sda_pulled == 1 ? 'D' : '?',
            v->phase, v->bits, v->byte, v->refused, s->held, s->pulling, v->which, v->next,
            v->wire, v->mark, v->full, v->pointer, v->due, v->n, (unsigned long)v->refusal);
}

/* Tells the first difference of a case; the rest of the case is then passed over. */
static void differ(replay *r, const char *what, const char *wanted, const char *got)
{
    printf("case %lu line %lu: %s\n  wanted %s\n  got    %s\n", r->case_number, r->line_number, what, wanted, got);
    r->differences++;
    r->failed = 1;
}

/* Compares what a state shows with what should be seen. */
static void compare_sight(replay *r, const char *what, const sight *wanted)
{
    sight got;
    char wanted_text[TEXT], got_text[TEXT];

    got.view = door.look(r->live.image, DOOR_IMAGE);
    got.held = got.view.phase == DOOR_DATA && got.view.scl_pulled;
    got.pulling = got.view.phase == DOOR_SLOT && got.view.sda_pulled;
    render(wanted, wanted_text);
    render(&got, got_text);
    if (strcmp(wanted_text, got_text) != 0)
        differ(r, what, wanted_text, got_text);
}

/* Compares an answer with the refusal and value it should have; item is 0 in all that a case can hold. */
static void compare_answer(replay *r, const char *what, door_answer a, unsigned refusal, unsigned value)
{
    char wanted[TEXT], got[TEXT];

    snprintf(wanted, TEXT, "refusal %u value %02X item 0", refusal, value);
    snprintf(got, TEXT, "refusal %lu value %02lX item %lu",
            (unsigned long)a.refusal, (unsigned long)a.value, (unsigned long)a.item);
    if (strcmp(wanted, got) != 0)
        differ(r, what, wanted, got);
}

/* Compares two runs of bytes and tells the first place where they differ. */
static void compare_bytes(replay *r, const char *what, const uint8_t *wanted, const uint8_t *got, size_t length)
{
    char wanted_text[TEXT], got_text[TEXT];
    size_t i = 0;

    while (i < length && wanted[i] == got[i])
        i++;
    if (i == length)
        return;
    snprintf(wanted_text, TEXT, "byte %lu is %02X", (unsigned long)i, wanted[i]);
    snprintf(got_text, TEXT, "byte %lu is %02X", (unsigned long)i, got[i]);
    differ(r, what, wanted_text, got_text);
}

/* Compares how far a drawing went with how far it should have gone. */
static void compare_taken(replay *r, const char *what, door_taken t, unsigned refusal, uint64_t item, uint64_t count)
{
    char wanted[TEXT], got[TEXT];

    if (t.refusal == refusal && t.item == item && t.samples == count && t.items == count)
        return;
    snprintf(wanted, TEXT, "refusal %u item %lu samples %lu items %lu", refusal, (unsigned long)item, (unsigned long)count,
             (unsigned long)count);
    snprintf(got, TEXT, "refusal %lu item %lu samples %lu items %lu", (unsigned long)t.refusal, (unsigned long)t.item,
             (unsigned long)t.samples, (unsigned long)t.items);
    differ(r, what, wanted, got);
}

/* Compares a word, or what it has of a state. */
static void compare_word(replay *r, const char *what, size_t place, uint64_t wanted, uint64_t got)
{
    char wanted_text[TEXT], got_text[TEXT];

    if (wanted == got)
        return;
    snprintf(wanted_text, TEXT, "word %lu is %016llX", (unsigned long)place, (unsigned long long)wanted);
    snprintf(got_text, TEXT, "word %lu is %016llX", (unsigned long)place, (unsigned long long)got);
    differ(r, what, wanted_text, got_text);
}

/* ---- Replaying ---- */

/* Whether the case goes on being compared. */
static int going(const replay *r)
{
    return r->open && !r->failed;
}

/* A scene that a drawing is made on. */
static word_scene drawn_on(const replay *r, scene *s)
{
    word_scene w = {s->image, s->buffer, BUFFER, GUARD, r->n};

    return w;
}

/* A row of samples once more by a drawing, from where it began. Its words are those of the single calls. A case says nothing of
   the calls that a drawing makes by itself: up to the first of them the words have what the case says, and where there is none
   the state is that of the case. */
static void draw_row(replay *r)
{
    static uint64_t lanes[STRETCH];
    scene drawn = r->before_row, single = r->before_row;
    word_scene d = drawn_on(r, &drawn), s = drawn_on(r, &single);
    door_taken t = word_draw(&d, r->row, r->row_length, lanes, r->row_length);
    int called = 0;
    size_t i;

    compare_taken(r, "answer of the drawing up to here", t, 0, 0, r->row_length);
    for (i = 0; going(r) && i < r->row_length; i++) {
        compare_word(r, "drawing up to here, beside single calls", i, word_singly(&s, r->row[i]), lanes[i]);
        called = called || word_has(lanes[i], WORD_CALLED);
        r->words += !called;
        if (going(r) && !called)
            compare_word(r, "drawing up to here, beside the case", i, r->shown[i], word_state(lanes[i]));
    }
    if (going(r))
        compare_bytes(r, "image after the drawing", called ? single.image : r->live.image, drawn.image, DOOR_IMAGE);
    if (going(r))
        compare_bytes(r, "buffer after the drawing", called ? single.buffer : r->live.buffer, drawn.buffer, BUFFER);
}

/* Ends a row of samples. */
static void end_row(replay *r)
{
    if (going(r) && r->row_length > 0)
        draw_row(r);
    r->row_length = 0;
}

/* Puts a sample into the row, with the scene before it and what is seen after it. */
static void add_sample(replay *r, const scene *before, const step *s)
{
    if (r->row_length == 0)
        r->before_row = *before;
    r->row[r->row_length] = (uint8_t)s->number;
    r->shown[r->row_length++] = word_of_view(&s->seen.view);
    if (r->row_length == STRETCH)
        end_row(r);
}

/* Ends a stretch: its items once more by one run, from where it began; then a new stretch begins. */
static void end_stretch(replay *r)
{
    if (going(r) && r->trace_length > 0) {
        door_answer a = door.run(r->before.image, DOOR_IMAGE, r->before.buffer, BUFFER, GUARD, r->n,
                                 r->trace, r->trace_length);

        compare_answer(r, "answer of the run up to here", a, 0, 0);
        if (going(r))
            compare_bytes(r, "image after the run up to here", r->live.image, r->before.image, DOOR_IMAGE);
        if (going(r))
            compare_bytes(r, "buffer after the run up to here", r->live.buffer, r->before.buffer, BUFFER);
    }
    r->trace_length = 0;
    r->before = r->live;
}

/* Puts an item into the stretch. */
static void add_item(replay *r, uint8_t item)
{
    r->trace[r->trace_length++] = item;
    if (r->trace_length == STRETCH)
        end_stretch(r);
}

/* Makes the step on the live state. */
static door_answer make_step(replay *r, const step *s)
{
    scene *l = &r->live;

    if (s->letter == 's')
        return door.sample(l->image, DOOR_IMAGE, (uint8_t)s->number);
    if (s->letter == 'w')
        return door.write(l->image, DOOR_IMAGE, (uint8_t)s->number, (uint8_t)s->value);
    if (s->letter == 'r')
        return door.read(l->image, DOOR_IMAGE, (uint8_t)s->number);
    return door.call(l->image, DOOR_IMAGE, l->buffer, BUFFER, GUARD, r->n);
}

/* Makes a drawing of a case on the live state and compares how far it went, its words and the lanes behind them. */
static void make_drawing(replay *r, const drawing *d, unsigned refusal, const char *line)
{
    uint64_t lanes[DRAWN];
    word_scene s = drawn_on(r, &r->live);
    size_t i;

    memset(lanes, GUARD_BYTE, sizeof lanes);
    compare_taken(r, line, word_draw(&s, d->levels, d->count, lanes, d->lanes), refusal, d->item, d->items);
    for (i = 0; going(r) && i < DRAWN; i++)
        compare_word(r, line, i, i < d->items ? d->words[i] : UINT64_MAX / 255 * GUARD_BYTE, lanes[i]);
}

/* Makes one step on the live state and compares its answer. */
static void answer_step(replay *r, const step *s, const char *line)
{
    if (s->letter == 'd')
        make_drawing(r, &s->draw, s->refusal, line);
    else
        compare_answer(r, line, make_step(r, s), s->refusal, s->refusal == 0 && s->letter == 'r' ? s->value : 0);
}

/* Replays one step and compares its answer and all that is seen after it. */
static void replay_step(replay *r, const step *s, const char *line)
{
    int sample = s->refusal == 0 && s->letter == 's', in_stretch = sample || (s->refusal == 0 && s->letter == 'h');
    int may_store = s->refusal == 0 && (s->letter == 'h' || s->letter == 'd');
    scene old;

    if (!sample)
        end_row(r);
    if (!in_stretch)
        end_stretch(r);
    if (!going(r))
        return;
    r->steps++;
    old = r->live;
    answer_step(r, s, line);
    if (going(r) && s->refusal != 0)
        compare_bytes(r, "image after a refusal", old.image, r->live.image, DOOR_IMAGE);
    if (going(r) && s->refusal == 0)
        compare_sight(r, line, &s->seen);
    if (going(r) && !may_store)
        compare_bytes(r, "buffer after a step that stores nothing", old.buffer, r->live.buffer, BUFFER);
    if (sample)
        add_sample(r, &old, s);
    if (in_stretch)
        add_item(r, (uint8_t)(s->letter == 'h' ? (unsigned)HANDLER_CALL : s->number));
    else
        r->before = r->live;
}

/* What setup has to give. */
static void fresh(unsigned add, unsigned n, sight *s)
{
    memset(s, 0, sizeof *s);
    s->view.con1 = 0x36;
    s->view.con2 = 0x01;
    s->view.add = (uint8_t)add;
    s->view.msk = 0xFF;
    s->view.wire = NO_WIRE;
    s->view.n = (uint16_t)n;
}

/* A case line: setup afresh, the memory in a window with guard bytes around it. */
static int begin_case(replay *r, const char *p)
{
    unsigned number, add, n;
    sight wanted;

    if (r->open || !word(&p, "case ") || !decimal(&p, 100000000, &number) || !word(&p, " add ") || !hex(&p, &add)
        || !word(&p, " n ") || !decimal(&p, MEMORY, &n) || n == 0 || !word(&p, " mem "))
        return 0;
    memset(r->live.buffer, GUARD_BYTE, BUFFER);
    memset(r->live.image, GUARD_BYTE, DOOR_IMAGE);
    if (!memory(p, n, r->fresh))
        return 0;
    memcpy(r->live.buffer + GUARD, r->fresh, n);
    r->open = 1;
    r->failed = 0;
    r->n = n;
    r->case_number = number;
    r->cases++;
    compare_answer(r, "setup", door.setup(r->live.image, DOOR_IMAGE, (uint8_t)add, n), 0, 0);
    fresh(add, n, &wanted);
    if (going(r))
        compare_sight(r, "after setup", &wanted);
    r->trace_length = 0;
    r->row_length = 0;
    r->before = r->live;
    return 1;
}

/* The line that ends a case: the last row and stretch, then memory and guard bytes. */
static int end_case(replay *r, const char *p)
{
    uint8_t wanted[BUFFER];

    if (!r->open || !word(&p, "end changed "))
        return 0;
    memset(wanted, GUARD_BYTE, BUFFER);
    memcpy(wanted + GUARD, r->fresh, r->n);
    if (!changed(p, r->n, wanted + GUARD))
        return 0;
    end_row(r);
    end_stretch(r);
    if (going(r))
        compare_bytes(r, "buffer at the end (16 guard bytes, the memory, guard bytes)",
                      wanted, r->live.buffer, BUFFER);
    r->open = 0;
    return 1;
}

/* One line; answers whether it could be parsed. */
static int take_line(replay *r, const char *line)
{
    step s;

    if (line[0] == '#' || line[0] == '\0')
        return 1;
    if (line[0] == 'c')
        return begin_case(r, line);
    if (line[0] == 'e')
        return end_case(r, line);
    if (!r->open || !parse_step(line, r->n, &s))
        return 0;
    replay_step(r, &s, line);
    return 1;
}

/* All lines of a file; answers whether each could be parsed and the last case was ended. */
static int take_file(replay *r, FILE *file)
{
    static char line[LINE];

    while (fgets(line, LINE, file) != NULL) {
        size_t length = strlen(line);

        r->line_number++;
        if (length == LINE - 1 && line[length - 1] != '\n') {
            printf("line %lu is too long\n", r->line_number);
            return 0;
        }
        while (length > 0 && (line[length - 1] == '\n' || line[length - 1] == '\r'))
            line[--length] = '\0';
        if (!take_line(r, line)) {
            printf("line %lu cannot be parsed: %s\n", r->line_number, line);
            return 0;
        }
    }
    if (ferror(file) || r->open) {
        printf("line %lu: the file ends inside a case or cannot be read\n", r->line_number);
        return 0;
    }
    return 1;
}

/* Replays the files named, or standard input. */
int main(int argc, char **argv)
{
    static replay r;
    int parsed = 1, i;

    if (argc < 2)
        parsed = take_file(&r, stdin);
    for (i = 1; parsed && i < argc; i++) {
        FILE *file = fopen(argv[i], "r");

        if (file == NULL) {
            printf("%s cannot be opened\n", argv[i]);
            parsed = 0;
            break;
        }
        r.line_number = 0;
        parsed = take_file(&r, file);
        fclose(file);
    }
    printf("cases %lu steps %lu words of drawings %lu differences %lu\n", r.cases, r.steps, r.words, r.differences);
    return parsed && r.cases > 0 && r.differences == 0 ? 0 : 1;
}
