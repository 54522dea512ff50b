/* What the hosts in this folder share: the items of a capture, and the rows of a picture in text, a character for each item. */
#ifndef ROWS_H
#define ROWS_H

#include "wherryoar.h"

#include <stdio.h>
#include <string.h>

enum { SDA = 1, SCL = 2 }; /* of a level */
enum { P = 0x10 };         /* of STAT */
enum { SSPIF = 1 };        /* of the flag */
enum { WIDTH = 80 };       /* items in a piece of the picture */

/* The next item of a capture: a digit 0 to 3, or h; spaces and newlines are skipped. EOF at its end, 0 where it is no item. */
static int next_item(FILE *file)
{
    int c = getc(file);

    while (c == ' ' || c == '\n')
        c = getc(file);
    return c == EOF || c == 'h' || (c >= '0' && c <= '3') ? c : 0;
}

/* A row of the picture, from one item up to another. */
typedef struct {
    size_t from, to;
    char text[WIDTH + 1];
} row;

/* The blank row of the piece that begins at an item. */
static row blank_row(size_t from, size_t length)
{
    row r;

    r.from = from;
    r.to = length - from < WIDTH ? length : from + WIDTH;
    memset(r.text, ' ', WIDTH);
    r.text[WIDTH] = '\0';
    return r;
}

/* Prints a row under its name, without blanks at its end. */
static void print_row(const char *name, row *r)
{
    size_t length = r->to - r->from;

    while (length > 0 && r->text[length - 1] == ' ')
        length--;
    r->text[length] = '\0';
    printf("%-*s%s\n", length > 0 ? 10 : 0, name, r->text);
}

/* Writes as much of a label as fits between two items. */
static void write_label(row *r, size_t item, size_t end, const char *label)
{
    for (; item < end && item < r->to && *label != '\0'; item++)
        r->text[item - r->from] = *label++;
}

/* A stretch of a lane: a bar where it begins, then its label; one that began in an earlier piece has its label alone. */
static void write_stretch(row *r, size_t item, size_t end, int begins, const char *label)
{
    if (begins)
        r->text[item++ - r->from] = '|';
    write_label(r, item, end, label);
}

/* The number of every tenth item, and the items as they were written. */
static void draw_items(const char *driven, row r)
{
    row numbers = r;
    size_t i;
    char label[24];

    for (i = r.from; i < r.to; i++) {
        r.text[i - r.from] = driven[i];
        snprintf(label, sizeof label, "%lu", (unsigned long)i);
        if (i % 10 == 0 && strlen(label) <= r.to - i)
            write_label(&numbers, i, r.to, label);
    }
    print_row("item", &numbers);
    print_row("driven", &r);
}

/* Whether a Start was seen at an item: only a Start sets the mark. */
static int is_start(const wherryoar_view *seen, size_t item)
{
    return seen[item].mark && (item == 0 || !seen[item - 1].mark);
}

/* Whether a Stop was seen at an item: only a Stop sets P. */
static int is_stop(const wherryoar_view *seen, size_t item)
{
    return (seen[item].stat & P) && (item == 0 || !(seen[item - 1].stat & P));
}

/* SCL or SDA as the wire is: _ low, - high, the edges between them; on SDA a Start and a Stop by their letters. */
static void draw_line(const char *name, const wherryoar_view *seen, row r, unsigned line)
{
    size_t i;

    for (i = r.from; i < r.to; i++) {
        int now = (seen[i].wire & line) != 0;
        int before = i == 0 ? now : (seen[i - 1].wire & line) != 0;
        char sign = now ? '-' : '_';

        if (now != before)
            sign = now ? '/' : '\\';
        if (line == SDA && now != before && (is_start(seen, i) || is_stop(seen, i)))
            sign = now ? 'P' : 'S';
        r.text[i - r.from] = sign;
    }
    print_row(name, &r);
}

/* Two lanes that are on or off: the flag, and the clock held. */
static int is_flagged(const wherryoar_view *v)
{
    return v->flag & SSPIF;
}

static int is_held(const wherryoar_view *v)
{
    return v->scl_pulled;
}

/* A lane that is on or off. */
static void draw_bar(const char *name, const wherryoar_view *seen, row r, int (*is_on)(const wherryoar_view *))
{
    size_t i;

    for (i = r.from; i < r.to; i++)
        r.text[i - r.from] = is_on(&seen[i]) ? '#' : '.';
    print_row(name, &r);
}

#endif
