/* Prints the events of a wire record (a byte of 0 to 3 for each level): by the plain reader, or with -s as sigrok reads. */
#include "plain.h"

#include <stdio.h>
#include <string.h>

enum { SDA = 1, SCL = 2, HIGHEST_LEVEL = 3, NO_WIRE = 255 };

/* ---- The plain reader ---- */

/* The plain reader, and the items of the last eighth and ninth rise, which its state does not keep. */
typedef struct {
    plain_device device;
    unsigned long ninth_rise;
} listener;

/* One level: a line for a Start, a Stop or a ninth fall, with the item of the ninth rise in the last column. */
static void listen(listener *l, unsigned long item, uint8_t level)
{
    plain_reader before = l->device.reader;
    int brought = plain_level(&l->device, level);

    if (l->device.reader.rises == 9 && before.rises == 8)
        l->ninth_rise = item;
    if (brought == PLAIN_BYTE)
        printf("%lu %c %02X %u %lu\n", item, before.first ? 'A' : 'D', before.byte, before.answer, l->ninth_rise);
    else if (brought != PLAIN_NOTHING)
        printf("%lu %c -- - -\n", item, brought == PLAIN_START ? 'S' : 'P');
}

/* ---- As sigrok reads ---- */

/* What docs/SIGROK.md says of sigrok's reader: it looks for a Start, or for bits and conditions, or for rises alone. */
typedef struct {
    uint8_t wire;
    uint8_t looking; /* for a Start; nothing else counts */
    uint8_t first;   /* the byte under way is an address */
    uint8_t rises;   /* of the byte under way, 0 to 8; the ninth ends it */
    uint8_t byte;
} other;

/* A rise outside the search for a Start: a bit, or the acknowledge, which ends the byte at once. */
static void other_rise(other *o, unsigned long item, unsigned sda)
{
    if (o->rises < 8) {
        o->rises++;
        o->byte = (uint8_t)(o->byte << 1 | sda);
        if (o->rises == 8)
            printf("%lu %c %02X ? -\n", item, o->first ? 'A' : 'D', o->byte);
        return;
    }
    printf("%lu %c %02X %u -\n", item, o->first ? 'A' : 'D', o->byte, sda);
    o->rises = 0;
    o->byte = 0;
    o->first = 0;
}

/* A condition that counts. */
static void other_condition(other *o, unsigned long item, int is_start)
{
    printf("%lu %c -- - -\n", item, is_start ? 'S' : 'P');
    o->looking = (uint8_t)!is_start;
    o->first = (uint8_t)is_start;
    o->rises = 0;
    o->byte = 0;
}

/* One level. */
static void other_level(other *o, unsigned long item, uint8_t now)
{
    uint8_t before = o->wire;
    int rises = before != NO_WIRE && !(before & SCL) && (now & SCL);
    int falls_sda = before != NO_WIRE && (before & SDA) && !(now & SDA);
    int rises_sda = before != NO_WIRE && !(before & SDA) && (now & SDA);

    o->wire = now;
    if (o->looking) {
        if ((now & SCL) && falls_sda) /* also where SCL rises in the same sample */
            other_condition(o, item, 1);
    } else if (rises) {
        other_rise(o, item, now & SDA);
    } else if (!o->first && o->rises < 8 && (now & SCL) && (falls_sda || rises_sda)) {
        other_condition(o, item, falls_sda);
    }
}

/* ---- The record ---- */

/* Every level of a file; answers whether each was one. */
static int take_file(FILE *file, int as_sigrok)
{
    static listener l;
    static const uint8_t memory[1] = {0};
    other o = {NO_WIRE, 1, 0, 0, 0};
    unsigned long item = 0;
    int c;

    plain_setup(&l.device, 0, 1, memory);
    while ((c = getc(file)) != EOF) {
        if (c > HIGHEST_LEVEL) {
            fprintf(stderr, "wirebytes: level %d at item %lu\n", c, item);
            return 0;
        }
        if (as_sigrok)
            other_level(&o, item, (uint8_t)c);
        else
            listen(&l, item, (uint8_t)c);
        item++;
    }
    return !ferror(file);
}

/* wirebytes [-s] FILE */
int main(int argc, char **argv)
{
    int as_sigrok = argc == 3 && strcmp(argv[1], "-s") == 0;
    FILE *file = argc == 2 || as_sigrok ? fopen(argv[argc - 1], "rb") : NULL;
    int taken;

    if (file == NULL) {
        fprintf(stderr, "usage: wirebytes [-s] FILE, and the file must be there\n");
        return 2;
    }
    taken = take_file(file, as_sigrok);
    fclose(file);
    return taken && fflush(stdout) == 0 ? 0 : 1;
}
