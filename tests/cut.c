/* Cuts wire records at every item: from the first Start that the cut part shows, it is read as the whole record is. */
#include "plain.h"

#include <stddef.h>
#include <stdio.h>
#include <stdlib.h>
#include <string.h>

enum { LONGEST = 1 << 20, FOLLOWED = 2500, HIGHEST_LEVEL = 3 };

/* A record, what each item brought to the reader of the whole and where that reader then was, and the counts. */
typedef struct {
    uint8_t levels[LONGEST];
    uint8_t brought[LONGEST];
    plain_reader places[LONGEST];
    size_t length;
    unsigned long cuts, with_start, compared, differences;
} bench;

/* A reader with nothing heard yet; the device behind it has no part in this. */
static void fresh(plain_device *d)
{
    static const uint8_t memory[1] = {0};

    plain_setup(d, 0, 1, memory);
}

/* Whether the two readers are at the same place; SDA at a ninth rise counts from that rise on. */
static int same_place(const plain_reader *a, const plain_reader *b)
{
    return memcmp(a, b, offsetof(plain_reader, answer)) == 0 && (a->rises < 9 || a->answer == b->answer);
}

/* Tells the first difference. */
static void differ(bench *b, size_t cut, size_t item, const char *what)
{
    if (b->differences++ == 0)
        printf("cut at %lu: at item %lu %s\n", (unsigned long)cut, (unsigned long)item, what);
}

/* The items of a part up to its first Start, which bring no byte; answers the item of that Start, or the length. */
static size_t first_start(bench *b, plain_device *part, size_t cut)
{
    size_t item;

    for (item = cut; item < b->length; item++) {
        int brought = plain_level(part, b->levels[item]);

        if (brought == PLAIN_START)
            return item;
        if (brought == PLAIN_BYTE)
            differ(b, cut, item, "there is a byte before the first Start");
    }
    return b->length;
}

/* The part from one item on, beside the whole. From its first Start on the places agree, after it the events too: the byte
   and the answer that a ninth fall brings are those of the place before it. It is followed to the end of the record, or for
   a while and until nothing in the two readers differs: what they do afterwards is then the same computation. */
static void compare_part(bench *b, size_t cut)
{
    plain_device part;
    size_t item, start;

    fresh(&part);
    start = first_start(b, &part, cut);
    b->cuts++;
    if (start == b->length)
        return;
    b->with_start++;
    if (!same_place(&part.reader, &b->places[start]))
        differ(b, cut, start, "the readers are not at the same place");
    for (item = start + 1; item < b->length; item++) {
        if (item - start > FOLLOWED && memcmp(&part.reader, &b->places[item - 1], sizeof part.reader) == 0)
            return;
        if (plain_level(&part, b->levels[item]) != b->brought[item])
            differ(b, cut, item, "the events differ");
        if (!same_place(&part.reader, &b->places[item]))
            differ(b, cut, item, "the readers are not at the same place");
        b->compared++;
    }
}

/* Reads a record; answers whether it is one. */
static int take_record(bench *b, const char *name)
{
    FILE *file = fopen(name, "rb");
    size_t i;

    if (file == NULL)
        return 0;
    b->length = fread(b->levels, 1, LONGEST, file);
    fclose(file);
    for (i = 0; i < b->length; i++)
        if (b->levels[i] > HIGHEST_LEVEL)
            return 0;
    return b->length > 0 && b->length < LONGEST;
}

/* A record cut at every item. */
static void cut_record(bench *b)
{
    plain_device whole;
    size_t item;

    fresh(&whole);
    for (item = 0; item < b->length; item++) {
        b->brought[item] = (uint8_t)plain_level(&whole, b->levels[item]);
        b->places[item] = whole.reader;
    }
    for (item = 0; item < b->length; item++)
        compare_part(b, item);
}

/* The records named. */
int main(int argc, char **argv)
{
    static bench b;
    int i;

    for (i = 1; i < argc; i++) {
        if (!take_record(&b, argv[i])) {
            printf("%s is no wire record\n", argv[i]);
            return 1;
        }
        cut_record(&b);
    }
    printf("records %d cuts %lu with a Start %lu items compared %lu differences %lu\n",
           argc - 1, b.cuts, b.with_start, b.compared, b.differences);
    return b.with_start > 0 && b.differences == 0 ? 0 : 1;
}
