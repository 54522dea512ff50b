/* Writes the wire of the bench's capture for sigrok, with what the module behind the door pulls. */
#include "wire.h"

#include <stdio.h>
#include <stdlib.h>

/* How long a capture is meant: the one that is counted, the one that is timed, or a single pair of messages. */
static size_t items_of(const char *which)
{
    if (strcmp(which, "counted") == 0)
        return CAPTURE_COUNTED;
    if (strcmp(which, "timed") == 0)
        return CAPTURE_TIMED;
    return strcmp(which, "pair") == 0 ? 1 : 0;
}

/* The arguments: counted, timed or pair, samples per clock, and a file. Prints the capture's items and pairs of messages. */
int main(int argc, char **argv)
{
    static capture c;
    static uint8_t levels[CAPTURE_LONGEST];
    size_t items = argc == 4 ? items_of(argv[1]) : 0, length;
    unsigned per_clock = argc == 4 ? (unsigned)strtoul(argv[2], NULL, 10) : 0;
    FILE *file = items == 0 || per_clock < 2 ? NULL : fopen(argv[3], "wb");
    int fine;

    if (file == NULL)
        return 2;
    capture_make(&c, per_clock, items);
    length = wire_of(&c, levels);
    fine = length > 0 && fwrite(levels, 1, length, file) == length;
    fine = fclose(file) == 0 && fine;
    printf("%lu %u\n", (unsigned long)c.length, c.pairs);
    return fine ? 0 : 1;
}
