/* Feeds stored inputs to a fuzz target, and mixtures of them at random, where the fuzzer itself is not at hand. The stored
   inputs alone have to come to all that the target wants reached. */
#include "target.h"

#include <stdio.h>
#include <stdlib.h>
#include <string.h>

enum { LONGEST = 1 << 12, INPUTS = 4096 };

/* The stored inputs. */
typedef struct {
    uint8_t *data[INPUTS];
    size_t length[INPUTS];
    size_t count;
} corpus;

static uint64_t seed = 20240229u;

/* The next random number below a limit. */
static size_t below(size_t limit)
{
    seed ^= seed >> 12;
    seed ^= seed << 25;
    seed ^= seed >> 27;
    return (size_t)((seed * 2685821657736338717u) >> 33) % limit;
}

/* Reads one input; answers whether it could be read. */
static int take_file(corpus *c, const char *name)
{
    FILE *file = fopen(name, "rb");
    uint8_t *data = malloc(LONGEST);

    if (file == NULL || data == NULL || c->count == INPUTS) {
        fprintf(stderr, "%s cannot be taken\n", name);
        return 0;
    }
    c->length[c->count] = fread(data, 1, LONGEST, file);
    c->data[c->count++] = data;
    fclose(file);
    return 1;
}

/* The first part of one input, the last part of another, and a few bytes changed. */
static size_t mix(const corpus *c, uint8_t *mixed)
{
    size_t a = below(c->count), b = below(c->count);
    size_t head = below(c->length[a] + 1), tail = below(c->length[b] + 1);
    size_t length = head + tail, changes = below(5);

    memcpy(mixed, c->data[a], head);
    memcpy(mixed + head, c->data[b] + c->length[b] - tail, tail);
    while (length > 0 && changes-- > 0)
        mixed[below(length)] = (uint8_t)below(256);
    return length;
}

/* corpus_main ROUNDS FILE..: each file as it is, then so many mixtures. */
int main(int argc, char **argv)
{
    static corpus c;
    static uint8_t mixed[2 * LONGEST];
    unsigned long rounds = argc > 1 ? strtoul(argv[1], NULL, 10) : 0, round;
    size_t i;
    int file, all;

    for (file = 2; file < argc; file++)
        if (!take_file(&c, argv[file]))
            return 1;
    for (i = 0; i < c.count; i++)
        (void)LLVMFuzzerTestOneInput(c.data[i], c.length[i]);
    printf("stored inputs: ");
    all = target_reached();
    for (round = 0; round < rounds && c.count > 0; round++) {
        size_t length = mix(&c, mixed);

        (void)LLVMFuzzerTestOneInput(mixed, length);
    }
    printf("with mixtures: ");
    (void)target_reached();
    printf("inputs %lu mixtures %lu\n", (unsigned long)c.count, rounds);
    for (i = 0; i < c.count; i++)
        free(c.data[i]);
    return c.count > 0 && all ? 0 : 1;
}
