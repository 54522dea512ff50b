/* Feeds one capture to the archive and to the second program, draws its wire, and measures both in one process; for
   bench/run.sh. */
#include "second.h"
#include "wherryoar.h"
#include "wire.h"

#include <stdio.h>
#include <stdlib.h>
#include <string.h>
#include <time.h>

enum { IMAGE = WHERRYOAR_STATE_LENGTH, CALL = CAPTURE_CALL, ADD = CAPTURE_ADD, N = CAPTURE_N, ROUNDS = 3, KINDS = 6 };

/* What is measured. */
enum { RUN, SECOND_RUN, SAMPLE, SECOND_SAMPLE, DRAW, SECOND_DRAW };
static const char *const names[KINDS] = {"wherryoar_run", "second_run", "wherryoar_sample", "second_sample", "wherryoar_draw",
                                         "second_draw"};

/* What a sample does: it moves something, or the wire is the one remembered and every byte stays (the short way). */
enum { MOVING, STILL, NEITHER, EFFECTS };
static const char *const effects[EFFECTS] = {"moving", "still", "neither"};

/* A sample by itself: the state before it, its level, and what it does. */
typedef struct {
    uint8_t before[IMAGE], level, effect;
} lone_sample;

/* The capture, and the state and memory that it is fed to. */
static capture fed;
static uint8_t image[IMAGE], memory[N];

/* The wire of the capture, and the lanes of a drawing and of the one before it. */
static uint8_t wire[CAPTURE_LONGEST];
static size_t wire_length;
static uint64_t lanes[CAPTURE_LONGEST], other_lanes[CAPTURE_LONGEST];

/* The samples of the capture by themselves, and how many have each effect. */
static lone_sample lone[CAPTURE_LONGEST];
static size_t lone_samples, with_effect[EFFECTS];

/* ---- Feeding ---- */

/* Makes the capture and its wire. */
static void make_capture(unsigned per_clock, size_t items)
{
    capture_make(&fed, per_clock, items);
    wire_length = wire_of(&fed, wire);
}

/* How many items a way has to feed: those of the capture, or for a drawing those of its wire, which has no handler calls. */
static size_t items_of(int kind)
{
    return kind == DRAW || kind == SECOND_DRAW ? wire_length : fed.length;
}

/* The whole capture to the archive, an item at a time. */
static uint32_t feed_samples(void)
{
    uint32_t refused = 0;
    size_t i;

    for (i = 0; i < fed.length; i++)
        refused |= fed.items[i] == CALL ? wherryoar_call(image, IMAGE, memory, N, 0, N).refusal
                                        : wherryoar_sample(image, IMAGE, fed.items[i]).refusal;
    return refused;
}

/* The whole capture to the second program, an item at a time. */
static uint32_t feed_second_samples(void)
{
    uint32_t refused = 0;
    size_t i;

    for (i = 0; i < fed.length; i++)
        refused |= fed.items[i] == CALL ? second_call(image, IMAGE, memory, N, 0, N).refusal
                                        : second_sample(image, IMAGE, fed.items[i]).refusal;
    return refused;
}

/* The whole capture, or its wire, from a fresh state and a zero memory, in one of the six ways. */
static int feed(int kind)
{
    uint32_t refused = wherryoar_setup(image, IMAGE, ADD, N).refusal;

    memset(memory, 0, N);
    if (kind == RUN)
        refused |= wherryoar_run(image, IMAGE, memory, N, 0, N, fed.items, fed.length).refusal;
    else if (kind == SECOND_RUN)
        refused |= second_run(image, IMAGE, memory, N, 0, N, fed.items, fed.length).refusal;
    else if (kind == SAMPLE)
        refused |= feed_samples();
    else if (kind == SECOND_SAMPLE)
        refused |= feed_second_samples();
    else if (kind == DRAW)
        refused |= wherryoar_draw(image, IMAGE, memory, N, 0, N, wire, wire_length, lanes, wire_length).refusal;
    else
        refused |= second_draw(image, IMAGE, memory, N, 0, N, wire, wire_length, lanes, wire_length).refusal;
    return refused == 0;
}

/* How many handler calls of the capture end a hold: all but the last of each pair of messages, after a byte that the master did
   not acknowledge. A drawing does not make that one, which clears SSPIF and no more. */
static size_t calls_in_holds(void)
{
    size_t calls = 0, i;

    for (i = 0; i < fed.length; i++)
        calls += fed.items[i] == CALL;
    return calls - fed.pairs;
}

/* Whether both draw the same words, with those calls and without a conflict: the wire is the one that the capture brings. */
static int drawn_the_same(void)
{
    size_t calls = 0, conflicts = 0, i;
    int same = wire_length > 0 && feed(DRAW);

    memcpy(other_lanes, lanes, wire_length * sizeof lanes[0]);
    same = feed(SECOND_DRAW) && same && memcmp(other_lanes, lanes, wire_length * sizeof lanes[0]) == 0;
    for (i = 0; i < wire_length; i++) {
        calls += (lanes[i] & WHERRYOAR_WORD_CALLED) != 0;
        conflicts += (lanes[i] & WHERRYOAR_WORD_CONFLICT) != 0;
    }
    return same && calls == calls_in_holds() && conflicts == 0;
}

/* Whether all six come to the same state, drawings but for SSPIF, and the same memory, and the memory was written. */
static int all_the_same(void)
{
    uint8_t first_image[IMAGE], first_memory[N];
    int kind, same = feed(RUN);

    memcpy(first_image, image, IMAGE);
    memcpy(first_memory, memory, N);
    for (kind = SECOND_RUN; kind < KINDS; kind++) {
        same = feed(kind) && same;
        if (kind == DRAW || kind == SECOND_DRAW)
            image[WHERRYOAR_FLAG] = first_image[WHERRYOAR_FLAG];
        same = same && memcmp(first_image, image, IMAGE) == 0 && memcmp(first_memory, memory, N) == 0;
    }
    memset(first_memory, 0, N);
    return same && memcmp(first_memory, memory, N) != 0 && drawn_the_same();
}

/* ---- Samples by themselves ---- */

/* Takes a sample with the state before it, as the second program has it. */
static uint32_t take_sample(uint8_t level)
{
    lone_sample *s = &lone[lone_samples++];
    uint32_t refused;

    memcpy(s->before, image, IMAGE);
    refused = second_sample(image, IMAGE, level).refusal;
    s->level = level;
    s->effect = memcmp(s->before, image, IMAGE) == 0 ? STILL : MOVING;
    with_effect[s->effect]++;
    return refused;
}

/* Takes every sample of the capture; a handler call between them is made and is none. */
static int take_samples(void)
{
    uint32_t refused = second_setup(image, IMAGE, ADD, N).refusal;
    size_t i;

    memset(memory, 0, N);
    for (i = 0; i < fed.length; i++)
        refused |= fed.items[i] == CALL ? second_call(image, IMAGE, memory, N, 0, N).refusal : take_sample(fed.items[i]);
    return refused == 0;
}

/* Lays the state before each sample, and feeds those that have one effect to the archive or to the second program. */
static int feed_lone(int kind, int effect)
{
    uint32_t refused = 0;
    size_t i;

    for (i = 0; i < lone_samples; i++) {
        memcpy(image, lone[i].before, IMAGE);
        if (lone[i].effect == effect)
            refused |= kind == SAMPLE ? wherryoar_sample(image, IMAGE, lone[i].level).refusal
                                      : second_sample(image, IMAGE, lone[i].level).refusal;
    }
    return refused == 0;
}

/* Whether both come to the same state with each sample, and there are samples of both effects. */
static int each_the_same(void)
{
    uint8_t other[IMAGE];
    uint32_t refused = 0;
    int same = 1;
    size_t i;

    for (i = 0; i < lone_samples; i++) {
        memcpy(image, lone[i].before, IMAGE);
        memcpy(other, lone[i].before, IMAGE);
        refused |= wherryoar_sample(image, IMAGE, lone[i].level).refusal;
        refused |= second_sample(other, IMAGE, lone[i].level).refusal;
        same = same && memcmp(image, other, IMAGE) == 0;
    }
    return same && refused == 0 && with_effect[MOVING] > 0 && with_effect[STILL] > 0;
}

/* ---- Measuring ---- */

/* Nanoseconds an item takes, the best of several rounds in which the six take turns. */
static void measure(double best[KINDS])
{
    int round, kind;

    for (kind = 0; kind < KINDS; kind++)
        best[kind] = 1e9;
    for (round = 0; round < ROUNDS; round++)
        for (kind = 0; kind < KINDS; kind++) {
            clock_t from = clock();
            double took;

            (void)feed(kind);
            took = (double)(clock() - from) * 1e9 / CLOCKS_PER_SEC / (double)items_of(kind);
            if (took < best[kind])
                best[kind] = took;
        }
}

/* A line of the table for each number of samples per clock: that number, the items, and run and sample; the items of the wire,
   and draw. */
static int time_all(void)
{
    static const unsigned per_clock[4] = {2, 4, 20, 100};
    double best[KINDS];
    int i;

    for (i = 0; i < 4; i++) {
        make_capture(per_clock[i], CAPTURE_TIMED);
        if (!all_the_same())
            return 1;
        measure(best);
        printf("%u %lu %.3f %.3f %.3f %.3f %lu %.3f %.3f\n", per_clock[i], (unsigned long)fed.length, best[RUN],
               best[SECOND_RUN], best[SAMPLE], best[SECOND_SAMPLE], (unsigned long)wire_length, best[DRAW], best[SECOND_DRAW]);
    }
    return 0;
}

/* The place of a name among so many; their number where it is none of them. */
static int place_of(const char *name, const char *const *among, int count)
{
    int i = 0;

    while (i < count && strcmp(among[i], name) != 0)
        i++;
    return i;
}

/* Feeds a short capture so many times, for a counter of instructions around this program; prints its items. */
static int feed_times(int kind, unsigned per_clock, unsigned times)
{
    int fine = 1;

    make_capture(per_clock, CAPTURE_COUNTED);
    while (times-- > 0)
        fine = feed(kind) && fine;
    printf("%lu\n", (unsigned long)items_of(kind));
    return fine ? 0 : 1;
}

/* Feeds the samples of that capture that have one effect, each by itself, for such a counter. */
static int feed_effect(int kind, unsigned per_clock, int effect)
{
    capture_make(&fed, per_clock, CAPTURE_COUNTED);
    return take_samples() && feed_lone(kind, effect) ? 0 : 1;
}

/* Prints how many samples of that capture move something and how many do not; fails where the two programs differ in one, or in
   the drawing of its wire. */
static int tell_effects(unsigned per_clock)
{
    if (per_clock < 2)
        return 2;
    make_capture(per_clock, CAPTURE_COUNTED);
    if (!take_samples() || !each_the_same() || !drawn_the_same())
        return 1;
    printf("%lu %lu\n", (unsigned long)with_effect[MOVING], (unsigned long)with_effect[STILL]);
    return 0;
}

/* Feeds as often as the number says, or the samples that have the effect named. */
static int feed_counted(const char *name, unsigned per_clock, const char *how)
{
    int kind = place_of(name, names, KINDS), effect = place_of(how, effects, EFFECTS);

    if (kind == KINDS || per_clock < 2)
        return 2;
    if (effect == EFFECTS)
        return feed_times(kind, per_clock, (unsigned)strtoul(how, NULL, 10));
    return kind == SAMPLE || kind == SECOND_SAMPLE ? feed_effect(kind, per_clock, effect) : 2;
}

/* Without arguments: times. Samples per clock alone: how many samples have each effect. A function's name, samples per clock
   and a number of times: the capture is fed that often; with an effect instead: its samples by themselves. */
int main(int argc, char **argv)
{
    if (argc == 1)
        return time_all();
    if (argc == 2)
        return tell_effects((unsigned)strtoul(argv[1], NULL, 10));
    return argc == 4 ? feed_counted(argv[1], (unsigned)strtoul(argv[2], NULL, 10), argv[3]) : 2;
}
