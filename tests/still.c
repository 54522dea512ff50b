/* Holds that a sample on the short way, and a refused one, writes nothing: the state lies in memory that may only be read. The
   states are those of generated traffic, and the same mangled; the second program says which levels leave every byte. */
#define _DEFAULT_SOURCE /* for mmap and fork */
#include "door.h"
#include "second.h"
#include "slots.h"
#include "traffic.h"

#include <signal.h>
#include <stdio.h>
#include <stdlib.h>
#include <string.h>
#include <sys/mman.h>
#include <sys/resource.h>
#include <sys/wait.h>
#include <unistd.h>

enum { IMAGE = DOOR_IMAGE, MEMORY = 256, BUF = 0, CON1 = 2, CON2 = 3, CON3 = 4, ADD = 5, SSPEN = 0x20, CKP = 0x10 };

enum { PHASES = DOOR_PHASES, REFUSALS = 10 };

/* The room with a state at its end: whole pages on any machine, since an emulator protects pages of the one it runs on. */
enum { ROOM = 1 << 16 };

/* Where the short way has to be met: each phase by its number, and these. A line that is pulled may be sampled as 1 or 0. */
enum {
    OFF = PHASES, MARKED, HELD_DATA, HOLD_SCL_0, HOLD_SCL_1, SLOT_SDA_0, SLOT_SDA_1, SENDING_SDA_0, SENDING_SDA_1,
    ADD_SCL_0, ADD_SCL_1, ADD_CKP_0, LOW_BITS, HIGH_SLOT, LOW_SLOT, LOW_SLOT_FREE, ASKING_SLOT, FULL, SITUATIONS
};
static const char *const situations[SITUATIONS] = {
    "quiet", "address", "data", "held before acknowledge", "slot", "held for sending", "sending", "master acknowledge",
    "held for ADD", "disabled", "marked", "held data", "SCL pulled and sampled 0", "and 1",
    "SDA pulled in a slot and sampled 0", "and 1", "SDA pulled in sending and sampled 0", "and 1",
    "held for ADD and SCL sampled 0", "and 1", "with CKP 0", "bits of a low byte", "slot of a high byte", "of a low byte",
    "that does not pull", "of a high byte that asks to send", "full match"
};

/* All that the test keeps. It is shared with the process that plays, so that it can be told if a fault ends that one. */
typedef struct {
    traffic source;
    uint8_t image[IMAGE], memory[MEMORY];   /* the live state, which the second program plays */
    uint8_t *room, *state;                  /* the room, and in it the state that a sample is tried on */
    uint32_t level;                         /* of the sample that is tried */
    unsigned long wanted, items, states, failures;
    unsigned long still[SITUATIONS], answers[REFUSALS];
    int moved[PHASES], rewritten[PHASES];   /* whether a write was seen there, by the archive and by the second program */
} bench;

/* ---- Writes that end a process ---- */

/* The sample by the archive. */
static void sample_here(bench *b)
{
    (void)door.sample(b->state, IMAGE, b->level);
}

/* The sample by the second program, which always writes the whole state. */
static void second_sample_here(bench *b)
{
    (void)second_sample(b->state, IMAGE, b->level);
}

/* A child does it: the signal that ended the child, 0 where none did, -1 where there was no child. */
static int ended_by(void (*doing)(bench *b), bench *b)
{
    int status = 0;
    pid_t child = fork();

    if (child == 0) {
        doing(b);
        _exit(0);
    }
    if (child < 0 || waitpid(child, &status, 0) != child)
        return -1;
    return WIFSIGNALED(status) ? WTERMSIG(status) : 0;
}

/* ---- Trying a state ---- */

/* Tells the sample that showed a failure. */
static void fail(bench *b, const uint8_t *image, const char *what)
{
    int i;

    b->failures++;
    printf("failed: %s, level %lu, image ", what, (unsigned long)b->level);
    for (i = 0; i < IMAGE; i++)
        printf("%02X", image[i]);
    printf("\n");
    fflush(stdout);
}

/* The control, once in each phase: a sample that writes is ended by a fault. */
static void see_fault(bench *b, const uint8_t *image, int *seen, void (*doing)(bench *b))
{
    if (*seen)
        return;
    *seen = ended_by(doing, b) == SIGSEGV;
    if (!*seen)
        fail(b, image, "a write was not seen");
}

/* Counts where with ten bits a sample took the short way. */
static void count_still_ten(bench *b, const second_view *v)
{
    int slot = v->phase == DOOR_SLOT;

    if (v->phase == DOOR_HELD_ADD)
        b->still[ADD_SCL_0 + (b->level >> 1 & 1)]++;
    b->still[ADD_CKP_0] += v->phase == DOOR_HELD_ADD && !(v->con1 & CKP);
    b->still[LOW_BITS] += v->phase == DOOR_ADDRESS && v->which == BYTE_LOW && v->bits > 0;
    b->still[HIGH_SLOT] += slot && v->which == BYTE_HIGH;
    b->still[LOW_SLOT] += slot && v->which == BYTE_LOW && v->sda_pulled;
    b->still[LOW_SLOT_FREE] += slot && v->which == BYTE_LOW && !v->sda_pulled;
    b->still[ASKING_SLOT] += slot && v->which == BYTE_HIGH_TO_SEND;
    b->still[FULL] += v->full;
}

/* Counts where a sample took the short way. */
static void count_still(bench *b, const second_view *v)
{
    int scl = b->level >> 1 & 1, sda = b->level & 1;

    b->still[v->phase]++;
    b->still[OFF] += !(v->con1 & SSPEN);
    b->still[MARKED] += v->mark;
    b->still[HELD_DATA] += v->phase == DOOR_DATA && v->scl_pulled;
    if (v->scl_pulled)
        b->still[HOLD_SCL_0 + scl]++;
    if (v->sda_pulled)
        b->still[(v->phase == DOOR_SLOT ? SLOT_SDA_0 : SENDING_SDA_0) + sda]++;
    count_still_ten(b, v);
}

/* A level on the state laid out: where it is to leave every byte, it is sampled here. */
static void try_level(bench *b, const uint8_t *image, const second_view *v, uint32_t level)
{
    uint8_t after[IMAGE];
    uint32_t refusal;
    door_answer a;

    memcpy(after, image, IMAGE);
    refusal = second_sample(after, IMAGE, level).refusal;
    b->level = level;
    if (memcmp(after, image, IMAGE) != 0) {
        see_fault(b, image, &b->moved[v->phase], sample_here);
        return;
    }
    a = door.sample(b->state, IMAGE, level);
    if (a.refusal != refusal || a.value != 0 || a.item != 0 || memcmp(b->state, image, IMAGE) != 0)
        fail(b, image, "another answer, or a byte has changed");
    b->answers[refusal]++;
    if (refusal == 0) {
        count_still(b, v);
        see_fault(b, image, &b->rewritten[v->phase], second_sample_here);
    }
}

/* Bytes, which may only be read once they are laid out, with every level and one above. */
static void try_bytes(bench *b, const uint8_t *image)
{
    static const uint32_t above[8] = {4, 5, 7, 255, 256, 259, 0x80000003u, 0xFFFFFFFFu};
    second_view v = second_look(image, IMAGE);
    uint32_t level;

    if (mprotect(b->room, ROOM, PROT_READ | PROT_WRITE) != 0)
        fail(b, image, "no room");
    memcpy(b->state, image, IMAGE);
    if (mprotect(b->room, ROOM, PROT_READ) != 0)
        fail(b, image, "no protection");
    b->states += v.refusal == 0;
    for (level = 0; level < 4; level++)
        try_level(b, image, &v, level);
    try_level(b, image, &v, above[traffic_below(&b->source, 8)]);
}

/* ---- Playing ---- */

/* What software does for ten bits: in the hold for ADD it mostly reads BUF and writes ADD, or turns CKP over; in quiet and data
   it reads BUF, clears SSPOV and puts the high byte back, so that the next address is taken. */
static void serve(bench *b)
{
    second_view v = second_look(b->image, IMAGE);
    int hold = v.phase == DOOR_HELD_ADD, between = v.phase == DOOR_QUIET || v.phase == DOOR_DATA;
    uint32_t refusals = 0;

    if (!(hold || between) || !traffic_once_in(&b->source, 4))
        return;
    if (between || !traffic_once_in(&b->source, 4))
        refusals |= second_read(b->image, IMAGE, BUF).refusal;
    if (between || traffic_once_in(&b->source, 4))
        refusals |= second_write(b->image, IMAGE, CON1, between ? v.con1 & 0xBF : v.con1 ^ CKP).refusal;
    if (between || !traffic_once_in(&b->source, 3))
        refusals |= second_write(b->image, IMAGE, ADD, traffic_update(&b->source, v.next)).refusal;
    if (refusals != 0)
        fail(b, b->image, "an access was refused");
}

/* Takes an item of the traffic on the live state, and tries that state, then with one to three bits turned over: mostly no
   state, else one that traffic seldom comes to. */
static int take(void *to, unsigned item)
{
    bench *b = to;
    uint8_t mangled[IMAGE];
    unsigned bits = 1 + traffic_below(&b->source, 3);
    second_answer a = item == TRAFFIC_CALL ? second_call(b->image, IMAGE, b->memory, MEMORY, 0, b->source.n)
                                           : second_sample(b->image, IMAGE, item);

    if (a.refusal != 0)
        fail(b, b->image, "traffic was refused");
    try_bytes(b, b->image);
    if (b->source.ten)
        serve(b);
    memcpy(mangled, b->image, IMAGE);
    while (bits-- > 0)
        mangled[traffic_below(&b->source, 24)] ^= (uint8_t)(1u << traffic_below(&b->source, 8));
    try_bytes(b, mangled);
    if (++b->items >= b->wanted || b->failures > 0)
        b->source.left = 0;
    return second_look(b->image, IMAGE).scl_pulled;
}

/* A fresh live state, mostly with other settings than the handler's, and now and then left disabled. */
static void begin(bench *b)
{
    traffic *t = &b->source;
    uint32_t refusals;

    t->n = (uint16_t)(1 + traffic_below(t, MEMORY));
    t->add = traffic_add(t);
    traffic_choose_ten(t, traffic_once_in(t, 2));
    t->left = t->ten ? 1200 : 400;
    t->held = 0;
    refusals = second_setup(b->image, IMAGE, t->add, t->n).refusal;
    if (!traffic_once_in(t, 3)) {
        refusals |= second_write(b->image, IMAGE, CON2, (uint8_t)(traffic_below(t, 256) & (t->ten ? 0x81 : 0xA1))).refusal;
        refusals |= second_write(b->image, IMAGE, CON3, (uint8_t)(traffic_below(t, 256) & 0x63)).refusal;
        refusals |= second_write(b->image, IMAGE, CON1, 0x16).refusal;
        if (!traffic_once_in(t, 8))
            refusals |= second_write(b->image, IMAGE, CON1, (traffic_once_in(t, 2) ? 0x3E : 0x36) | t->ten).refusal;
    }
    if (refusals != 0)
        fail(b, b->image, "a setting was refused");
}

/* Traffic from one fresh state after the other. */
static void play(bench *b)
{
    while (b->items < b->wanted && b->failures == 0) {
        begin(b);
        while (b->source.left > 0) {
            if (traffic_once_in(&b->source, 6))
                traffic_noise(&b->source);
            traffic_message(&b->source);
        }
    }
}

/* ---- The verdict ---- */

/* Whether the short way was met in every situation, both refusals too, and a write was seen in every phase. */
static int all_met(const bench *b)
{
    int i, met = b->answers[4] > 0 && b->answers[6] > 0;

    for (i = 0; i < SITUATIONS; i++)
        met = met && b->still[i] > 0;
    for (i = 0; i < PHASES; i++)
        met = met && b->moved[i] && b->rewritten[i];
    return met;
}

/* What was done, in one line. */
static void tell(const bench *b)
{
    int i, faults = 0;

    for (i = 0; i < PHASES; i++)
        faults += b->moved[i] + b->rewritten[i];
    printf("states %lu that may only be read: samples on the short way %lu (", b->states, b->answers[0]);
    for (i = 0; i < SITUATIONS; i++)
        printf("%s%s %lu", i == 0 ? "" : ", ", situations[i], b->still[i]);
    printf("), refused with 4 %lu, with 6 %lu; faults of writing samples %d; failures %lu\n",
           b->answers[4], b->answers[6], faults, b->failures);
}

/* Memory that a child shares. */
static void *shared(size_t length)
{
    void *memory = mmap(NULL, length, PROT_READ | PROT_WRITE, MAP_SHARED | MAP_ANONYMOUS, -1, 0);

    return memory == MAP_FAILED ? NULL : memory;
}

/* The room and its state; what lies behind may not even be read. */
static int make_room(bench *b)
{
    b->room = shared(2 * ROOM);
    if (b->room == NULL || mprotect(b->room + ROOM, ROOM, PROT_NONE) != 0)
        return 0;
    b->state = b->room + ROOM - IMAGE;
    return 1;
}

/* The argument is the number of items that are played. */
int main(int argc, char **argv)
{
    const struct rlimit none = {0, 0}; /* a fault leaves no file behind */
    bench *b = shared(sizeof *b);
    int signal_number;

    if (b == NULL || !make_room(b) || setrlimit(RLIMIT_CORE, &none) != 0)
        return 2;
    b->wanted = argc > 1 ? strtoul(argv[1], NULL, 10) : 20000ul;
    b->source.seed = 20261116u;
    b->source.take = take;
    b->source.to = b;
    signal_number = ended_by(play, b);
    if (signal_number != 0)
        fail(b, b->state, signal_number == SIGSEGV ? "a sample wrote that is to leave every byte" : "the playing was ended");
    tell(b);
    return b->failures == 0 && all_met(b) ? 0 : 1;
}
