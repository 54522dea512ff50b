/* The player: from text to items, from items to the report's lines or to the wire. */
#include "player.h"
#include "hits.h"

#include <string.h>

enum { ADDRESS = 0x30, CON2 = 3, GCEN = 0x80, SEN = 0x01 };

enum { HANDLER_CALL = 4, SKIPPED = 5, FOREIGN = 6 };

/* ---- The text ---- */

/* What a byte of the text stands for: an item, nothing, or no item at all. */
static int meaning(char c)
{
    if (c >= '0' && c <= '3')
        return c - '0';
    if (c == 'h')
        return HANDLER_CALL;
    return c == ' ' || c == '\n' ? SKIPPED : FOREIGN;
}

/* Takes a text that is not too long apart; answers whether each byte had a meaning, which g has as the first one alone. */
static int parse(player *p)
{
    size_t i;

    p->length = 0;
    p->gcen = p->text_length > 0 && p->text[0] == 'g';
    for (i = p->gcen ? 1 : 0; i < p->text_length; i++) {
        int item = meaning(p->text[i]);

        if (item == FOREIGN)
            return 0;
        if (item != SKIPPED)
            p->items[p->length++] = (uint8_t)item;
    }
    return 1;
}

/* ---- Playing ---- */

/* Setup with ADD 30 and 32 zero bytes, as the report has it; then GCEN if the text asks for it, SEN as setup has it. */
static int begin(player *p)
{
    memset(p->memory, 0, PLAYER_MEMORY);
    plain_setup(&p->plain, ADDRESS, PLAYER_MEMORY, p->memory);
    if (door.setup(p->image, DOOR_IMAGE, ADDRESS, PLAYER_MEMORY).refusal != 0)
        return 0;
    return !p->gcen || door.write(p->image, DOOR_IMAGE, CON2, GCEN | SEN).refusal == 0;
}

/* One item to the module; answers whether the door took it. */
static int take(player *p, uint8_t item)
{
    if (item == HANDLER_CALL)
        return door.call(p->image, DOOR_IMAGE, p->memory, PLAYER_MEMORY, 0, PLAYER_MEMORY).refusal == 0;
    return door.sample(p->image, DOOR_IMAGE, item).refusal == 0;
}

/* The letter of a byte: D for a later one; a first one is a general call or any other address by the comparison alone. */
static char letter(const player *p, const plain_reader *r)
{
    if (!r->first)
        return 'D';
    return door.hit(p->image, DOOR_IMAGE, r->byte).value == HIT_GENERAL_CALL ? 'G' : 'A';
}

/* What a sample brought, as a line of the report: the wire's level goes to the reader. */
static void print_line(player *p, size_t item, FILE *out)
{
    plain_reader before = p->plain.reader;
    door_view now = door.look(p->image, DOOR_IMAGE);
    int brought = plain_level(&p->plain, now.wire);

    if (brought == PLAIN_BYTE)
        fprintf(out, "%lu %c %02X %u %u\n", (unsigned long)item, letter(p, &before), before.byte, before.answer, now.pointer);
    else if (brought != PLAIN_NOTHING)
        fprintf(out, "%lu %c -- - %u\n", (unsigned long)item, brought == PLAIN_START ? 'S' : 'P', now.pointer);
}

int player_report(player *p, FILE *out)
{
    size_t i;

    if (p->text_length > PLAYER_LONGEST)
        return fputs("too long\n", out) != EOF;
    if (!parse(p))
        return fprintf(out, "refused 4 at %lu\n", (unsigned long)p->length) > 0;
    if (!begin(p))
        return 0;
    fputs("item event byte ack pointer\n", out);
    for (i = 0; i < p->length; i++) {
        if (!take(p, p->items[i]))
            return 0;
        if (p->items[i] != HANDLER_CALL)
            print_line(p, i, out);
    }
    return fprintf(out, "end %lu\n", (unsigned long)p->length) > 0;
}

int player_record(player *p, FILE *out)
{
    size_t i;

    if (p->text_length > PLAYER_LONGEST || !parse(p) || !begin(p))
        return 0;
    for (i = 0; i < p->length; i++) {
        if (!take(p, p->items[i]))
            return 0;
        if (p->items[i] != HANDLER_CALL && putc(door.look(p->image, DOOR_IMAGE).wire, out) == EOF)
            return 0;
    }
    return 1;
}
