/* A wire record, drawn in chunks: prints where SSPIF, the held clock or a conflict changes, and the bytes that were stored. */
#include "wherryoar.h"

#include <stdio.h>

enum { ADD = 0x30, MEMORY = 8, CHUNK = 16, LONGEST = 256 };

/* What a probe saw, 2 * SCL + SDA: a write of 02, 1C and A5 to the chip at ADD 30. The chip acknowledges with a low SDA, and
   holds the clock after each byte. The last byte it does not acknowledge, where the model would. */
static const char record[] = "33 2"                              /* Start */
                             "02021313 02020202 02 000"          /* 30 */
                             "02020202 02021302 02 000"          /* 02, the pointer */
                             "02020213 13130202 02 000"          /* 1C, stored */
                             "13021302 02130213 13 000 023";     /* A5, and a Stop */

/* The levels of a record in digits; what is no digit is skipped. */
static size_t levels_of(const char *text, uint8_t *levels)
{
    size_t length = 0;

    for (; *text != '\0' && length < LONGEST; text++)
        if (*text >= '0' && *text <= '3')
            levels[length++] = (uint8_t)(*text - '0');
    return length;
}

/* A line for each word that differs from the one before it in what is shown; the number of the first word is from. */
static uint64_t print_changes(const uint64_t *lanes, size_t count, size_t from, uint64_t before)
{
    const uint64_t shown = WHERRYOAR_WORD_SSPIF | WHERRYOAR_WORD_SCL_PULLED | WHERRYOAR_WORD_CONFLICT;
    size_t i;

    for (i = 0; i < count; before = lanes[i++]) {
        if ((lanes[i] & shown) == (before & shown))
            continue;
        printf("%4lu %5d %4d %8d %7u\n", (unsigned long)(from + i), (lanes[i] & WHERRYOAR_WORD_SSPIF) != 0,
               (lanes[i] & WHERRYOAR_WORD_SCL_PULLED) != 0, (lanes[i] & WHERRYOAR_WORD_CONFLICT) != 0,
               WHERRYOAR_WORD_POINTER(lanes[i]));
    }
    return before;
}

/* Draws the whole record, a chunk at a time: each goes on where the one before it was. */
static uint32_t draw(uint8_t *state, uint8_t *memory, const uint8_t *levels, size_t length)
{
    uint64_t lanes[CHUNK], before = 0;
    size_t from;

    for (from = 0; from < length; from += CHUNK) {
        wherryoar_taken taken = wherryoar_draw(state, WHERRYOAR_STATE_LENGTH, memory, MEMORY, 0, MEMORY, levels + from,
                                               length - from, lanes, CHUNK);

        if (taken.refusal != WHERRYOAR_DONE)
            return taken.refusal;
        before = print_changes(lanes, (size_t)taken.items, from, before);
    }
    return WHERRYOAR_DONE;
}

int main(void)
{
    static const char *const texts[] = WHERRYOAR_REFUSAL_TEXTS;
    uint8_t state[WHERRYOAR_STATE_LENGTH], memory[MEMORY] = {0}, levels[LONGEST];
    uint32_t refusal = wherryoar_setup(state, sizeof state, ADD, MEMORY).refusal;
    size_t i;

    printf("item SSPIF held conflict pointer\n");
    if (refusal == WHERRYOAR_DONE)
        refusal = draw(state, memory, levels, levels_of(record, levels));
    printf("%s; the memory is now", texts[refusal]);
    for (i = 0; i < MEMORY; i++)
        printf(" %02X", memory[i]);
    putchar('\n');
    return refusal != WHERRYOAR_DONE;
}
