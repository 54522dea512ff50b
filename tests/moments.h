/* The moments around a refused byte, a general call and a ten-bit address that random tests have to come to, so that a pass
   says something: counted straight off the state's image before and after a step. */
#ifndef MOMENTS_H
#define MOMENTS_H

#include "hits.h"
#include "modes.h"
#include "slots.h"

#include <stdint.h>
#include <stdio.h>

/* A ninth fall counts where SSPIF was 0 before it. */
enum {
    MOMENT_REFUSED, MOMENT_ASKED, MOMENT_DECLINED, MOMENT_ACKDT, MOMENT_READ, MOMENT_CLEARED, MOMENT_CUT, MOMENT_OFF,
    MOMENT_GENERAL, MOMENT_OWN_00, MOMENT_NOT_00, MOMENT_NOT_01, MOMENT_TEN_00,
    MOMENT_HIGH, MOMENT_HIGH_FAILED, MOMENT_TO_SEND, MOMENT_SEND_FAILED, MOMENT_SEND_TOO_EARLY,
    MOMENT_LOW, MOMENT_LOW_REFUSED, MOMENT_LOW_DECLINED, MOMENT_LOW_OTHER, MOMENT_LOW_BIT_0, MOMENT_LOW_UNREAD,
    MOMENT_FULL_AGAIN, MOMENT_FULL_OTHER, MOMENT_FULL_STOP, MOMENT_FULL_START, MOMENT_FULL_OFF,
    MOMENT_ADD, MOMENT_ADD_SEN, MOMENT_ADD_CKP, MOMENT_ADD_OFF, MOMENT_ADD_ELSEWHERE,
    MOMENTS
};

/* What each of them is. */
static const char *const moment_names[MOMENTS] = {
    "refused ninth falls", "of these with R/W 1", "declined ninth falls without SSPIF", "refused holds released with ACKDT 1",
    "with BUF read", "with SSPOV cleared", "refused slots cut by a Start or Stop", "switched off",
    "general calls taken", "00 taken as own with GCEN 1", "00 not taken with GCEN 0", "01 not taken with GCEN 1",
    "00 not taken by ten bits with GCEN 1",
    "high bytes acknowledged", "refused or declined", "high bytes that ask to send acknowledged", "refused or declined",
    "asking without the full match",
    "low bytes acknowledged", "refused", "declined", "not matching", "in bit 0 alone", "with BF 1",
    "full matches ended by a high byte with R/W 0", "by a byte that does not fit", "by a Stop", "kept over a Start",
    "switched off",
    "holds for ADD ended by a write to ADD", "before data with SEN 1", "kept over CKP 1", "switched off",
    "ADD written elsewhere while ten bits run"
};

/* One step as the counting looks at it. */
typedef struct {
    const uint8_t *before, *after;
    int fall;       /* SCL fell */
    int flag_came;  /* SSPIF came with it */
} moment_step;

/* Places and numbers that the counting looks at. */
enum {
    IMAGE_STAT = 1, IMAGE_CON1, IMAGE_CON2, IMAGE_ADD = 5, IMAGE_FLAG = 7, IMAGE_PHASE, IMAGE_COUNT,
    IMAGE_BYTE, IMAGE_WIRE = 12, IMAGE_MARK
};
enum { PHASE_QUIET, PHASE_ADDRESS, PHASE_DATA, PHASE_HELD_BEFORE, PHASE_SLOT, PHASE_HELD_SENDING, PHASE_HELD_ADD = 8 };

/* Whether SCL is remembered high. */
static inline int moment_high(const uint8_t *image)
{
    return image[IMAGE_WIRE] == 2 || image[IMAGE_WIRE] == 3;
}

/* The case of the slot that a step began in, 0 where it was none. */
static inline int moment_slot(const moment_step *s)
{
    return s->before[IMAGE_PHASE] == PHASE_SLOT ? s->before[PART_AT] : 0;
}

/* Whether a step was the eighth fall of a first byte, or of a low byte. */
static inline int moment_eighth(const moment_step *s, int which)
{
    return s->before[IMAGE_PHASE] == PHASE_ADDRESS && s->before[IMAGE_COUNT] == 8 && s->before[WHICH_AT] == which && s->fall;
}

/* Counts what became of refused and declined bytes. Every refused intake leaves BF and SSPOV 1: where one is 0 at the release,
   software has cleared it in the hold. */
static inline void moments_of_refused(unsigned long *times, const moment_step *s)
{
    enum { BF = 0x01, RW = 0x04, DA = 0x20, SSPOV = 0x40, SSPEN = 0x20, ACKDT = 0x20 };
    const uint8_t *before = s->before, *after = s->after;
    int slot = moment_slot(s);
    int ninth_fall = s->fall && !before[IMAGE_FLAG];
    int released = before[IMAGE_PHASE] == PHASE_HELD_BEFORE && before[PART_AT] == 1 && after[IMAGE_PHASE] == PHASE_SLOT;
    int cut = moment_high(before) && moment_high(after) && after[IMAGE_PHASE] != PHASE_SLOT;

    times[MOMENT_REFUSED] += slot == SLOT_REFUSED && s->fall && s->flag_came;
    times[MOMENT_ASKED] += slot == SLOT_REFUSED && s->fall && s->flag_came && (before[IMAGE_STAT] & (RW | DA)) == RW;
    times[MOMENT_DECLINED] += slot == SLOT_DECLINED && ninth_fall && !after[IMAGE_FLAG];
    times[MOMENT_ACKDT] += released && (before[IMAGE_CON2] & ACKDT);
    times[MOMENT_READ] += released && !(after[IMAGE_STAT] & BF);
    times[MOMENT_CLEARED] += released && !(after[IMAGE_CON1] & SSPOV);
    times[MOMENT_CUT] += slot == SLOT_REFUSED && cut && (after[IMAGE_CON1] & SSPEN);
    times[MOMENT_OFF] += slot == SLOT_REFUSED && !(after[IMAGE_CON1] & SSPEN);
}

/* Counts the eighth fall of a first byte 00 or 01. */
static inline void moments_of_first(unsigned long *times, const moment_step *s)
{
    enum { GCEN = 0x80 };
    unsigned byte = s->before[IMAGE_BYTE], which = hit_of(s->before, byte);
    int gcen = (s->before[IMAGE_CON2] & GCEN) != 0, taken = s->after[IMAGE_PHASE] != PHASE_QUIET;
    int ten = mode_is_ten(s->before[IMAGE_CON1]);

    if (!moment_eighth(s, BYTE_OTHER) || byte > 1)
        return;
    times[MOMENT_GENERAL] += taken && which == HIT_GENERAL_CALL;
    times[MOMENT_OWN_00] += taken && which == HIT_OWN && byte == 0 && gcen;
    times[MOMENT_NOT_00] += !taken && byte == 0 && !gcen;
    times[MOMENT_NOT_01] += !taken && byte == 1 && gcen;
    times[MOMENT_TEN_00] += !taken && byte == 0 && gcen && ten;
}

/* Counts what became of high bytes, at their eighth or ninth fall. */
static inline void moments_of_high(unsigned long *times, const moment_step *s)
{
    int slot = moment_slot(s), which = s->before[WHICH_AT], asks = s->before[IMAGE_BYTE] & 1;
    int first = moment_eighth(s, BYTE_OTHER) && mode_is_ten(s->before[IMAGE_CON1]);
    int fits = first && hit_of(s->before, s->before[IMAGE_BYTE]) == HIT_OWN, full = s->before[FULL_AT];
    int pulled = slot == SLOT_PULLING && s->fall && s->flag_came, failed = slot > SLOT_PULLING && s->fall;

    times[MOMENT_HIGH] += which == BYTE_HIGH && pulled && s->after[IMAGE_PHASE] == PHASE_HELD_ADD;
    times[MOMENT_HIGH_FAILED] += which == BYTE_HIGH && failed && s->after[IMAGE_PHASE] == PHASE_QUIET;
    times[MOMENT_TO_SEND] += which == BYTE_HIGH_TO_SEND && pulled && s->after[IMAGE_PHASE] == PHASE_HELD_SENDING;
    times[MOMENT_SEND_FAILED] += which == BYTE_HIGH_TO_SEND && failed && full && !s->after[FULL_AT];
    times[MOMENT_SEND_TOO_EARLY] += fits && asks && !full && s->after[IMAGE_PHASE] == PHASE_QUIET;
    times[MOMENT_FULL_AGAIN] += fits && !asks && full && !s->after[FULL_AT];
    times[MOMENT_FULL_OTHER] += first && !fits && full && !s->after[FULL_AT];
}

/* Counts what became of low bytes, at their eighth or ninth fall. */
static inline void moments_of_low(unsigned long *times, const moment_step *s)
{
    enum { BF = 0x01, SSPOV = 0x40 };
    const uint8_t *before = s->before, *after = s->after;
    int low = before[WHICH_AT] == BYTE_LOW, others = before[IMAGE_BYTE] ^ before[IMAGE_ADD];
    int held = s->fall && s->flag_came && after[IMAGE_PHASE] == PHASE_HELD_ADD;
    int declined = after[IMAGE_PHASE] == PHASE_SLOT && after[PART_AT] == SLOT_DECLINED;
    int missed = moment_eighth(s, BYTE_LOW) && others != 0 && declined;

    times[MOMENT_LOW] += low && moment_slot(s) == SLOT_PULLING && held && after[FULL_AT];
    times[MOMENT_LOW_REFUSED] += low && moment_slot(s) == SLOT_REFUSED && held && !after[FULL_AT];
    times[MOMENT_LOW_DECLINED] += low && before[IMAGE_PHASE] == PHASE_HELD_BEFORE && declined;
    times[MOMENT_LOW_OTHER] += missed;
    times[MOMENT_LOW_BIT_0] += missed && others == 1;
    times[MOMENT_LOW_UNREAD] += missed && (before[IMAGE_STAT] & BF) && !(after[IMAGE_CON1] & SSPOV);
}

/* Counts how the full match and the hold for ADD end, and what leaves them. */
static inline void moments_of_holds(unsigned long *times, const moment_step *s)
{
    enum { P = 0x10, SEN = 0x01, CKP = 0x10, SSPEN = 0x20 };
    const uint8_t *before = s->before, *after = s->after;
    int on = after[IMAGE_CON1] & SSPEN, still_high = moment_high(before) && moment_high(after);
    int hold = before[IMAGE_PHASE] == PHASE_HELD_ADD, ended = hold && after[IMAGE_PHASE] != PHASE_HELD_ADD;
    int full = before[FULL_AT];

    times[MOMENT_FULL_STOP] += full && still_high && !after[FULL_AT] && on && (after[IMAGE_STAT] & P);
    times[MOMENT_FULL_START] += full && still_high && after[FULL_AT] && after[IMAGE_MARK] && !before[IMAGE_MARK];
    times[MOMENT_FULL_OFF] += full && !on && !after[FULL_AT];
    times[MOMENT_ADD] += ended && on;
    times[MOMENT_ADD_SEN] += ended && after[IMAGE_PHASE] == PHASE_DATA && (before[IMAGE_CON2] & SEN);
    times[MOMENT_ADD_CKP] += hold && !ended && (after[IMAGE_CON1] & ~before[IMAGE_CON1] & CKP);
    times[MOMENT_ADD_OFF] += ended && !on;
    times[MOMENT_ADD_ELSEWHERE] += !hold && mode_runs_ten(before[IMAGE_CON1])
        && before[IMAGE_ADD] != after[IMAGE_ADD];
}

/* Counts what one sample, register access or handler call brought, from a state to the one after it. */
static inline void moments_count(unsigned long *times, const uint8_t *before, const uint8_t *after)
{
    moment_step s;

    s.before = before;
    s.after = after;
    s.fall = moment_high(before) && !moment_high(after);
    s.flag_came = !before[IMAGE_FLAG] && after[IMAGE_FLAG];
    moments_of_refused(times, &s);
    moments_of_first(times, &s);
    moments_of_high(times, &s);
    moments_of_low(times, &s);
    moments_of_holds(times, &s);
}

/* Whether each of them has come. */
static inline int moments_all(const unsigned long *times)
{
    int i;

    for (i = 0; i < MOMENTS; i++)
        if (times[i] == 0)
            return 0;
    return 1;
}

/* Tells how often each has come, as the rest of a line. */
static inline void moments_tell(const unsigned long *times)
{
    int i;

    for (i = 0; i < MOMENTS; i++)
        printf("%s%s %lu", i == 0 ? "" : ", ", moment_names[i], times[i]);
    printf("\n");
}

#endif
