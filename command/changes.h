/* Writes lanes as the changes of a VCD: a line for each time at which a signal becomes another. The header before them is the
   command's to write. */
#ifndef CHANGES_H
#define CHANGES_H

#include <errno.h>
#include <math.h>
#include <stdint.h>
#include <stdio.h>
#include <string.h>

/* Signals are called by a letter each, from A on; characters of a time, and of a change with the blank before it. */
enum { MOST_SIGNALS = 58, LONGEST_TIME = 20, LONGEST_CHANGE = 3 };

/* The file, and what was written last. An item's time is by a clock, first + item * step / parts to the nearest whole; or it is
   its own in seconds, written in nanoseconds and, where the first one lies before 0, from there on. */
typedef struct {
    FILE *file;                   /* NULL where no VCD is asked for */
    const char *wrong;            /* why no more is written */
    uint32_t signals;
    uint8_t places[MOST_SIGNALS]; /* of each signal the bit of the lanes that it is */
    uint64_t first, step, parts;  /* step from 1 on, parts from 1 up to 2^31 - 1 */
    double offset;                /* of times of their own */
    int is_begun, is_timed;
    uint64_t lanes, time;
} changes;

static const char TOO_LONG[] = "its times do not fit into the 64 bits of a VCD's";

/* By the clock: in parts, so that nothing overflows where the time itself does not. */
static uint64_t time_by_clock(changes *c, uint64_t item)
{
    uint64_t rounds = item / c->parts, rest = item % c->parts, over = c->step % c->parts;

    if (rounds >= (UINT64_MAX - c->first) / c->step)
        c->wrong = TOO_LONG;
    return c->first + rounds * c->step + rest * (c->step / c->parts) + (2 * rest * over + c->parts) / (2 * c->parts);
}

static uint64_t time_by_seconds(changes *c, double seconds)
{
    double nanoseconds;

    if (!c->is_begun && seconds < 0)
        c->offset = seconds;
    nanoseconds = (seconds - c->offset) * 1e9 + 0.5;
    if (nanoseconds < (double)INT64_MAX)
        return (uint64_t)nanoseconds;
    c->wrong = TOO_LONG;
    return 0;
}

/* Puts down a time; answers the place behind it. */
static char *put_time(char *to, uint64_t time)
{
    char digits[LONGEST_TIME];
    size_t length = 0;

    do {
        digits[LONGEST_TIME - ++length] = (char)('0' + time % 10);
        time /= 10;
    } while (time > 0);
    *to++ = '#';
    memcpy(to, digits + LONGEST_TIME - length, length);
    return to + length;
}

/* Puts down the signals that are others than before, all of them at first; answers the place behind them. */
static char *put_signals(const changes *c, char *to, uint64_t lanes)
{
    uint64_t changed = c->is_begun ? lanes ^ c->lanes : UINT64_MAX;
    uint32_t i;

    for (i = 0; i < c->signals; i++)
        if (changed >> c->places[i] & 1) {
            *to++ = ' ';
            *to++ = (char)('0' + (lanes >> c->places[i] & 1));
            *to++ = (char)('A' + i);
        }
    return to;
}

static void write_text(changes *c, const char *text, size_t length)
{
    if (c->wrong == NULL && fwrite(text, 1, length, c->file) != length)
        c->wrong = strerror(errno);
}

/* The lanes from an item on; seconds is not a number where it has no time of its own. What comes at the time that was written
   last stands on a line without one. */
static void write_lanes(changes *c, uint64_t item, double seconds, uint64_t lanes)
{
    char line[1 + LONGEST_TIME + LONGEST_CHANGE * MOST_SIGNALS + 1], *signals, *end;
    uint64_t time;

    c->is_timed = !isnan(seconds);
    time = c->is_timed ? time_by_seconds(c, seconds) : time_by_clock(c, item);
    signals = put_time(line, time);
    end = put_signals(c, signals, lanes);
    if (end > signals) {
        char *begin = c->is_begun && time == c->time ? signals + 1 : line;

        *end++ = '\n';
        write_text(c, begin, (size_t)(end - begin));
        c->time = time;
    }
    c->lanes = lanes;
    c->is_begun = 1;
}

/* The time behind the last item ends the file. Answers whether all of it was written. */
static int end_lanes(changes *c, uint64_t item)
{
    char line[1 + LONGEST_TIME + 1], *end;
    uint64_t time = c->is_timed ? c->time + 1 : time_by_clock(c, item);

    end = put_time(line, time);
    *end++ = '\n';
    write_text(c, line, (size_t)(end - line));
    if (fclose(c->file) != 0 && c->wrong == NULL)
        c->wrong = strerror(errno);
    return c->wrong == NULL;
}

#endif
