/* The capture that is fed to the archive and to the second program, and whose wire sigrok reads. */
#ifndef CAPTURE_H
#define CAPTURE_H

#include <stddef.h>
#include <stdint.h>

/* Its address, and the length of the memory behind it. */
enum { CAPTURE_ADD = 0x30, CAPTURE_N = 32 };

/* An item is a level, 2 * SCL + SDA, or a handler call. */
enum { CAPTURE_SDA = 1, CAPTURE_SCL = 2, CAPTURE_CALL = 4 };

/* About how many items it has where instructions are counted, and where times are taken. */
enum { CAPTURE_COUNTED = 20000, CAPTURE_TIMED = 200000, CAPTURE_LONGEST = 400000 };

typedef struct {
    uint8_t items[CAPTURE_LONGEST];
    size_t length;
    unsigned pairs; /* of messages */
} capture;

/* Makes pairs of messages up to so many items: a pointer and eight bytes written, then as many read. */
void capture_make(capture *c, unsigned per_clock, size_t items);

#endif
