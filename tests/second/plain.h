/* The plain reader of the wire and the plain device: what a memory behind an I2C slave owes, told without registers. */
#ifndef PLAIN_H
#define PLAIN_H

#include <stdint.h>

#ifdef __cplusplus
extern "C" {
#endif

/* What a level brings to the reader. */
enum { PLAIN_NOTHING, PLAIN_START, PLAIN_STOP, PLAIN_BYTE };

/* The plain reader: counts bytes from each Start, reads none after a Stop or before the first Start. */
typedef struct {
    uint8_t wire;   /* the last level, 2 * SCL + SDA; 255 before the first */
    uint8_t mark;   /* a Start was seen and SCL has not been low since */
    uint8_t inside; /* a Start was seen and no Stop since */
    uint8_t first;  /* the byte under way is the first after its Start */
    uint8_t rises;  /* of the byte under way, 0 to 9 */
    uint8_t falls;  /* of the byte under way, each the one after its rise, 0 to 8 */
    uint8_t byte;   /* its bits so far, and from the eighth rise on its value */
    uint8_t answer; /* SDA at its ninth rise */
} plain_reader;

/* The plain device's turns. */
enum { PLAIN_NO_TURN, PLAIN_WRITE_TURN, PLAIN_READ_TURN };

/* The plain device: memory, pointer and turn; beside them the two as they were before the last byte. */
typedef struct {
    plain_reader reader;
    uint8_t add;
    uint16_t n;
    uint8_t turn;
    uint8_t due;      /* in a write turn: the next byte is the pointer */
    uint8_t laid_out; /* in a read turn: the byte laid out */
    uint8_t served;   /* the last level ended a byte of the device's own that is to be followed by a hold */
    uint16_t pointer;
    uint8_t memory[256];
    uint16_t earlier_pointer;
    uint8_t earlier_memory[256];
} plain_device;

/* A fresh device with these n bytes (1 to 256) and pointer 0. */
void plain_setup(plain_device *d, uint8_t add, uint16_t n, const uint8_t *memory);

/* The next wire level; answers what it brought: nothing, a Start, a Stop or the ninth fall of a byte. */
int plain_level(plain_device *d, uint8_t level);

/* Whether the device owes a low SDA to the next item; held says whether the clock is held now. */
int plain_owes(const plain_device *d, int held);

#ifdef __cplusplus
}
#endif

#endif
