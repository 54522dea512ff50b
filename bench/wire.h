/* The wire of the bench's capture: what everybody drives, with what the module behind the door pulls. */
#ifndef WIRE_H
#define WIRE_H

#include "capture.h"
#include "door.h"

#include <string.h>

/* Lays the levels of the wire, one for each sample of the capture; a handler call brings none. Answers how many there are, 0
   where a call was refused. */
static inline size_t wire_of(const capture *c, uint8_t *levels)
{
    uint8_t image[DOOR_IMAGE], memory[CAPTURE_N];
    uint32_t refused = door.setup(image, DOOR_IMAGE, CAPTURE_ADD, CAPTURE_N).refusal;
    size_t length = 0, i;

    memset(memory, 0, CAPTURE_N);
    for (i = 0; i < c->length; i++) {
        if (c->items[i] == CAPTURE_CALL) {
            refused |= door.call(image, DOOR_IMAGE, memory, CAPTURE_N, 0, CAPTURE_N).refusal;
            continue;
        }
        refused |= door.sample(image, DOOR_IMAGE, c->items[i]).refusal;
        levels[length++] = door.look(image, DOOR_IMAGE).wire;
    }
    return refused == 0 ? length : 0;
}

#endif
