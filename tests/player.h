/* Plays a capture's text through the door: the report's lines by the plain reader, or the wire record. */
#ifndef PLAYER_H
#define PLAYER_H

#include "door.h"
#include "plain.h"

#include <stddef.h>
#include <stdint.h>
#include <stdio.h>

enum { PLAYER_LONGEST = 60000, PLAYER_MEMORY = 32 };

/* A capture being played: the text, the module with its memory, and the reader beside it. One byte more than the longest text
   has room, to show that a text is too long. */
typedef struct {
    char text[PLAYER_LONGEST + 1];
    size_t text_length;
    uint8_t gcen;   /* the text begins with g: GCEN is set before item 0 */
    uint8_t items[PLAYER_LONGEST];
    size_t length;
    uint8_t image[DOOR_IMAGE];
    uint8_t memory[PLAYER_MEMORY];
    plain_device plain;
} player;

/* Prints the report of the text; answers whether there is one. */
int player_report(player *p, FILE *out);

/* Writes the wire record of the text, a byte for each sample; answers whether there is one. */
int player_record(player *p, FILE *out);

#endif
