/* Traffic for tests: what a master drives, in messages whole and cut short, with stray levels and handler calls between. */
#ifndef TRAFFIC_H
#define TRAFFIC_H

#include <stdint.h>

/* A level is 2 * SCL + SDA; the item after the levels is a handler call. */
enum { TRAFFIC_SDA = 1, TRAFFIC_SCL = 2, TRAFFIC_CALL = 4 };

/* A source of traffic and where it goes. */
typedef struct {
    uint64_t seed;                         /* not 0 */
    uint8_t add;                           /* the address that most messages have; with ten bits its high byte */
    uint8_t ten, low;                      /* whether most messages have ten address bits, and the low byte of these */
    uint16_t n;                            /* the memory's length, for pointers near its ends */
    unsigned longest;                      /* a rare long message has fewer bytes than this; 0: there is none */
    unsigned long left;                    /* items that may still be driven; nothing is driven at 0 */
    int held;                              /* what the last item answered */
    int (*take)(void *to, unsigned item);  /* takes a level or TRAFFIC_CALL; answers whether the clock is held after it */
    void *to;
} traffic;

/* The next random number below a limit, and whether it is that one of so many. */
unsigned traffic_below(traffic *t, unsigned limit);
int traffic_once_in(traffic *t, unsigned times);

/* An ADD for a device. */
uint8_t traffic_add(traffic *t);

/* Ten bits from now on, with any address, or seven again with the add that there is. */
void traffic_choose_ten(traffic *t, int ten);

/* What software writes to ADD in the hold for it, by what follows the hold (1 the low byte): mostly the byte that is compared
   next. */
uint8_t traffic_update(traffic *t, unsigned next);

/* How often a dense record has a level. */
unsigned traffic_times(traffic *t);

/* A message, well formed unless cut short; it ends with a Stop, with the next Start, or with nothing. */
void traffic_message(traffic *t);

/* Items without sense: any levels, with handler calls between them. */
void traffic_noise(traffic *t);

#endif
