/* A simulated morning: fish come up on the eight lifts at random, each one a short pulse on the lift's input. */
#ifndef MORNING_H
#define MORNING_H

#include "box.h"

typedef struct {
    uint64_t random;                        /* the state of the random numbers; not 0 */
    uint64_t next[WELLACORN_CHANNELS];      /* when each input changes next, in ms */
} morning;

/* The same seed gives the same fish at the same times. */
void morning_begin(morning *m, uint64_t seed, uint64_t now);

/* When the next input changes, in ms. */
uint64_t morning_next(const morning *m);

/* Tells the box the changes that are due. */
void morning_turn(morning *m, box *b, uint64_t now);

#endif
