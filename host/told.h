/* What each message did, which pulses began and ended, and what went with a module, in words. Stray bytes and keep-alives that come one behind the
 * other make one line. */
#ifndef TOLD_H
#define TOLD_H

#include "box.h"

/* What has been heard on a connection and not been told yet. */
typedef struct {
    unsigned long strays;
    unsigned long keep_alives;
} heard;

/* A call of box_bytes on connection c has come to it. */
void told_bytes(heard *h, const box *b, uint8_t c, const came *it);

/* A telling of the time has come to it: says which pulses ended and which began. */
void told_time(const box *b, const passed *it);

/* An emptying of a place has come to it: says which relays opened, and how many pulses lost relays. */
void told_emptied(const box *b, uint8_t place, const emptied *it);

/* Tells what is left to tell. */
void told_rest(heard *h, uint8_t c);

/* A rank in words. */
const char *told_rank(uint64_t rank);

/* What is said behind the rank of a strict connection; nothing of another. */
const char *told_strict(bool strict);

/* Prints all that the box holds, a few lines. */
void told_state(const box *b, const char *const peers[WELLACORN_CONNECTIONS]);

#endif
