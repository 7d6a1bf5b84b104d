/* The box as this host holds it: the one place that calls the library, and that keeps what a host owes it (docs/HOST.md). */
#ifndef BOX_H
#define BOX_H

#include "wellacorn.h"

#include <stdio.h>

typedef struct box {
    wellacorn_box lent;                 /* the same in every call; read elsewhere, and written to by the library alone */
    uint8_t reply[WELLACORN_REPLY];     /* the reply of the last call: to be sent or queued before the next */
    uint64_t told;                      /* ms that the box has been told of */
    FILE *trace;                        /* each call as a line of docs/REPLAY.md, or NULL */
    void (*switched)(void *whom, const struct box *b);      /* called behind each call by which relays changed, came or went; or NULL */
    void *whom;
} box;

/* What a call of box_bytes came to. */
typedef struct {
    wellacorn_done done;
    uint64_t read;                      /* bytes of the message that were taken, in this call and earlier ones */
    unsigned switched;                  /* the relays that really changed, relay 1 the lowest bit */
} came;

/* What a telling of the time came to: so many pulses ended, and behind each the next began, as long as one waited. Their records stand in
 * the row still. */
typedef struct {
    uint64_t first;                     /* the place in the row of the first that ended */
    uint64_t stood;                     /* how many stood before */
    uint64_t ended;
    unsigned switched;                  /* the relays that are not as they were before, relay 1 the lowest bit */
} passed;

/* What an emptying came to. */
typedef struct {
    wellacorn_done done;
    bool was_filled;                    /* false: nothing changed */
    unsigned switched;                  /* the relays that opened with it, relay 1 the lowest bit */
    size_t pulses;                      /* how many of the pulses that stand lost relays from their masks */
} emptied;

void box_power_up(box *b, const wellacorn_settings *settings, FILE *trace);

/* Tells the box the time: `now` ms have passed since power-up, in all. Each ms is told once, in parts that end where a pulse does: so each change of
 * a relay is behind a call of its own, however late the time is told. */
passed box_time(box *b, uint64_t now);

/* When the running pulse ends, in ms since power-up: the time is to be told then, or its relays stay switched. UINT64_MAX if none runs. */
uint64_t box_next(const box *b);

/* The i-th pulse behind the place `first` of the row, the one at that place being the 0th. */
const wellacorn_pulse *box_pulse(const box *b, uint64_t first, uint64_t i);

/* The second deck. A module has so many relays; the first relay of a module at a place, and the place of a relay from 9 to 16. */
enum { BOX_MODULE = 4 };

unsigned box_first_relay(unsigned place);
unsigned box_place_of(unsigned relay);

/* Whether a module stands at a place; at no place but 1 and 2. */
bool box_is_filled(const box *b, unsigned place);

wellacorn_done box_fill(box *b, uint8_t place);
emptied box_empty(box *b, uint8_t place);

wellacorn_done box_level(box *b, uint8_t k, uint8_t v);
wellacorn_done box_connect(box *b, uint8_t c, uint8_t rank, bool strict);
wellacorn_done box_close(box *b, uint8_t c);
wellacorn_done box_collect(box *b, uint8_t c);
came box_bytes(box *b, uint8_t c, const uint8_t *piece, size_t n);

/* Whether a Monitor or an External Monitor message is due on connection c. */
bool box_due(const box *b, uint8_t c);

/* The content of the message that the last box_bytes on connection c ended, served or refused: wellacorn_box_content of the header. */
size_t box_content(const box *b, uint8_t c, const uint8_t **content);

/* Wraps content into a frame, for what the host itself has to say. Gives the frame's length; 5 + n bytes must fit. */
size_t frame_of(uint8_t *frame, const uint8_t *content, size_t n);

#endif
