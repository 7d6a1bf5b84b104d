/* 001's Custom Command (types 255 and 254): what a client may ask the host itself. The library does not offer it.
 *
 * A question is a name, command type 0 and no payload. The answer has status 0 and a payload, whose length tells which question it answers:
 *
 *     pulses     1 byte: how many pulses stand in the queue, the running one included. No message of the box tells that.
 *     refused    10 bytes: the last message that was refused on any connection since power-up. Who sent it gets no reply, and nobody else
 *                hears of it otherwise. Numbers of several bytes have the highest first:
 *                0  what there is: 0 none was refused, and the rest is 0; 1 one whose type is not known, because it had no content or one
 *                   too long to be kept; 2 one whose type is known
 *                1  the connection, 0 to 3
 *                2  its type; 0 where it is not known
 *                3  the answer number
 *                4  the place (2 bytes)
 *                6  how long ago, in whole seconds (4 bytes); 4294967295 for longer too
 */
#ifndef CUSTOM_H
#define CUSTOM_H

#include "box.h"

enum {
    CUSTOM_TYPE = 255,
    CUSTOM_LONGEST = 14         /* bytes of the longest answer's content: type, status, payload size, payload */
};

typedef enum { CUSTOM_NONE, CUSTOM_PULSES, CUSTOM_REFUSED } custom_question;

/* A message that was refused. */
typedef struct {
    bool is_one;                /* false: none was, and the rest says nothing */
    bool has_type;              /* whether its type is known */
    uint8_t type;
    uint8_t connection;
    uint8_t answer;
    uint64_t place;
    uint64_t at;                /* ms since power-up */
} refusal;

/* What a content asks; CUSTOM_NONE where it is no question that there is. */
custom_question custom_asks(const uint8_t *content, size_t n);

/* The answer's content. Each gives its length. */
size_t custom_pulses(uint8_t content[CUSTOM_LONGEST], const wellacorn_board *board);
size_t custom_refused(uint8_t content[CUSTOM_LONGEST], const refusal *last, uint64_t now);

/* A call of box_bytes on connection c has come to it, at `now` ms since power-up, and what it ended was not the host's to answer: `last` becomes
 * that message if it was refused. */
void custom_heard(refusal *last, const box *b, uint8_t c, const came *it, uint64_t now);

#endif
