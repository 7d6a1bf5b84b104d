/* The same box in plain C: what a C programmer would write who wants it fast and clear. It changes its state in place and is proved of
 * nothing. The replay tool runs over it as over the library, and the benchmark measures the library against it.
 *
 * It shares the library's settings and answer numbers (wellacorn.h) and none of its code. What it holds has structs of its own, each field
 * as wide as its numbers.
 */
#ifndef PEER_H
#define PEER_H

#include "wellacorn.h"

typedef struct {
    bool level;
    bool alarm;
    uint32_t count;
    uint32_t setpoint_one;
    uint32_t setpoint_two;
    uint64_t usage;
    uint64_t usage_setpoint;
} peer_input;

typedef struct {
    bool closed;
    uint64_t usage;
    uint64_t usage_setpoint;
} peer_relay;

typedef struct {
    peer_input inputs[WELLACORN_CHANNELS];
    peer_relay relays[WELLACORN_RELAYS];
    uint16_t present;       /* the relays that are there, lowest bit relay 1: 1 to 8 always, 9 to 16 with their modules */
    uint64_t clock;
} peer_tables;

typedef struct {
    bool is_open;
    uint8_t rank;
    bool monitor;
    bool due;
    bool external;
    uint8_t strict;         /* as its opening said: 0 is not strict */
    uint32_t unchecked;     /* the sent checksum that passes unchecked; on a strict connection a number that nobody can send */
} peer_line;

typedef struct {
    uint32_t got;
    uint16_t len;
    uint16_t sum;
} peer_half;

typedef struct {
    peer_line line;
    peer_half half;
    uint8_t room[WELLACORN_CONTENT];    /* the content bytes of the half-read message */
} peer_connection;

/* A pulse in the row that is lent: a ring of WELLACORN_PULSES places. */
typedef struct {
    uint16_t mask;
    uint16_t states;
    uint32_t duration;
} peer_pulse;

typedef struct {
    uint8_t first;          /* the running pulse's place */
    uint8_t standing;       /* the running one included */
    uint16_t remembered;    /* the relays when it began, lowest bit relay 1 */
    uint32_t left;          /* ms up to its end: not 0 while one runs */
    peer_pulse last;        /* accepted last */
} peer_queue;

typedef struct {
    peer_tables tables;
    peer_queue queue;
    peer_connection connections[WELLACORN_CONNECTIONS];
    size_t taken;           /* of the last peer_bytes or peer_collect: bytes taken of the piece */
    size_t len;             /* and the reply's length */
    size_t place;           /* and where a content has a wrong length, else 0 */
} peer_box;

/* Each answers as the library's function of that name. A row of `records` pulses is lent as there, under WELLACORN_PULSES it is a WELLACORN_SHORT_BUFFER. */
void peer_power_up(peer_box *box, const wellacorn_settings *settings);
uint8_t peer_level(peer_box *box, uint8_t k, uint8_t v);
uint8_t peer_pass(peer_box *box, const peer_pulse *row, size_t records, uint32_t d);
uint8_t peer_fill(peer_box *box, const peer_pulse *row, size_t records, uint8_t place);
uint8_t peer_empty(peer_box *box, peer_pulse *row, size_t records, uint8_t place);
uint8_t peer_connect(peer_box *box, uint8_t c, uint8_t rank, uint8_t strict);
uint8_t peer_close(peer_box *box, uint8_t c);

/* They always set `taken`, `len` and `place` of the box. By pointers of their own these would no longer fit registers beside the row. */
uint8_t peer_bytes(peer_box *box, peer_pulse *row, size_t records, uint8_t c, const uint8_t *piece, size_t piece_len, uint8_t *reply,
                   size_t reply_len);
uint8_t peer_collect(peer_box *box, uint8_t c, uint8_t *reply, size_t reply_len);

#endif
