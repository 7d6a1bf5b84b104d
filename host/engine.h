/* One way to call a box, over the library or, under ENGINE_PEER, over the plain C peer. What uses it is compiled for one of the two.
 *
 * An engine holds the box but for the row of pulses, which the caller lends in its own length: records of the type engine_pulse, whose
 * numbers engine_pulse_in gives. It also holds what the last call came to in `answer`, `taken`, `place` and `len`. All but `answer` are those of
 * the last engine_bytes or engine_collect; read them after no other call. Only engine_bytes comes to a place that is not 0.
 */
#ifndef ENGINE_H
#define ENGINE_H

#include "watch.h"
#include "wellacorn.h"

#ifdef ENGINE_PEER

#include "peer.h"

typedef peer_pulse engine_pulse;

typedef struct {
    peer_box box;
    uint8_t answer;
    uint64_t taken;
    uint64_t place;
    uint64_t len;
} engine;

static inline void engine_power_up(engine *e, const wellacorn_settings *s)
{
    peer_power_up(&e->box, s);
}

static inline void engine_level(engine *e, uint8_t k, uint8_t v)
{
    e->answer = peer_level(&e->box, k, v);
}

static inline void engine_pass(engine *e, const engine_pulse *row, size_t records, uint32_t d)
{
    e->answer = peer_pass(&e->box, row, records, d);
}

static inline void engine_fill(engine *e, const engine_pulse *row, size_t records, uint8_t place)
{
    e->answer = peer_fill(&e->box, row, records, place);
}

static inline void engine_empty(engine *e, engine_pulse *row, size_t records, uint8_t place)
{
    e->answer = peer_empty(&e->box, row, records, place);
}

static inline void engine_connect(engine *e, uint8_t c, uint8_t rank, uint8_t strict)
{
    e->answer = peer_connect(&e->box, c, rank, strict);
}

static inline void engine_close(engine *e, uint8_t c)
{
    e->answer = peer_close(&e->box, c);
}

static inline void engine_bytes(engine *e, engine_pulse *row, size_t records, uint8_t c, const uint8_t *piece, size_t piece_len,
                                uint8_t *reply, size_t reply_len)
{
    e->answer = peer_bytes(&e->box, row, records, c, piece, piece_len, reply, reply_len);
    e->taken = e->box.taken;
    e->place = e->box.place;
    e->len = e->box.len;
}

static inline void engine_collect(engine *e, uint8_t c, uint8_t *reply, size_t reply_len)
{
    e->answer = peer_collect(&e->box, c, reply, reply_len);
    e->taken = e->box.taken;
    e->place = e->box.place;
    e->len = e->box.len;
}

static inline wellacorn_queue engine_queue(const engine *e)
{
    const peer_queue *q = &e->box.queue;
    return (wellacorn_queue){
        .first = q->first,
        .standing = q->standing,
        .left = q->left,
        .remembered = q->remembered,
        .mask = q->last.mask,
        .states = q->last.states,
        .duration = q->last.duration,
    };
}

/* What the box holds, as the library has it: the words it does not use are 0. */
static inline wellacorn_board engine_board(const engine *e)
{
    const peer_tables *t = &e->box.tables;
    wellacorn_board b = {.clock = {.time = t->clock}, .queue = engine_queue(e)};
    for (int k = 0; k < WELLACORN_CHANNELS; k++) {
        const peer_input *in = &t->inputs[k];
        b.inputs[k] = (wellacorn_input){
            .level = in->level,
            .alarm = in->alarm,
            .count = in->count,
            .setpoint_one = in->setpoint_one,
            .setpoint_two = in->setpoint_two,
            .usage = in->usage,
            .usage_setpoint = in->usage_setpoint,
        };
    }
    for (int k = 0; k < WELLACORN_RELAYS; k++) {
        const peer_relay *relay = &t->relays[k];
        b.relays[k] = (wellacorn_relay){.closed = relay->closed, .usage = relay->usage, .usage_setpoint = relay->usage_setpoint};
    }
    for (int p = 0; p < WELLACORN_PLACES; p++) {
        b.places[p] = (wellacorn_place){.filled = t->present >> (WELLACORN_CHANNELS + 4 * p) & 1};
    }
    for (int c = 0; c < WELLACORN_CONNECTIONS; c++) {
        const peer_line *line = &e->box.connections[c].line;
        b.lines[c] = (wellacorn_line){
            .is_open = line->is_open,
            .rank = line->rank,
            .monitor = line->monitor,
            .due = line->due,
            .strict = line->strict,
            .external = line->external,
        };
    }
    return b;
}

/* How far a message of connection c has been read. A shut connection has read nothing. */
static inline wellacorn_half engine_half(const engine *e, int c)
{
    const peer_half *half = &e->box.connections[c].half;
    return (wellacorn_half){.got = half->got, .len = half->len, .sum = half->sum};
}

#else

typedef wellacorn_pulse engine_pulse;

typedef struct {
    wellacorn_board board;
    wellacorn_half halves[WELLACORN_CONNECTIONS];
    uint8_t rooms[WELLACORN_ROOMS];
    uint8_t answer;
    uint64_t taken;
    uint64_t place;
    uint64_t len;
} engine;

/* Power-up writes the whole board. Halves and rooms are written when they are used. */
static inline void engine_power_up(engine *e, const wellacorn_settings *s)
{
    watch_unwritten(&e->board, sizeof e->board);
    watch_unwritten(e->halves, sizeof e->halves);
    watch_unwritten(e->rooms, sizeof e->rooms);
    wellacorn_power_up(&e->board, *s);
}

static inline void engine_level(engine *e, uint8_t k, uint8_t v)
{
    e->answer = wellacorn_level(&e->board, k, v).answer;
}

static inline void engine_pass(engine *e, const engine_pulse *row, size_t records, uint32_t d)
{
    e->answer = wellacorn_pass(&e->board, row, records, d).answer;
}

static inline void engine_fill(engine *e, const engine_pulse *row, size_t records, uint8_t place)
{
    e->answer = wellacorn_fill(&e->board, row, records, place).answer;
}

static inline void engine_empty(engine *e, engine_pulse *row, size_t records, uint8_t place)
{
    e->answer = wellacorn_empty(&e->board, row, records, place).answer;
}

static inline void engine_connect(engine *e, uint8_t c, uint8_t rank, uint8_t strict)
{
    e->answer = wellacorn_connect(&e->board, e->halves, c, rank, strict).answer;
}

static inline void engine_close(engine *e, uint8_t c)
{
    e->answer = wellacorn_close(&e->board, e->halves, c).answer;
}

static inline void engine_came_to(engine *e, wellacorn_done d)
{
    e->answer = d.answer;
    e->taken = d.taken;
    e->place = d.place;
    e->len = d.len;
}

static inline void engine_bytes(engine *e, engine_pulse *row, size_t records, uint8_t c, const uint8_t *piece, size_t piece_len,
                                uint8_t *reply, size_t reply_len)
{
    engine_came_to(e, wellacorn_bytes(&e->board, e->halves, e->rooms, row, records, c, piece, piece_len, reply, reply_len));
}

static inline void engine_collect(engine *e, uint8_t c, uint8_t *reply, size_t reply_len)
{
    engine_came_to(e, wellacorn_collect(&e->board, c, reply, reply_len));
}

static inline wellacorn_board engine_board(const engine *e)
{
    return e->board;
}

static inline wellacorn_queue engine_queue(const engine *e)
{
    return e->board.queue;
}

static inline wellacorn_half engine_half(const engine *e, int c)
{
    static const wellacorn_half nothing_read;
    return e->board.lines[c].is_open ? e->halves[c] : nothing_read;
}

#endif

/* A record of the row, as the library has it. */
static inline wellacorn_pulse engine_pulse_in(const engine_pulse *record)
{
    return (wellacorn_pulse){.mask = record->mask, .states = record->states, .duration = record->duration};
}

#endif
