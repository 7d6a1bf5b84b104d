/* The calls of the library, each with what a host owes it. */
#define _POSIX_C_SOURCE 200809L

#include "box.h"

#include <inttypes.h>

/* ---- The trace: what the box was told, so that host/replay and tests/model.py can play it again. Bytes that a call did not take are left
 * out: they come in the line of the call that takes them. */

static void trace_hex(FILE *to, const uint8_t *bytes, size_t n)
{
    static const char digits[] = "0123456789ABCDEF";
    if (n == 0) {
        fputc('-', to);
    }
    for (size_t i = 0; i < n; i++) {
        fputc(digits[bytes[i] >> 4], to);
        fputc(digits[bytes[i] & 0xF], to);
    }
    fputc('\n', to);
}

static void trace_power(FILE *to, const wellacorn_settings *s)
{
    fputs("power", to);
    for (int k = 0; k < WELLACORN_CHANNELS; k++) {
        const wellacorn_input_settings *in = &s->inputs[k];
        fprintf(to, " %" PRIu32 " %" PRIu32 " %" PRIu64 " %d", in->setpoint_one, in->setpoint_two, in->usage_setpoint, in->alarm);
    }
    for (int k = 0; k < WELLACORN_CHANNELS; k++) {
        fprintf(to, " %" PRIu64, s->relays[k]);
    }
    fputc('\n', to);
}

/* ---- The calls */

void box_power_up(box *b, const wellacorn_settings *settings, FILE *trace)
{
    b->trace = trace;
    b->told = 0;
    wellacorn_box_power_up(&b->lent, *settings);
    if (b->trace != NULL) {
        trace_power(b->trace, settings);
    }
}

static unsigned closed_relays(const box *b)
{
    unsigned closed = 0;
    for (int k = 0; k < WELLACORN_RELAYS; k++) {
        closed |= (unsigned)(b->lent.board.relays[k].closed != 0) << k;
    }
    return closed;
}

/* The relays that are not as they were; whoever waits for that is told. */
static unsigned switched_since(const box *b, unsigned closed)
{
    unsigned switched = closed ^ closed_relays(b);
    if (switched != 0 && b->switched != NULL) {
        b->switched(b->whom, b);
    }
    return switched;
}

static uint32_t next_part(const box *b, uint64_t now)
{
    uint64_t part = now - b->told;
    part = box_next(b) < now ? box_next(b) - b->told : part;
    return part > UINT32_MAX ? UINT32_MAX : (uint32_t)part;
}

/* No pulse is asked for while the time is told: as many as are fewer then have ended. */
passed box_time(box *b, uint64_t now)
{
    const wellacorn_queue before = b->lent.board.queue;
    unsigned closed = closed_relays(b);
    while (now > b->told) {
        uint32_t part = next_part(b, now);
        unsigned were = closed_relays(b);
        wellacorn_box_pass(&b->lent, part);
        b->told += part;
        if (b->trace != NULL) {
            fprintf(b->trace, "pass %" PRIu32 "\n", part);
        }
        switched_since(b, were);
    }
    return (passed){
        .first = before.first,
        .stood = before.standing,
        .ended = before.standing - b->lent.board.queue.standing,
        .switched = closed ^ closed_relays(b),
    };
}

uint64_t box_next(const box *b)
{
    const wellacorn_queue *queue = &b->lent.board.queue;
    return queue->standing > 0 ? b->told + queue->left : UINT64_MAX;
}

const wellacorn_pulse *box_pulse(const box *b, uint64_t first, uint64_t i)
{
    return &b->lent.row[(first + i) % WELLACORN_PULSES];
}

unsigned box_first_relay(unsigned place)
{
    return WELLACORN_CHANNELS + BOX_MODULE * (place - 1) + 1;
}

unsigned box_place_of(unsigned relay)
{
    return (relay - WELLACORN_CHANNELS - 1) / BOX_MODULE + 1;
}

bool box_is_filled(const box *b, unsigned place)
{
    return place >= 1 && place <= WELLACORN_PLACES && b->lent.board.places[place - 1].filled != 0;
}

wellacorn_done box_fill(box *b, uint8_t place)
{
    if (b->trace != NULL) {
        fprintf(b->trace, "fill %u\n", place);
    }
    wellacorn_done done = wellacorn_box_fill(&b->lent, place);
    if (b->switched != NULL) {
        b->switched(b->whom, b);
    }
    return done;
}

/* Of the pulses that stand, how many have relays of a module at this place in their masks. */
static size_t pulses_with(const box *b, unsigned place)
{
    const wellacorn_queue *queue = &b->lent.board.queue;
    const unsigned module = 0xFu << (box_first_relay(place) - 1);
    size_t n = 0;
    for (size_t i = 0; i < queue->standing; i++) {
        n += (box_pulse(b, queue->first, i)->mask & module) != 0;
    }
    return n;
}

emptied box_empty(box *b, uint8_t place)
{
    bool was_filled = box_is_filled(b, place);
    size_t pulses = was_filled ? pulses_with(b, place) : 0;
    unsigned closed = closed_relays(b);
    if (b->trace != NULL) {
        fprintf(b->trace, "empty %u\n", place);
    }
    wellacorn_done done = wellacorn_box_empty(&b->lent, place);
    return (emptied){.done = done, .was_filled = was_filled, .switched = switched_since(b, closed), .pulses = pulses};
}

wellacorn_done box_level(box *b, uint8_t k, uint8_t v)
{
    if (b->trace != NULL) {
        fprintf(b->trace, "level %u %u\n", k, v);
    }
    return wellacorn_box_level(&b->lent, k, v);
}

wellacorn_done box_connect(box *b, uint8_t c, uint8_t rank, bool strict)
{
    if (b->trace != NULL) {
        fprintf(b->trace, "open %u %u%s\n", c, rank, strict ? " 1" : "");
    }
    return wellacorn_box_connect(&b->lent, c, rank, strict);
}

wellacorn_done box_close(box *b, uint8_t c)
{
    if (b->trace != NULL) {
        fprintf(b->trace, "close %u\n", c);
    }
    return wellacorn_box_close(&b->lent, c);
}

came box_bytes(box *b, uint8_t c, const uint8_t *piece, size_t n)
{
    uint64_t got = b->lent.halves[c].got;
    unsigned closed = closed_relays(b);
    wellacorn_done done = wellacorn_box_bytes(&b->lent, c, piece, n, b->reply, sizeof b->reply);
    if (b->trace != NULL) {
        fprintf(b->trace, "bytes %u %zu ", c, sizeof b->reply);
        trace_hex(b->trace, piece, (size_t)done.taken);
    }
    return (came){.done = done, .read = got + done.taken, .switched = switched_since(b, closed)};
}

wellacorn_done box_collect(box *b, uint8_t c)
{
    if (b->trace != NULL) {
        fprintf(b->trace, "collect %u %zu\n", c, sizeof b->reply);
    }
    return wellacorn_box_collect(&b->lent, c, b->reply, sizeof b->reply);
}

bool box_due(const box *b, uint8_t c)
{
    const wellacorn_line *line = &b->lent.board.lines[c];
    return line->due != 0 || line->external != 0;
}

size_t box_content(const box *b, uint8_t c, const uint8_t **content)
{
    return (size_t)wellacorn_box_content(&b->lent, c, content);
}

/* ---- What the host itself says. */

size_t frame_of(uint8_t *frame, const uint8_t *content, size_t n)
{
    return (size_t)wellacorn_frame(frame, content, n);
}
