/* Holds the header's structs to the archive's: nothing else compares the two.
 *
 * Prints `layout: header and archive agree`, or what differs, and then exits 1.
 *
 * Each call is made on a box of which every word is another number, between words that are nobody's. Beside it stands what is expected: the
 * same words, and what the call does to them said by the names of the header. After the call the two must not differ in any word. So each
 * field is seen where some call changes it and no other, and what a call does not name is seen to stay: the unused words, the rooms of the
 * other connections, the other records of the row, the words around the box. Likewise what the header's own functions keep in the box besides: how
 * long the content is that a call has ended.
 */
#include "wellacorn.h"

#include <inttypes.h>
#include <stdio.h>
#include <stdlib.h>
#include <string.h>

#define COUNT(array) (sizeof(array) / sizeof((array)[0]))

typedef struct {
    uint64_t before[8];
    wellacorn_box box;
    uint64_t behind[8];         /* directly behind the row: as if it had eight records more */
} lent;

static_assert(offsetof(lent, behind) == offsetof(lent, box) + offsetof(wellacorn_box, row) + WELLACORN_PULSES * sizeof(wellacorn_pulse),
              "nothing stands between the row and what is behind it");

static lent found, expected;
static wellacorn_board *const board = &expected.box.board;
static uint8_t reply[WELLACORN_REPLY];

/* The i-th number: no two are alike, none is small, and all eight bytes of it are used. */
static uint64_t number(uint64_t i)
{
    return (i + 1) * 0x9E3779B97F4A7C15u;
}

static uint64_t word_of(const lent *l, size_t i)
{
    uint64_t word;
    memcpy(&word, (const unsigned char *)l + i * sizeof word, sizeof word);
    return word;
}

/* ---- Comparing */

static unsigned differences;

static void same(const char *call, const char *what, size_t at, uint64_t is, uint64_t should)
{
    if (is != should && differences++ < 20) {
        printf("layout: %s: %s %zu is %" PRIx64 ", not %" PRIx64 " (hexadecimal)\n", call, what, at, is, should);
    }
}

static void same_lent(const char *call)
{
    const size_t first = offsetof(lent, box) / 8, halves = first + sizeof(wellacorn_board) / 8;
    for (size_t i = 0; i < sizeof(lent) / 8; i++) {
        const char *what = i < first ? "before the box, word" : i < halves ? "the board's word" : "behind the board, word";
        same(call, what, i < first ? i : i < halves ? i - first : i - halves, word_of(&found, i), word_of(&expected, i));
    }
}

static void came_to_at(const char *call, wellacorn_done d, uint8_t answer, size_t taken, size_t place, size_t len)
{
    same(call, "answer", 0, d.answer, answer);
    same(call, "taken", 0, d.taken, taken);
    same(call, "place", 0, d.place, place);
    same(call, "len", 0, d.len, len);
    same_lent(call);
}

/* The same of a call that gives no place: of every one that does not refuse a message for its length. */
static void came_to(const char *call, wellacorn_done d, uint8_t answer, size_t taken, size_t len)
{
    came_to_at(call, d, answer, taken, 0, len);
}

/* ---- What a call finds: a test sets in `expected` what matters to its call, then says `begin`, then what the call does. */

/* No pulse stands. Both places hold a module, by words that no call stores. */
static void scribble(void)
{
    for (size_t i = 0; i < sizeof expected / 8; i++) {
        uint64_t word = number(i);
        memcpy((unsigned char *)&expected + i * sizeof word, &word, sizeof word);
    }
    board->queue.standing = 0;
}

static void begin(void)
{
    found = expected;
}

/* Modules stand at the places whose bits are set, lowest bit place 1, and nowhere else. */
enum { NO_MODULE = 0, AT_PLACE_1 = 1, AT_PLACE_2 = 2, BOTH_MODULES = AT_PLACE_1 | AT_PLACE_2 };

static void modules(unsigned filled)
{
    for (unsigned p = 0; p < WELLACORN_PLACES; p++) {
        board->places[p].filled = filled >> p & 1 ? board->places[p].filled : 0;
    }
}

/* Whether relay k is there. */
static bool is_there(unsigned filled, unsigned k)
{
    return k <= 8 || (filled >> (k <= 12 ? 0 : 1) & 1);
}

static const wellacorn_half nothing_read;

/* Connection c is open at rank 2 and not strict, its Monitor on and nothing due, at a message start. The others have ranks that nobody has. */
static wellacorn_line *listening(uint8_t c)
{
    wellacorn_line *line = &board->lines[c];
    *line = (wellacorn_line){.is_open = 1, .rank = 2, .monitor = 1};
    expected.box.halves[c] = nothing_read;
    return line;
}

/* The same, but strict, and by words that no call stores: a mark leaves them as they are. The marks that the call is to set are not set; one that it
 * has to leave is not set on the odd connections and set on the even ones, so that it is seen to stay either way. */
static void watching(uint8_t c, bool due, bool external)
{
    wellacorn_line *line = &board->lines[c];
    line->rank = 2;
    line->due = due || c % 2 == 1 ? 0 : line->due;
    line->external = external || c % 2 == 1 ? 0 : line->external;
    expected.box.halves[c] = nothing_read;
}

/* The call sets these marks of connection c, and no other word of it. */
static void marked(uint8_t c, bool due, bool external)
{
    wellacorn_line *line = &board->lines[c];
    line->due = due ? 1 : line->due;
    line->external = external ? 1 : line->external;
}

/* The remainder is c, and says so to the compiler, which has seen that the header takes every c. */
static uint8_t *room_of(uint8_t c)
{
    return expected.box.rooms + (size_t)WELLACORN_CONTENT * (c % WELLACORN_CONNECTIONS);
}

/* The call on connection c ends a content of n bytes, or none where n is 0. */
static void ends(uint8_t c, size_t n)
{
    expected.box.ended[c] = n;
}

/* After a call of bytes: what the header says of the content is what is expected, and no connection is above 3. */
static void same_content(const char *call, uint8_t c)
{
    const uint8_t *content = NULL;
    same(call, "content length of connection", c, wellacorn_box_content(&found.box, c, &content), c <= 3 ? expected.box.ended[c] : 0);
    same(call, "content place of connection", c, (uint64_t)(content - found.box.rooms), c <= 3 ? 1024u * c : 0);
}

/* A whole message of which the box keeps the content and makes no reply. */
static void send_at(const char *call, uint8_t c, const uint8_t *content, size_t n, uint8_t answer, size_t place)
{
    uint8_t frame[5 + WELLACORN_CONTENT] = {0x01, (uint8_t)(n >> 8), (uint8_t)n, 0xFF, 0xFF};
    memcpy(frame + 5, content, n);
    memcpy(room_of(c), content, n);
    ends(c, n);
    came_to_at(call, wellacorn_box_bytes(&found.box, c, frame, 5 + n, reply, sizeof reply), answer, 5 + n, place, 0);
    same_content(call, c);
}

static void send_for(const char *call, uint8_t c, const uint8_t *content, size_t n, uint8_t answer)
{
    send_at(call, c, content, n, answer, 0);
}

static void send(const char *call, uint8_t c, const uint8_t *content, size_t n)
{
    send_for(call, c, content, n, WELLACORN_SERVED);
}

/* The same with its checksum. */
static void send_checked_for(const char *call, uint8_t c, const uint8_t *content, size_t n, uint8_t answer)
{
    uint8_t frame[16];
    wellacorn_frame(frame, content, n);
    memcpy(room_of(c), content, n);
    ends(c, n);
    came_to(call, wellacorn_box_bytes(&found.box, c, frame, 5 + n, reply, sizeof reply), answer, 5 + n, 0);
}

static void send_checked(const char *call, uint8_t c, const uint8_t *content, size_t n)
{
    send_checked_for(call, c, content, n, WELLACORN_SERVED);
}

/* ---- The settings: each comes to its place, the board is 0 elsewhere, and nothing besides is written to */

static void try_power_up(int alarmed)
{
    wellacorn_settings s;
    scribble();
    begin();
    memset(board, 0, sizeof *board);
    for (int k = 0; k < WELLACORN_CHANNELS; k++) {
        const uint64_t i = 8 * (uint64_t)k;
        s.inputs[k] = (wellacorn_input_settings){(uint32_t)number(i), (uint32_t)number(i + 1), number(i + 2), k == alarmed};
        s.relays[k] = number(i + 3);
        board->inputs[k].setpoint_one = s.inputs[k].setpoint_one;
        board->inputs[k].setpoint_two = s.inputs[k].setpoint_two;
        board->inputs[k].usage_setpoint = s.inputs[k].usage_setpoint;
        board->inputs[k].alarm = k == alarmed;
        board->relays[k].usage_setpoint = s.relays[k];
    }
    memset(expected.box.ended, 0, sizeof expected.box.ended);
    wellacorn_box_power_up(&found.box, s);
    same_lent("power-up");
}

/* ---- The board: each field where a call changes it. An input and a connection are stored with their row: flags as 0 and 1, unused words as 0.
 * Of a relay no unused word is stored, and with a mark no other word. */

/* Input k alone is on, and of relays 1 to 8 relay k alone is closed; relays 9 to 16 are closed, and have no usage. */
static void try_pass(int k)
{
    const uint32_t d = UINT32_MAX;
    scribble();
    for (int other = 0; other < WELLACORN_CHANNELS; other++) {
        board->inputs[other].level = other == k;
        board->relays[other].closed = other == k;
    }
    begin();
    board->inputs[k].usage += d;
    board->relays[k].usage += d;
    board->clock.time += d;
    came_to("pass", wellacorn_box_pass(&found.box, d), WELLACORN_SERVED, 0, 0);
}

static void try_level(uint8_t k, uint8_t c, unsigned filled)
{
    wellacorn_input *in = &board->inputs[k - 1];
    scribble();
    modules(filled);
    watching(c, true, filled != NO_MODULE);
    in->level = 0;
    in->count = UINT32_MAX - 1;
    begin();
    in->level = in->alarm = 1;
    in->count = UINT32_MAX;
    in->unused = 0;
    marked(c, true, filled != NO_MODULE);
    came_to("level", wellacorn_box_level(&found.box, k, 1), WELLACORN_SERVED, 0, 0);
}

/* Relay k is commanded closed or open, which it was not. A relay of the second deck does not mark Monitor. */
static void try_switch_relay(uint8_t k, uint8_t c, unsigned filled, bool closed)
{
    wellacorn_relay *relay = &board->relays[k - 1];
    scribble();
    modules(filled);
    watching(c, k <= 8, filled != NO_MODULE);
    relay->closed = closed ? 0 : relay->closed;
    begin();
    relay->closed = closed;
    marked(c, k <= 8, filled != NO_MODULE);
    send_checked("a relay is switched", c, (const uint8_t[]){10, closed ? 1 : 2, 0, k}, 4);
}

/* Relay k, whose module is not there, is not switched and not pulsed. */
static void try_absent_relay(uint8_t k, uint8_t c, unsigned filled)
{
    scribble();
    modules(filled);
    watching(c, true, true);
    begin();
    for (uint8_t action = 1; action <= 3; action++) {
        send_checked_for("a relay is not there", c, (const uint8_t[]){10, action, 0, k}, 4, WELLACORN_OUT_OF_RANGE);
    }
    send_checked_for("a relay is not there to pulse", c, (const uint8_t[]){10, 6, 0, k, 0, 0, 0, 1}, 8, WELLACORN_OUT_OF_RANGE);
}

static void try_relays(uint8_t c, unsigned filled)
{
    for (uint8_t k = 1; k <= WELLACORN_RELAYS; k++) {
        if (is_there(filled, k)) {
            try_switch_relay(k, c, filled, true);
            try_switch_relay(k, c, filled, false);
        } else {
            try_absent_relay(k, c, filled);
        }
    }
}

/* The byte that says strict stands in the board as it is. */
static void try_connect(uint8_t c, uint8_t rank, uint8_t strict, unsigned filled)
{
    bool external = rank > 0 && filled != NO_MODULE;
    scribble();
    modules(filled);
    board->lines[c].is_open = 0;
    begin();
    board->lines[c] = (wellacorn_line){.is_open = 1, .rank = rank, .monitor = 1, .due = rank > 0, .strict = strict, .external = external};
    expected.box.halves[c] = nothing_read;
    ends(c, 0);
    came_to("connect", wellacorn_box_connect(&found.box, c, rank, strict), WELLACORN_SERVED, 0, 0);
}

static void try_connects(uint8_t c, unsigned filled)
{
    static const uint8_t says[] = {0, 1, 2, 128, 255};
    for (uint8_t rank = 0; rank <= 2; rank++) {
        for (size_t i = 0; i < COUNT(says); i++) {
            try_connect(c, rank, says[i], filled);
        }
    }
}

static void try_close(uint8_t c)
{
    scribble();
    begin();
    board->lines[c] = (wellacorn_line){.is_open = 0};
    expected.box.halves[c] = nothing_read;
    ends(c, 0);
    came_to("close", wellacorn_box_close(&found.box, c), WELLACORN_SERVED, 0, 0);
}

/* Requests 4 and 5 turn Monitor off, with what is due, and on. */
static void try_monitor(uint8_t c)
{
    scribble();
    wellacorn_line *line = listening(c);
    line->due = line->external = 1;
    begin();
    line->monitor = line->due = line->external = 0;
    send("Monitor off", c, (const uint8_t[]){5, 0, 4}, 3);
    line->monitor = 1;
    send("Monitor on", c, (const uint8_t[]){5, 0, 5}, 3);
    line->monitor = 0;
    line->due = line->external = 1;
    begin();
    line->monitor = 1;
    send("Monitor on, due", c, (const uint8_t[]){5, 0, 5}, 3);
}

/* The frames of both Monitor messages, each with its header. */
enum { MONITOR_FRAME = 102, EXTERNAL_FRAME = 16 };   /* of the latter without its outputs: a byte each */

static size_t external_frame(unsigned filled)
{
    return EXTERNAL_FRAME + (filled == BOTH_MODULES ? 8 : 4);
}

/* The External Monitor message of a board on which every relay is closed, at a place of the reply. */
static void same_external(const char *call, size_t at, unsigned filled)
{
    const size_t n = external_frame(filled) - EXTERNAL_FRAME;
    const uint8_t head[] = {2, 0, (uint8_t)n};
    same(call, "reply byte", at, reply[at], 0x01);
    same(call, "reply byte", at + 2, reply[at + 2], 11 + n);
    for (size_t i = 0; i < sizeof head; i++) {
        same(call, "reply byte", at + 5 + i, reply[at + 5 + i], head[i]);
    }
    for (size_t i = 0; i < n; i++) {
        same(call, "reply byte", at + 8 + i, reply[at + 8 + i], 1);
    }
    for (size_t i = 0; i < 8; i++) {
        same(call, "reply byte", at + 8 + n + i, reply[at + 8 + n + i], board->clock.time >> (56 - 8 * i) & 0xFF);
    }
}

static void try_collect(uint8_t c, unsigned filled, bool due, bool external)
{
    const size_t monitor = due ? MONITOR_FRAME : 0, len = monitor + (external ? external_frame(filled) : 0);
    scribble();
    modules(filled);
    wellacorn_line *line = listening(c);
    line->due = due;
    line->external = external;
    begin();
    line->due = line->external = 0;
    came_to("collect", wellacorn_box_collect(&found.box, c, reply, sizeof reply), len > 0 ? WELLACORN_SERVED : WELLACORN_WAITING, 0, len);
    same("collect", "reply byte", 5, due ? reply[5] : 1, 1);
    if (external) {
        same_external("collect", monitor, filled);
    }
}

static void try_collects(uint8_t c)
{
    for (unsigned filled = NO_MODULE; filled <= BOTH_MODULES; filled++) {
        for (unsigned due = 0; due <= 1; due++) {
            for (unsigned external = 0; external <= (filled == NO_MODULE ? 0 : 1); external++) {
                try_collect(c, filled, due, external);
            }
        }
    }
}

/* Request 1 is answered with both messages where there is a module, and leaves both marks as they are. */
static void try_request(uint8_t c, unsigned filled)
{
    const uint8_t frame[] = {0x01, 0, 3, 0xFF, 0xFF, 5, 0, 1};
    const size_t len = MONITOR_FRAME + (filled == NO_MODULE ? 0 : external_frame(filled));
    scribble();
    modules(filled);
    const wellacorn_line words = board->lines[c];
    wellacorn_line *line = listening(c);
    line->due = words.due;
    line->external = words.external;
    begin();
    memcpy(room_of(c), frame + 5, 3);
    ends(c, 3);
    came_to("request 1", wellacorn_box_bytes(&found.box, c, frame, sizeof frame, reply, sizeof reply), WELLACORN_SERVED, sizeof frame, len);
    same("request 1", "reply byte", 5, reply[5], 1);
    if (filled != NO_MODULE) {
        same_external("request 1", MONITOR_FRAME, filled);
    }
}

/* Only the word `strict` differs between a connection on which 0xFFFF passes and one on which it does not. Whatever else writes its row leaves
 * that word as it is. */
static void try_strict(uint8_t c)
{
    scribble();
    wellacorn_line *line = listening(c);
    line->strict = 128;
    board->inputs[0] = (wellacorn_input){.level = 0};
    begin();
    send_for("strict, 0xFFFF", c, (const uint8_t[]){5, 0, 4}, 3, WELLACORN_BAD_CHECKSUM);
    line->monitor = 0;
    send_checked("strict, Monitor off", c, (const uint8_t[]){5, 0, 4}, 3);
    line->monitor = 1;
    send_checked("strict, Monitor on", c, (const uint8_t[]){5, 0, 5}, 3);
    line->due = line->external = board->inputs[0].level = board->inputs[0].count = 1;
    came_to("strict, level", wellacorn_box_level(&found.box, 1, 1), WELLACORN_SERVED, 0, 0);
    line->due = line->external = 0;
    came_to("strict, collect", wellacorn_box_collect(&found.box, c, reply, sizeof reply), WELLACORN_SERVED, 0,
            MONITOR_FRAME + external_frame(BOTH_MODULES));
    send_for("strict still, 0xFFFF", c, (const uint8_t[]){5, 0, 5}, 3, WELLACORN_BAD_CHECKSUM);
}

/* ---- Pulses: the queue's row of the board, and the records of the row that is lent */

enum { BEFORE = 0xC2A6, LEFT = 0x07654321 };

/* Relay k as a bit; the relay behind relay 16 is relay 1. */
static uint16_t bit_of(unsigned k)
{
    return (uint16_t)(1u << (k - 1) % WELLACORN_RELAYS);
}

/* The relays are as the bits say, and so many pulses stand from the place `first` on: records of numbers of their own, the i-th of those that
 * stand of relay k + i alone, the 0th running. It began with the relays BEFORE, and has LEFT ms left. */
static void queue_up_of(unsigned k, uint16_t relays, unsigned first, unsigned standing)
{
    for (unsigned i = 0; i < WELLACORN_CHANNELS; i++) {
        board->inputs[i].level = 0;
    }
    for (unsigned i = 0; i < WELLACORN_RELAYS; i++) {
        board->relays[i] = (wellacorn_relay){.closed = relays >> i & 1, .usage = number(i), .usage_setpoint = number(i + WELLACORN_RELAYS)};
    }
    for (unsigned i = 0; i < standing; i++) {
        uint16_t mask = bit_of(k + i);
        expected.box.row[(first + i) % WELLACORN_PULSES] = (wellacorn_pulse){mask, mask, 0x01020304 + i};
    }
    board->queue = (wellacorn_queue){
        .first = first, .standing = standing, .left = LEFT, .remembered = BEFORE, .mask = 0x12, .states = 0x02, .duration = 0x09080706};
}

static void queue_up(uint16_t relays, unsigned first, unsigned standing)
{
    queue_up_of(1, relays, first, standing);
}

/* A request that comes behind others is written behind them, and does nothing else: one of a block, and one of a relay. */
static void try_pulse_waits(unsigned first, unsigned standing)
{
    const uint8_t k = (uint8_t)(1 + (first + standing) % WELLACORN_RELAYS);
    wellacorn_queue *q = &board->queue;
    scribble();
    listening(0);
    queue_up(0x5A5A, first, standing);
    begin();
    expected.box.row[(first + standing) % WELLACORN_PULSES] = (wellacorn_pulse){0xC3, 0x41, 0xFEDCBA98};
    q->standing++;
    q->mask = 0xC3;
    q->states = 0x41;
    q->duration = 0xFEDCBA98;
    send("a pulse waits", 0, (const uint8_t[]){10, 7, 0xC3, 0x41, 0xFE, 0xDC, 0xBA, 0x98}, 8);
    if (standing + 1 < WELLACORN_PULSES) {
        expected.box.row[(first + standing + 1) % WELLACORN_PULSES] = (wellacorn_pulse){bit_of(k), bit_of(k), 0x00FF0001};
        q->standing++;
        q->mask = q->states = bit_of(k);
        q->duration = 0x00FF0001;
        send("a pulse of a relay waits", 0, (const uint8_t[]){10, 6, 0, k, 0x00, 0xFF, 0x00, 0x01}, 8);
    }
}

/* One that finds none begins: of relay k, which closes. */
static void try_pulse_begins(uint8_t k, uint8_t c, unsigned first)
{
    const uint16_t bit = bit_of(k), closed = (uint16_t)(0x5A5A & ~bit);
    scribble();
    listening(c);
    queue_up(closed, first, 0);
    board->queue.left = board->queue.remembered = 0;
    begin();
    expected.box.row[first] = (wellacorn_pulse){bit, bit, 0x10203040};
    board->queue = (wellacorn_queue){
        .first = first, .standing = 1, .left = 0x10203040, .remembered = closed, .mask = bit, .states = bit, .duration = 0x10203040};
    board->relays[k - 1].closed = 1;
    marked(c, k <= 8, true);
    send("a pulse begins", c, (const uint8_t[]){10, 6, 0, k, 0x10, 0x20, 0x30, 0x40}, 8);
}

/* The 32nd is refused, whatever its place would be; for its length before that. */
static void try_queue_full(unsigned first)
{
    scribble();
    listening(0);
    queue_up(0x5A5A, first, WELLACORN_PULSES);
    begin();
    send_for("the queue is full", 0, (const uint8_t[]){10, 6, 0, 1, 0, 0, 0, 1}, 8, WELLACORN_QUEUE_FULL);
    send_at("the queue is full, cut", 0, (const uint8_t[]){10, 6, 0, 1, 0, 0, 0}, 7, WELLACORN_ENDS_EARLY, 7);
}

/* d ms for the clock and for those of relays 1 to 8 that are closed. */
static void passes(uint32_t d)
{
    board->clock.time += d;
    for (int k = 0; k < WELLACORN_CHANNELS; k++) {
        board->relays[k].usage += board->relays[k].closed ? d : 0;
    }
}

static void try_pulse_runs(unsigned first)
{
    scribble();
    queue_up(0x5A5A, first, 2);
    begin();
    passes(LEFT - 1);
    board->queue.left = 1;
    came_to("a pulse runs", wellacorn_box_pass(&found.box, LEFT - 1), WELLACORN_SERVED, 0, 0);
}

/* Relay k, which the pulse has closed, returns to what it was, which is open; none waits. */
static void try_pulse_ends(unsigned k, uint8_t c, unsigned first)
{
    wellacorn_queue *q = &board->queue;
    scribble();
    listening(c);
    queue_up_of(k, (uint16_t)(0x5A5A | bit_of(k)), first, 1);
    q->remembered = BEFORE & ~bit_of(k);
    begin();
    passes(LEFT);
    board->relays[k - 1].closed = 0;
    marked(c, k <= 8, true);
    q->first = (first + 1) % WELLACORN_PULSES;
    q->standing = q->left = q->remembered = 0;
    passes(7);
    came_to("a pulse ends", wellacorn_box_pass(&found.box, LEFT + 7), WELLACORN_SERVED, 0, 0);
}

/* The same, and relay k + 1, behind 16 relay 1, closes for the one that waits: each of the two marks what it changes. */
static void try_pulse_follows(unsigned k, uint8_t c, unsigned first)
{
    const uint16_t others = (uint16_t)(0x5A5A & ~(bit_of(k) | bit_of(k + 1)));
    wellacorn_queue *q = &board->queue;
    scribble();
    listening(c);
    queue_up_of(k, others | bit_of(k), first, 2);
    q->remembered = BEFORE & ~bit_of(k);
    begin();
    passes(LEFT);
    board->relays[k - 1].closed = 0;
    board->relays[k % WELLACORN_RELAYS].closed = 1;
    marked(c, k <= 8 || k == WELLACORN_RELAYS, true);
    q->first = (first + 1) % WELLACORN_PULSES;
    q->standing = 1;
    q->left = 0x01020305;
    q->remembered = others;
    came_to("a pulse follows", wellacorn_box_pass(&found.box, LEFT), WELLACORN_SERVED, 0, 0);
}

/* All of it with the running pulse at one place of the row. */
static void try_pulses(unsigned first)
{
    const uint8_t c = (uint8_t)(first % WELLACORN_CONNECTIONS);
    for (unsigned standing = 1; standing < WELLACORN_PULSES; standing++) {
        try_pulse_waits(first, standing);
    }
    for (uint8_t k = 1; k <= WELLACORN_RELAYS; k++) {
        try_pulse_begins(k, c, first);
        try_pulse_ends(k, c, first);
        try_pulse_follows(k, c, first);
    }
    try_queue_full(first);
    try_pulse_runs(first);
}

/* A longer row than is needed: no record from the 32nd on is read or written to. At the place 31 of such a row stands what is behind the box. */
static void try_longer_row(void)
{
    enum { LONGER = WELLACORN_PULSES + 8, LAST = WELLACORN_PULSES - 1 };
    const uint8_t frame[] = {0x01, 0, 8, 0xFF, 0xFF, 10, 7, 0x03, 0x02, 0, 0, 0, 5};
    wellacorn_box *box = &found.box;
    wellacorn_queue *q = &board->queue;
    scribble();
    listening(0);
    queue_up(0x5A5A, LAST, 1);
    begin();
    memcpy(room_of(0), frame + 5, 8);
    expected.box.row[0] = (wellacorn_pulse){0x03, 0x02, 5};
    q->standing = 2;
    q->mask = 0x03;
    q->states = 0x02;
    q->duration = 5;
    came_to("a longer row, bytes",
            wellacorn_bytes(&box->board, box->halves, box->rooms, box->row, LONGER, 0, frame, sizeof frame, reply, sizeof reply),
            WELLACORN_SERVED, sizeof frame, 0);
    passes(LEFT);                           /* relay 1 is open as before; relay 2, which is closed, is to be closed */
    q->first = 0;
    q->standing = 1;
    q->left = 5;
    q->remembered = 0x5A5A;
    came_to("a longer row, pass", wellacorn_pass(&box->board, box->row, LONGER, LEFT), WELLACORN_SERVED, 0, 0);
}

/* ---- The second deck: its places, their relays, the marks, and the pulses that stand in the row */

/* The first relay of a module at a place. */
static unsigned first_relay(unsigned place)
{
    return place == 1 ? 9 : 13;
}

/* A module is plugged in where there is none: its relays are open, whatever words they had. The row is not looked into, and nothing becomes due. Where
 * there is one already nothing changes. */
static void try_fill(uint8_t place, unsigned filled, uint8_t c)
{
    scribble();
    modules(filled);
    watching(c, false, false);
    board->queue.standing = WELLACORN_PULSES;
    begin();
    if ((filled >> (place - 1) & 1) == 0) {
        board->places[place - 1].filled = 1;
        for (unsigned k = first_relay(place); k < first_relay(place) + 4; k++) {
            board->relays[k - 1].closed = 0;
        }
    }
    came_to("fill", wellacorn_box_fill(&found.box, place), WELLACORN_SERVED, 0, 0);
}

/* What an emptying makes of the pulses that stand: words of their own, of which the masks alone lose the module's relays. */
static void masks_lose(unsigned place, unsigned first, unsigned standing)
{
    const unsigned module = 0xFu << (first_relay(place) - 1);
    for (unsigned i = 0; i < standing; i++) {
        expected.box.row[(first + i) % WELLACORN_PULSES].mask &= (uint16_t)~module;
    }
}

/* The module at a place is pulled, of whose relays those were closed whose bits are set, lowest bit its first. Where the other module stays, connection
 * c is told of what opened; where none does, nothing of it is due to anybody. */
static void try_empty(uint8_t place, unsigned filled, unsigned closed, uint8_t c, unsigned first, unsigned standing)
{
    const bool stays = filled == BOTH_MODULES;
    scribble();
    modules(filled);
    watching(c, false, stays && closed != 0);
    board->queue.first = first;
    board->queue.standing = standing;
    for (unsigned i = 0; i < 4; i++) {
        wellacorn_relay *relay = &board->relays[first_relay(place) - 1 + i];
        relay->closed = closed >> i & 1 ? relay->closed : 0;
    }
    begin();
    board->places[place - 1].filled = 0;
    for (unsigned i = 0; i < 4; i++) {
        board->relays[first_relay(place) - 1 + i].closed = 0;
    }
    masks_lose(place, first, standing);
    marked(c, false, stays && closed != 0);
    for (int line = 0; line < WELLACORN_CONNECTIONS && !stays; line++) {
        board->lines[line].external = 0;
    }
    came_to("empty", wellacorn_box_empty(&found.box, place), WELLACORN_SERVED, 0, 0);
}

/* A place that is empty already: nothing changes, not even of pulses that name its relays. */
static void try_empty_again(uint8_t place, unsigned filled, uint8_t c)
{
    scribble();
    modules(filled);
    watching(c, false, false);
    board->queue.standing = WELLACORN_PULSES;
    begin();
    came_to("empty again", wellacorn_box_empty(&found.box, place), WELLACORN_SERVED, 0, 0);
}

static void try_place(uint8_t place, uint8_t c)
{
    for (unsigned filled = NO_MODULE; filled <= BOTH_MODULES; filled++) {
        try_fill(place, filled, c);
        if ((filled >> (place - 1) & 1) == 0) {
            try_empty_again(place, filled, c);
            continue;
        }
        for (unsigned closed = 0x0; closed <= 0xF; closed++) {
            try_empty(place, filled, closed, c, 0, 0);
        }
        for (unsigned first = 0; first < WELLACORN_PULSES; first++) {
            for (unsigned standing = 1; standing <= WELLACORN_PULSES; standing += 5) {
                try_empty(place, filled, standing % 16, c, first, standing);
            }
        }
    }
}

/* No other place is there, and with a row that is too short not even that is looked at: nothing changes. */
static void try_no_place(uint8_t place, uint8_t c)
{
    wellacorn_box *box = &found.box;
    scribble();
    watching(c, false, false);
    board->queue.standing = WELLACORN_PULSES;
    begin();
    came_to("fill, no place", wellacorn_box_fill(box, place), WELLACORN_OUT_OF_RANGE, 0, 0);
    came_to("empty, no place", wellacorn_box_empty(box, place), WELLACORN_OUT_OF_RANGE, 0, 0);
    came_to("fill, short row", wellacorn_fill(&box->board, box->row, WELLACORN_PULSES - 1, place), WELLACORN_SHORT_BUFFER, 0, 0);
    came_to("empty, short row", wellacorn_empty(&box->board, box->row, 0, place), WELLACORN_SHORT_BUFFER, 0, 0);
}

static void try_places(uint8_t c)
{
    static const uint8_t none[] = {0, 3, 4, 128, 255};
    for (uint8_t place = 1; place <= WELLACORN_PLACES; place++) {
        try_place(place, c);
    }
    for (size_t i = 0; i < COUNT(none); i++) {
        try_no_place(none[i], c);
    }
}

/* A longer row than is needed: the pulses that stand are among the first 31 records, wherever they begin. */
static void try_longer_row_emptied(void)
{
    enum { LONGER = WELLACORN_PULSES + 8, FIRST = 29, STANDING = 7 };
    wellacorn_box *box = &found.box;
    scribble();
    modules(AT_PLACE_2);
    board->queue.first = FIRST;
    board->queue.standing = STANDING;
    begin();
    came_to("a longer row, fill", wellacorn_fill(&box->board, box->row, LONGER, 2), WELLACORN_SERVED, 0, 0);
    board->places[1].filled = 0;
    for (int k = 12; k < WELLACORN_RELAYS; k++) {
        board->relays[k].closed = 0;
    }
    for (int c = 0; c < WELLACORN_CONNECTIONS; c++) {
        board->lines[c].external = 0;
    }
    masks_lose(2, FIRST, STANDING);
    came_to("a longer row, empty", wellacorn_empty(&box->board, box->row, LONGER, 2), WELLACORN_SERVED, 0, 0);
}

/* ---- Half-read messages and their rooms */

/* A message too long to be kept, byte by byte: what its header says so far stands in the half. */
static void try_half(uint8_t c)
{
    static const struct {
        uint8_t byte;
        wellacorn_half half;
    } steps[] = {
        {0x01, {1, 0, 0}},           {0xFE, {2, 0xFE00, 0}},      {0xDC, {3, 0xFEDC, 0}},
        {0x87, {4, 0xFEDC, 0x8700}}, {0x65, {5, 0xFEDC, 0x8765}}, {0x06, {6, 0xFEDC, 0x8765}},
    };
    scribble();
    listening(c);
    begin();
    ends(c, 0);
    for (size_t i = 0; i < COUNT(steps); i++) {
        expected.box.halves[c] = steps[i].half;
        came_to("half", wellacorn_box_bytes(&found.box, c, &steps[i].byte, 1, reply, sizeof reply), WELLACORN_WAITING, 1, 0);
    }
}

/* The longest content, and its last byte apart. It fills its connection's room and no other. */
static void try_room(uint8_t c)
{
    enum { N = WELLACORN_CONTENT, CUT = 5 + N - 1 };
    uint8_t frame[5 + N] = {0x01, N >> 8, N & 0xFF, 0xFF, 0xFF};
    memset(frame + 5, 0xC3, N);
    scribble();
    listening(c);
    begin();
    memset(room_of(c), 0xC3, N - 1);
    expected.box.halves[c] = (wellacorn_half){.got = CUT, .len = N, .sum = 0xFFFF};
    ends(c, 0);
    came_to("room", wellacorn_box_bytes(&found.box, c, frame, CUT, reply, sizeof reply), WELLACORN_WAITING, CUT, 0);
    memset(room_of(c), 0xC3, N);
    expected.box.halves[c] = nothing_read;
    ends(c, N);
    came_to("room, full", wellacorn_box_bytes(&found.box, c, frame + CUT, 1, reply, sizeof reply), WELLACORN_NOT_OFFERED, 1, 0);
    same_content("room, full", c);
}

/* ---- What a call came to: numbers that a narrower field or another place would not give */

static void try_done(uint8_t c)
{
    static uint8_t oversize[5 + 65535] = {0x01, 0xFF, 0xFF, 0x00, 0x00};
    uint8_t many[5 + 3 + 127 * 8] = {0x01, (3 + 127 * 8) >> 8, (3 + 127 * 8) & 0xFF, 0xFF, 0xFF, 21, 0, 127};
    for (int i = 0; i < 127; i++) {
        many[8 + 8 * i + 6] = 1;
        many[8 + 8 * i + 7] = 0xFF;
    }
    scribble();
    listening(c);
    begin();
    expected.box.halves[c] = (wellacorn_half){.got = sizeof oversize - 1, .len = 0xFFFF, .sum = 0};
    ends(c, 0);
    wellacorn_done d = wellacorn_box_bytes(&found.box, c, oversize, sizeof oversize - 1, reply, sizeof reply);
    came_to("oversize, cut", d, WELLACORN_WAITING, sizeof oversize - 1, 0);
    expected.box.halves[c] = nothing_read;
    d = wellacorn_box_bytes(&found.box, c, oversize, 1, reply, sizeof reply);
    came_to("oversize, its end", d, WELLACORN_TOO_LONG, 1, 0);
    d = wellacorn_box_bytes(&found.box, c, oversize, sizeof oversize, reply, sizeof reply);
    came_to("oversize", d, WELLACORN_TOO_LONG, sizeof oversize, 0);
    memcpy(room_of(c), many + 5, sizeof many - 5);
    ends(c, sizeof many - 5);
    d = wellacorn_box_bytes(&found.box, c, many, sizeof many, reply, sizeof reply);
    came_to("127 IDs", d, WELLACORN_SERVED, sizeof many, WELLACORN_LONGEST_REPLY);
}

/* ---- Places: of messages whose length is wrong, and 0 where another refusal came before */

/* A content that is refused, its first bytes; those behind them, up to n, are 0. */
typedef struct {
    size_t n;
    uint8_t content[24];
    uint8_t answer;
    size_t place;
} refusal;

static const refusal refusals[] = {
    {1, {5}, WELLACORN_ENDS_EARLY, 1},
    {2, {5}, WELLACORN_ENDS_EARLY, 2},
    {4, {5, 0, 4}, WELLACORN_ENDS_EARLY, 4},
    {6, {5, 0, 4}, WELLACORN_ENDS_EARLY, 6},
    {8, {5, 0, 4}, WELLACORN_LEFT_OVER, 7},
    {4, {5, 0, 3}, WELLACORN_OUT_OF_RANGE, 0},
    {8, {5, 0, 6}, WELLACORN_OUT_OF_RANGE, 0},
    {1, {7}, WELLACORN_ENDS_EARLY, 1},
    {8, {7}, WELLACORN_ENDS_EARLY, 8},
    {10, {7}, WELLACORN_LEFT_OVER, 9},
    {1, {10}, WELLACORN_ENDS_EARLY, 1},
    {3, {10, 1}, WELLACORN_ENDS_EARLY, 3},
    {5, {10, 1, 0, 17}, WELLACORN_LEFT_OVER, 4},
    {3, {10, 4}, WELLACORN_OUT_OF_RANGE, 0},
    {5, {10, 11}, WELLACORN_OUT_OF_RANGE, 0},
    {4, {10, 1, 0, 0}, WELLACORN_OUT_OF_RANGE, 0},
    {4, {10, 1, 0, 17}, WELLACORN_OUT_OF_RANGE, 0},
    {4, {10, 2, 1, 9}, WELLACORN_OUT_OF_RANGE, 0},
    {4, {10, 5, 0, 9}, WELLACORN_OUT_OF_RANGE, 0},
    {4, {10, 8, 0, 16}, WELLACORN_OUT_OF_RANGE, 0},
    {4, {10, 9, 0, 9}, WELLACORN_OUT_OF_RANGE, 0},
    {3, {10, 10, 0xFF}, WELLACORN_ENDS_EARLY, 3},
    {4, {10, 6, 0, 1}, WELLACORN_ENDS_EARLY, 4},
    {7, {10, 6, 0, 17}, WELLACORN_ENDS_EARLY, 7},
    {8, {10, 6, 0, 17, 0, 0, 0, 1}, WELLACORN_OUT_OF_RANGE, 0},
    {8, {10, 6, 0, 16}, WELLACORN_OUT_OF_RANGE, 0},
    {9, {10, 6, 0, 1, 0, 0, 0, 1}, WELLACORN_LEFT_OVER, 8},
    {7, {10, 7, 1, 1, 0, 0, 1}, WELLACORN_ENDS_EARLY, 7},
    {9, {10, 7, 1, 1}, WELLACORN_LEFT_OVER, 8},
    {8, {10, 7, 1, 1}, WELLACORN_OUT_OF_RANGE, 0},
    {1, {21}, WELLACORN_ENDS_EARLY, 1},
    {2, {21, 1}, WELLACORN_ENDS_EARLY, 2},
    {3, {21, 0, 1}, WELLACORN_LIST_CUT, 3},
    {10, {21, 0, 1}, WELLACORN_LIST_CUT, 10},
    {15, {21, 0, 2}, WELLACORN_LIST_CUT, 15},
    {4, {21, 0, 0}, WELLACORN_LEFT_OVER, 3},
    {14, {21, 0, 1}, WELLACORN_LEFT_OVER, 11},
    {1, {23}, WELLACORN_ENDS_EARLY, 1},
    {2, {23, 1}, WELLACORN_ENDS_EARLY, 2},
    {3, {23, 0, 1}, WELLACORN_LIST_CUT, 3},
    {10, {23, 0, 1}, WELLACORN_LIST_CUT, 10},
    {12, {23, 0, 1}, WELLACORN_LIST_CUT, 12},
    {13, {23, 0, 2}, WELLACORN_LIST_CUT, 13},
    {14, {23, 0, 1, 0, 0, 0, 0, 0, 1, 1, 0xFF, 0, 2, 1}, WELLACORN_LIST_CUT, 14},
    {17, {23, 0, 1, 0, 0, 0, 0, 0, 1, 1, 0xFF, 0, 2, 1, 1}, WELLACORN_LEFT_OVER, 15},
    {4, {23, 0, 0}, WELLACORN_LEFT_OVER, 3},
    {1, {26}, WELLACORN_ENDS_EARLY, 1},
    {3, {26, 9}, WELLACORN_LEFT_OVER, 2},
    {2, {26, 9}, WELLACORN_OUT_OF_RANGE, 0},
    {0, {0}, WELLACORN_NOT_OFFERED, 0},
    {9, {1}, WELLACORN_NOT_OFFERED, 0},
    {15, {2, 0, 4}, WELLACORN_NOT_OFFERED, 0},
};

static void try_refusal(uint8_t c, const refusal *r)
{
    scribble();
    listening(c);
    begin();
    send_at("a refusal", c, r->content, r->n, r->answer, r->place);
}

/* Whatever its length would be refused for, the rank and the checksum are judged before it. */
static void try_refusal_before(uint8_t c, const refusal *r)
{
    bool offered = r->answer != WELLACORN_NOT_OFFERED;
    scribble();
    listening(c)->rank = 0;
    begin();
    send_for("a refusal, rank 0", c, r->content, r->n, offered ? WELLACORN_LOW_RANK : WELLACORN_NOT_OFFERED);
    scribble();
    listening(c)->strict = 1;
    begin();
    send_for("a refusal, strict", c, r->content, r->n, WELLACORN_BAD_CHECKSUM);
}

/* The place counts in the content, and not in the piece: the same message in two pieces, however it is cut. Only its last piece has a place. */
static void try_refusal_cut(uint8_t c, const refusal *r, size_t cut)
{
    uint8_t frame[5 + sizeof r->content] = {0x01, 0, (uint8_t)r->n, 0xFF, 0xFF};
    memcpy(frame + 5, r->content, r->n);
    scribble();
    listening(c);
    begin();
    memcpy(room_of(c), r->content, cut - 5);
    expected.box.halves[c] = (wellacorn_half){.got = cut, .len = r->n, .sum = 0xFFFF};
    ends(c, 0);
    came_to("a refusal, begun", wellacorn_box_bytes(&found.box, c, frame, cut, reply, sizeof reply), WELLACORN_WAITING, cut, 0);
    memcpy(room_of(c), r->content, r->n);
    expected.box.halves[c] = nothing_read;
    ends(c, r->n);
    came_to_at("a refusal, ended", wellacorn_box_bytes(&found.box, c, frame + cut, 5 + r->n - cut, reply, sizeof reply), r->answer,
               5 + r->n - cut, r->place, 0);
}

static void try_refusals(uint8_t c)
{
    for (size_t i = 0; i < COUNT(refusals); i++) {
        try_refusal(c, &refusals[i]);
        try_refusal_before(c, &refusals[i]);
        for (size_t cut = 5; cut < 5 + refusals[i].n; cut++) {
            try_refusal_cut(c, &refusals[i], cut);
        }
    }
}

/* Places that no byte holds: a list of the longest content that is cut, and one that has bytes left over. */
static void try_long_places(uint8_t c)
{
    uint8_t content[WELLACORN_CONTENT] = {21, 0, 128};
    scribble();
    listening(c);
    begin();
    send_at("128 IDs, cut", c, content, sizeof content, WELLACORN_LIST_CUT, 1024);
    content[2] = 127;
    send_at("127 IDs, left over", c, content, sizeof content, WELLACORN_LEFT_OVER, 1019);
    content[0] = 23;
    content[1] = content[2] = 0xFF;
    send_at("65,535 entries, cut", c, content, sizeof content, WELLACORN_LIST_CUT, 1024);
    content[0] = 5;
    content[1] = content[2] = 0;
    send_at("a long request", c, content, sizeof content, WELLACORN_LEFT_OVER, 7);
}

/* A call that is refused, and one that is given nothing, change nothing; but one of bytes, an opening or a closing has ended no message. */
static void try_unchanged(void)
{
    const uint8_t piece[] = {0x06, 0x06};
    scribble();
    listening(0)->strict = 1;
    board->lines[1].is_open = 0;
    begin();
    came_to("level 0 0", wellacorn_box_level(&found.box, 0, 0), WELLACORN_OUT_OF_RANGE, 0, 0);
    came_to("level 1 2", wellacorn_box_level(&found.box, 1, 2), WELLACORN_OUT_OF_RANGE, 0, 0);
    came_to("pass 0", wellacorn_box_pass(&found.box, 0), WELLACORN_SERVED, 0, 0);
    came_to("connect 4 0 1", wellacorn_box_connect(&found.box, 4, 0, 1), WELLACORN_NO_CONNECTION, 0, 0);
    ends(0, 0);
    came_to("connect 0 2 0", wellacorn_box_connect(&found.box, 0, 2, 0), WELLACORN_ALREADY_OPEN, 0, 0);
    ends(1, 0);
    came_to("connect 1 3 1", wellacorn_box_connect(&found.box, 1, 3, 1), WELLACORN_BAD_RANK, 0, 0);
    came_to("close 1", wellacorn_box_close(&found.box, 1), WELLACORN_NO_CONNECTION, 0, 0);
    came_to("close 255", wellacorn_box_close(&found.box, 255), WELLACORN_NO_CONNECTION, 0, 0);
    came_to("collect 1", wellacorn_box_collect(&found.box, 1, reply, sizeof reply), WELLACORN_NO_CONNECTION, 0, 0);
    came_to("collect, no buffer", wellacorn_box_collect(&found.box, 0, reply, 0), WELLACORN_SHORT_BUFFER, 0, 0);
    came_to("shut", wellacorn_box_bytes(&found.box, 1, piece, 2, reply, sizeof reply), WELLACORN_NO_CONNECTION, 0, 0);
    came_to("short buffer", wellacorn_box_bytes(&found.box, 0, piece, 2, reply, WELLACORN_REPLY - 1), WELLACORN_SHORT_BUFFER, 0, 0);
    came_to("empty piece", wellacorn_box_bytes(&found.box, 0, piece, 0, reply, sizeof reply), WELLACORN_WAITING, 0, 0);
    came_to("keep-alive", wellacorn_box_bytes(&found.box, 0, piece, 2, reply, sizeof reply), WELLACORN_KEEP_ALIVE, 1, 0);
}

/* Bytes that end no content of connection c, behind a message that ended one: an empty message, single bytes, half a message, a refused call. */
static void try_no_content(uint8_t c)
{
    static const struct {
        uint8_t piece[6], n;
        size_t reply_len;
        uint8_t answer;
    } calls[] = {
        {{0x01, 0, 0, 0, 0}, 5, WELLACORN_REPLY, WELLACORN_NOT_OFFERED},    {{0x01, 0, 0, 0, 1}, 5, WELLACORN_REPLY, WELLACORN_BAD_CHECKSUM},
        {{0x06}, 1, WELLACORN_REPLY, WELLACORN_KEEP_ALIVE},                 {{0x07}, 1, WELLACORN_REPLY, WELLACORN_STRAY},
        {{0x01, 0, 3, 0xFF, 0xFF, 5}, 6, 0, WELLACORN_SHORT_BUFFER},        {{0x01}, 0, WELLACORN_REPLY, WELLACORN_WAITING},
    };
    scribble();
    listening(c);
    begin();
    for (size_t i = 0; i < COUNT(calls); i++) {
        send_at("a content", c, (const uint8_t[]){99, 1, 2}, 3, WELLACORN_NOT_OFFERED, 0);
        ends(c, 0);
        came_to("no content", wellacorn_box_bytes(&found.box, c, calls[i].piece, calls[i].n, reply, calls[i].reply_len), calls[i].answer,
                calls[i].answer == WELLACORN_SHORT_BUFFER ? 0 : calls[i].n, 0);
        same_content("no content", c);
    }
}

/* A connection that there is not has no content, and a call on it writes to nobody's. */
static void try_content_of_none(uint8_t c)
{
    const uint8_t frame[] = {0x01, 0, 3, 0xFF, 0xFF, 5, 0, 4};
    scribble();
    begin();
    came_to("no such connection", wellacorn_box_bytes(&found.box, c, frame, sizeof frame, reply, sizeof reply), WELLACORN_NO_CONNECTION, 0, 0);
    came_to("no such opening", wellacorn_box_connect(&found.box, c, 1, 0), WELLACORN_NO_CONNECTION, 0, 0);
    came_to("no such closing", wellacorn_box_close(&found.box, c), WELLACORN_NO_CONNECTION, 0, 0);
    same_content("no such connection", c);
}

/* A row that is too short, down to none: nothing is changed and nothing taken. */
static void try_short_row(unsigned standing)
{
    static const uint8_t frame[] = {0x01, 0, 8, 0xFF, 0xFF, 10, 6, 0, 1, 0, 0, 0, 1};
    wellacorn_box *box = &found.box;
    scribble();
    listening(0);
    queue_up(0x5A5A, 3, standing);
    begin();
    for (size_t records = 0; records < WELLACORN_PULSES; records += WELLACORN_PULSES - 1) {
        came_to("pass, short row", wellacorn_pass(&box->board, box->row, records, UINT32_MAX), WELLACORN_SHORT_BUFFER, 0, 0);
        came_to("fill, short row", wellacorn_fill(&box->board, box->row, records, 1), WELLACORN_SHORT_BUFFER, 0, 0);
        came_to("empty, short row", wellacorn_empty(&box->board, box->row, records, 1), WELLACORN_SHORT_BUFFER, 0, 0);
        came_to("bytes, short row",
                wellacorn_bytes(&box->board, box->halves, box->rooms, box->row, records, 0, frame, sizeof frame, reply, sizeof reply),
                WELLACORN_SHORT_BUFFER, 0, 0);
    }
    came_to("bytes, short row, no connection",
            wellacorn_bytes(&box->board, box->halves, box->rooms, box->row, 0, 4, frame, sizeof frame, reply, sizeof reply),
            WELLACORN_NO_CONNECTION, 0, 0);
}

/* All that is tried on one connection. */
static void try_connection(uint8_t c)
{
    for (unsigned filled = NO_MODULE; filled <= BOTH_MODULES; filled++) {
        for (uint8_t k = 1; k <= WELLACORN_CHANNELS; k++) {
            try_level(k, c, filled);
        }
        try_relays(c, filled);
        try_connects(c, filled);
        try_request(c, filled);
    }
    try_close(c);
    try_monitor(c);
    try_collects(c);
    try_strict(c);
    try_places(c);
    try_half(c);
    try_room(c);
    try_done(c);
    try_refusals(c);
    try_long_places(c);
    try_no_content(c);
}

int main(void)
{
    setvbuf(stdout, NULL, _IOLBF, 0);   /* what differs is seen even if a later call ends badly because of it */
    for (uint8_t k = 0; k < WELLACORN_CHANNELS; k++) {
        try_power_up(k);
        try_pass(k);
    }
    for (uint8_t c = 0; c < WELLACORN_CONNECTIONS; c++) {
        try_connection(c);
    }
    for (unsigned c = WELLACORN_CONNECTIONS; c <= UINT8_MAX; c++) {
        try_content_of_none((uint8_t)c);
    }
    for (unsigned first = 0; first < WELLACORN_PULSES; first++) {
        try_pulses(first);
    }
    try_longer_row();
    try_longer_row_emptied();
    try_unchanged();
    try_short_row(0);
    try_short_row(1);

    if (differences > 0) {
        printf("layout: %u differences\n", differences);
        return EXIT_FAILURE;
    }
    puts("layout: header and archive agree");
    return EXIT_SUCCESS;
}
