/* The library's calls over the plain C peer, for measuring: a program that is linked with this in place of the archive is the same program over
 * the peer. It has one box and one row of pulses, whatever the host lends; of the lent row only the length counts.
 *
 * What is lent shows what the peer holds. After bytes and a collection only what the reference host reads then is written there: the relays'
 * states, what is due, the queue and the pulse that was accepted, how far the message has been read and its content. So showing takes some ns
 * a message. The rest follows with the next other call; after an emptying also the pulses that stand.
 */
#define ENGINE_PEER
#include "engine.h"

#include <string.h>

enum { HEADER = 5 };

static engine box;
static engine_pulse pulses[WELLACORN_PULSES];

static wellacorn_done told(wellacorn_board *board)
{
    *board = engine_board(&box);
    return (wellacorn_done){.answer = box.answer};
}

/* What bytes or a collection came to. */
static wellacorn_done came_to(void)
{
    return (wellacorn_done){.answer = box.answer, .taken = box.taken, .place = box.place, .len = box.len};
}

static void show(wellacorn_board *board)
{
    for (int k = 0; k < WELLACORN_RELAYS; k++) {
        board->relays[k].closed = box.box.tables.relays[k].closed;
    }
    for (int c = 0; c < WELLACORN_CONNECTIONS; c++) {
        board->lines[c].due = box.box.connections[c].line.due;
        board->lines[c].external = box.box.connections[c].line.external;
    }
    board->queue = engine_queue(&box);
}

/* A record is written where a pulse was accepted: `standing` stood before. */
static void show_accepted(wellacorn_pulse *row, uint64_t standing)
{
    const wellacorn_queue queue = engine_queue(&box);
    if (queue.standing > standing) {
        uint64_t place = (queue.first + standing) % WELLACORN_PULSES;
        row[place] = engine_pulse_in(&pulses[place]);
    }
}

void wellacorn_power_up(wellacorn_board *board, wellacorn_settings s)
{
    engine_power_up(&box, &s);
    *board = engine_board(&box);
}

wellacorn_done wellacorn_level(wellacorn_board *board, uint8_t k, uint8_t v)
{
    engine_level(&box, k, v);
    return told(board);
}

wellacorn_done wellacorn_pass(wellacorn_board *board, const wellacorn_pulse *row, uint64_t records, uint32_t d)
{
    (void)row;
    engine_pass(&box, pulses, (size_t)records, d);
    return told(board);
}

wellacorn_done wellacorn_fill(wellacorn_board *board, const wellacorn_pulse *row, uint64_t records, uint8_t place)
{
    (void)row;
    engine_fill(&box, pulses, (size_t)records, place);
    return told(board);
}

wellacorn_done wellacorn_empty(wellacorn_board *board, wellacorn_pulse *row, uint64_t records, uint8_t place)
{
    const wellacorn_queue queue = engine_queue(&box);
    engine_empty(&box, pulses, (size_t)records, place);
    for (size_t i = 0; box.answer == WELLACORN_SERVED && i < queue.standing; i++) {
        uint64_t at = (queue.first + i) % WELLACORN_PULSES;
        row[at] = engine_pulse_in(&pulses[at]);
    }
    return told(board);
}

wellacorn_done wellacorn_connect(wellacorn_board *board, wellacorn_half halves[WELLACORN_CONNECTIONS], uint8_t c, uint8_t rank, uint8_t strict)
{
    engine_connect(&box, c, rank, strict);
    if (box.answer == WELLACORN_SERVED) {
        halves[c] = engine_half(&box, c);
    }
    return told(board);
}

wellacorn_done wellacorn_close(wellacorn_board *board, wellacorn_half halves[WELLACORN_CONNECTIONS], uint8_t c)
{
    engine_close(&box, c);
    if (box.answer == WELLACORN_SERVED) {
        halves[c] = engine_half(&box, c);
    }
    return told(board);
}

wellacorn_done wellacorn_bytes(wellacorn_board *board, wellacorn_half halves[WELLACORN_CONNECTIONS], uint8_t rooms[WELLACORN_ROOMS],
                               wellacorn_pulse *row, uint64_t records, uint8_t c, const uint8_t *piece, uint64_t piece_len, uint8_t *reply,
                               uint64_t reply_len)
{
    uint64_t standing = engine_queue(&box).standing;
    engine_bytes(&box, pulses, (size_t)records, c, piece, (size_t)piece_len, reply, (size_t)reply_len);
    if (c < WELLACORN_CONNECTIONS) {
        uint64_t read = halves[c].got + box.taken;
        if (read > HEADER && read <= HEADER + WELLACORN_CONTENT) {
            /* The peer serves a message that lies whole in the piece from there, and leaves its room as it is. */
            const uint8_t *content = halves[c].got == 0 ? piece + HEADER : box.box.connections[c].room;
            memcpy(rooms + (size_t)WELLACORN_CONTENT * c, content, (size_t)read - HEADER);
        }
        halves[c] = engine_half(&box, c);
    }
    show_accepted(row, standing);
    show(board);
    return came_to();
}

wellacorn_done wellacorn_collect(wellacorn_board *board, uint8_t c, uint8_t *reply, uint64_t reply_len)
{
    engine_collect(&box, c, reply, (size_t)reply_len);
    show(board);
    return came_to();
}
