/* The box's side of the JNIOR binary protocol, as a C or C++ host calls it.
 *
 * The functions stand in the static archive libwellacorn.a, for Linux on x86-64 or aarch64. Each takes every input, ends, keeps no memory of its
 * own and calls nothing back: all that the box holds is in what the host lends, and a call changes it in place. Arguments are numbers and pointers,
 * and a struct goes by value only where it has more than 16 bytes; lengths have 64 bits on every machine.
 *
 * A host lends a box, which need not be cleared, powers it up, and opens a connection where a client comes. Then, whenever bytes have come on a
 * connection or something else was told, it serves and collects. These lines may be copied; send_whole is the host's own, and sends n bytes of a
 * buffer on connection c or copies them into a queue, all of them, and nothing where n is 0:
 *
 *     static wellacorn_box box;
 *     static uint8_t reply[WELLACORN_REPLY];
 *
 *     // All bytes that came on connection c: offered until all are taken, each reply sent
 *     // before the next call gets its buffer. False where the connection is shut.
 *     static bool serve(uint8_t c, const uint8_t *bytes, uint64_t n)
 *     {
 *         uint64_t taken = 0;
 *         while (taken < n) {
 *             wellacorn_done done =
 *                 wellacorn_box_bytes(&box, c, bytes + taken, n - taken, reply, sizeof reply);
 *             if (done.taken == 0) {
 *                 return false;
 *             }
 *             taken += done.taken;
 *             send_whole(c, reply, done.len);
 *         }
 *         return true;
 *     }
 *
 *     // What has become due, on every connection: what one client did, the others are told.
 *     // Where a connection is shut or has nothing due, the length is 0.
 *     static void collect(void)
 *     {
 *         for (uint8_t c = 0; c < WELLACORN_CONNECTIONS; c++) {
 *             wellacorn_done done = wellacorn_box_collect(&box, c, reply, sizeof reply);
 *             send_whole(c, reply, done.len);
 *         }
 *     }
 *
 * Before either, wellacorn_box_pass is told the ms since it was told last. A host whose send_whole has no room for WELLACORN_REPLY bytes makes no call
 * on that connection: it keeps the bytes that were not taken, and offers them first when there is room again.
 *
 * What the host owes:
 *   - The same box (board, halves, rooms and the row of pulses) goes into every call, one call at a time, and nobody else alters it between
 *     calls. It is powered up first: that writes the whole board. Halves, rooms and row need not be cleared.
 *   - The box is told when a relay module is plugged in at a place of the second deck, and when it is pulled. At power-up both places are empty.
 *   - Bytes that a call has not taken are the host's to offer again, before any later ones of that connection: the box does not hold them.
 *   - No pointer is null, not even where the length beside it is 0. Board, halves, rooms, row, piece and reply do not overlap.
 *   - A bool of the settings is 0 or 1.
 */
#ifndef WELLACORN_H
#define WELLACORN_H

#include <assert.h>
#include <stdbool.h>
#include <stddef.h>
#include <stdint.h>
#include <string.h>

/* The calls write the answer as a word, of which a host reads the lowest byte, which is all of it. Where that byte is not the first there is no archive. */
#if defined(__BYTE_ORDER__) && defined(__ORDER_LITTLE_ENDIAN__) && __BYTE_ORDER__ != __ORDER_LITTLE_ENDIAN__
#error "the library is for machines that have the lowest byte of a word first"
#endif

#define WELLACORN_VERSION "1.0.0"   /* of the library and of the programs around it: the one place where it stands */

/* A call whose answer a host must look at, or it loses bytes, replies or what it told. Compilers that know the word warn where it does not. */
#if defined(__GNUC__)
#define WELLACORN_MUST_USE __attribute__((warn_unused_result))
#else
#define WELLACORN_MUST_USE
#endif

#ifdef __cplusplus
extern "C" {
#endif

/* ---- Numbers */

enum {
    WELLACORN_CHANNELS = 8,         /* inputs 1 to 8, and relays 1 to 8, which are always there; channel k stands at place k - 1 */
    WELLACORN_RELAYS = 16,          /* relays 1 to 16, of which 9 to 16 are there with their modules; relay k stands at place k - 1 */
    WELLACORN_PLACES = 2,           /* places of the second deck: a module at place 1 has relays 9 to 12, one at place 2 relays 13 to 16 */
    WELLACORN_CONNECTIONS = 4,      /* connections 0 to 3 */
    WELLACORN_ROWS = 32,            /* rows of the board, of eight words each: inputs, relays, the clock, connections, the queue, places */
    WELLACORN_PULSES = 31,          /* pulses that stand in the queue at most, the running one included: records of the row that is lent */
    WELLACORN_HEADER = 5,           /* the bytes of a frame before its content: start byte, length and checksum */
    WELLACORN_CONTENT = 1024,       /* the longest content that is judged: a longer message is swallowed */
    WELLACORN_ROOMS = 4096,         /* the rooms: 1,024 content bytes for each connection */
    WELLACORN_REPLY = 4096,         /* the reply buffer must hold so many bytes */
    WELLACORN_LONGEST_REPLY = 3437  /* the longest reply, its header included; two frames in one reply are shorter */
};

/* The answer numbers. From NO_CONNECTION on they are refusals, which have no reply. A call is refused by the first that applies of
 * NO_CONNECTION, ALREADY_OPEN, BAD_RANK, SHORT_BUFFER and, of a level and of a place, OUT_OF_RANGE, and then takes no bytes and changes nothing.
 * A whole message is refused by the first that applies of TOO_LONG, BAD_CHECKSUM, NOT_OFFERED, LOW_RANK, then for its length, by the one of
 * ENDS_EARLY, LEFT_OVER and LIST_CUT that says what is wrong with it, then OUT_OF_RANGE and QUEUE_FULL: its bytes are taken through its end,
 * nothing of it stays half read, and nothing else changes. Only in the message types 5 and 10 the request or action, where it has come, is judged
 * (OUT_OF_RANGE) before the length.
 *
 * 10 is not given. It stood for every wrong length, before it was split into 20 to 22, with which goes a place (wellacorn_done). */
enum {
    WELLACORN_WAITING = 0,          /* the piece has ended and no message with it; of a collection: nothing is due */
    WELLACORN_SERVED = 1,           /* done, with a reply or without */
    WELLACORN_KEEP_ALIVE = 2,       /* the byte that only says that the sender is there: 1 taken, nothing changed */
    WELLACORN_NO_CONNECTION = 3,    /* no connection has this number, or it is shut; to an opening only the former */
    WELLACORN_SHORT_BUFFER = 4,     /* fewer bytes than WELLACORN_REPLY are lent for the reply, or fewer records than WELLACORN_PULSES */
    WELLACORN_STRAY = 5,            /* a byte with which no message begins: 1 taken, nothing changed */
    WELLACORN_TOO_LONG = 6,         /* a content of more bytes than WELLACORN_CONTENT */
    WELLACORN_BAD_CHECKSUM = 7,     /* not the content's checksum; 0xFFFF is let pass all the same, but not on a strict connection */
    WELLACORN_NOT_OFFERED = 8,      /* no content, or a type that the box does not serve */
    WELLACORN_LOW_RANK = 9,         /* the type needs a higher rank */
    WELLACORN_OUT_OF_RANGE = 11,    /* a number in a message, of a level or of a place that stands for nothing, a relay whose module is not there, or
                                       a pulse of 0 ms */
    WELLACORN_ALREADY_OPEN = 12,    /* an opening of a connection that is not shut */
    WELLACORN_BAD_RANK = 13,        /* an opening at a rank that there is not */
    WELLACORN_QUEUE_FULL = 14,      /* a pulse is asked for while WELLACORN_PULSES stand */
    WELLACORN_ENDS_EARLY = 20,      /* the content ends too early for the type's layout, anywhere but within a list whose count is whole */
    WELLACORN_LEFT_OVER = 21,       /* bytes are left over behind the end of the type's layout */
    WELLACORN_LIST_CUT = 22         /* the content ends within a list whose count is whole: among the IDs of type 21 or the entries of type 23 */
};

/* ---- What the box holds.
 *
 * The host may read it between calls: levels, counts, usages, relays, the clock, the connections, what is due, the pulses, the modules, how far a
 * message has been read. It writes to none of it. Usages are in ms. A flag is a word: 0 is no, anything else yes; the calls write 0 and 1, but
 * `strict` as the host said it. The unused words are 0. */

typedef struct {
    uint64_t level;             /* on or off */
    uint64_t alarm;             /* the alarm switch: where it is set, the input's Alarm State is its level */
    uint64_t count;             /* rises, off to on; 4294967295 at most */
    uint64_t setpoint_one;      /* of count alarm 1: on above it in the Monitor message, from it on in the read block; where it is 0, never */
    uint64_t setpoint_two;      /* of count alarm 2, the same */
    uint64_t usage;             /* how long the input has been on; at its largest number it stands still */
    uint64_t usage_setpoint;    /* of the usage alarm: on from it on; where it is 0, never */
    uint64_t unused;
} wellacorn_input;

/* Relays 9 to 16 have no usage and no setpoint: both words stay 0. Where their module is not there they are open. */
typedef struct {
    uint64_t closed;            /* closed or open */
    uint64_t unused[4];
    uint64_t usage;             /* how long the relay has been closed; at its largest number it stands still */
    uint64_t usage_setpoint;    /* as an input's */
    uint64_t unused_last;
} wellacorn_relay;

typedef struct {
    uint64_t time;              /* ms since 1 January 1970 GMT; at its largest number it stands still */
    uint64_t unused[7];
} wellacorn_clock;

/* A connection, without its half-read message. All zero when shut. */
typedef struct {
    uint64_t is_open;           /* open or shut */
    uint64_t rank;              /* 0 not logged in, 1 user, 2 administrator */
    uint64_t monitor;           /* Monitor on or off, for both messages */
    uint64_t due;               /* the Monitor message (type 1) due or not */
    uint64_t strict;            /* as its opening said: where it is not 0, no checksum passes unchecked, 0xFFFF neither */
    uint64_t external;          /* the External Monitor message (type 2) due or not; never while no module is there */
    uint64_t unused[2];
} wellacorn_line;

/* The queue of pulses. The pulses themselves stand in the row: the running one at the place `first`, behind it those that wait, in the order
 * in which they came; behind the place 30 comes the place 0. */
typedef struct {
    uint64_t first;             /* the place of the running pulse in the row, 0 to 30; it moves on by one with each pulse that ends */
    uint64_t standing;          /* how many stand, the running one included: 0 to 31. 0: none runs */
    uint64_t left;              /* ms up to the end of the running one; 0 where none runs */
    uint64_t remembered;        /* the states of all 16 relays when it began, lowest bit relay 1: its masked relays return to them; 0 where none runs */
    uint64_t mask;              /* of the request that was accepted last, as it came into the row: mask, states, duration */
    uint64_t states;
    uint64_t duration;
    uint64_t unused;
} wellacorn_queue;

/* A place of the second deck; place p stands at p - 1. */
typedef struct {
    uint64_t filled;            /* a relay module stands there, or the place is empty */
    uint64_t unused[7];
} wellacorn_place;

typedef struct {
    wellacorn_input inputs[WELLACORN_CHANNELS];
    wellacorn_relay relays[WELLACORN_RELAYS];
    wellacorn_clock clock;
    wellacorn_line lines[WELLACORN_CONNECTIONS];
    wellacorn_queue queue;
    wellacorn_place places[WELLACORN_PLACES];
} wellacorn_board;

/* A pulse, as it stands in the row: the masked relays take their states for so long, and then return to those they had. */
typedef struct {
    uint16_t mask;              /* lowest bit relay 1; relays whose module is pulled are taken out of it */
    uint16_t states;            /* 1 closed, 0 open; only those of masked relays count */
    uint32_t duration;          /* ms, not 0 */
} wellacorn_pulse;

/* How far a message has been read. All zero at a message start. Of a shut connection it says nothing. */
typedef struct {
    uint64_t got;               /* bytes of it taken: 0 to 5 + N - 1 */
    uint64_t len;               /* its length N, as far as it has come in: the upper byte first, the rest 0 */
    uint64_t sum;               /* its checksum, likewise */
} wellacorn_half;

/* ---- What the host sets at power-up */

typedef struct {
    uint32_t setpoint_one;      /* of count alarm 1 */
    uint32_t setpoint_two;      /* of count alarm 2 */
    uint64_t usage_setpoint;    /* of the usage alarm */
    bool alarm;                 /* the alarm switch */
} wellacorn_input_settings;

typedef struct {
    wellacorn_input_settings inputs[WELLACORN_CHANNELS];
    uint64_t relays[WELLACORN_CHANNELS];    /* the usage setpoint of each of relays 1 to 8 */
} wellacorn_settings;

/* ---- What a call came to */

typedef struct {
    uint64_t taken;             /* bytes taken of the piece; an event and a collection take none */
    uint64_t len;               /* the reply's length, the five header bytes of each of its frames included; 0 for no reply */
    uint64_t place;             /* with ENDS_EARLY and LIST_CUT the content's length, where the first missing byte would stand; with LEFT_OVER where
                                   the first surplus byte stands; the content's type byte is 0; with every other answer 0 */
    uint8_t answer;             /* the answer number */
} wellacorn_done;

/* ---- The calls */

/* The box at power-up: everything is 0, open, shut or empty but for the setpoints and alarm switches, which the host gives. */
void wellacorn_power_up(wellacorn_board *board, wellacorn_settings s);

/* Input k (1 to 8) is on (v is 1) or off (0). A rise counts one; the level that it has already does nothing. Answers SERVED, or OUT_OF_RANGE for
 * another input or level.
 *
 * A real change, whichever call makes it, is due to every open connection that has a rank above 0 and Monitor on: one of a level or of relays 1 to 8
 * makes Monitor due, and one of a level or of any relay makes External Monitor due while a module is there. */
WELLACORN_MUST_USE
wellacorn_done wellacorn_level(wellacorn_board *board, uint8_t k, uint8_t v);

/* d ms have passed, for the clock and for the usages of inputs that are on and of those of relays 1 to 8 that are closed. In each ms they grow first;
 * then the running pulse ends if its time is over, and the next begins in that same ms. Each end and each beginning is a change of its own. The row
 * is read only. Answers SERVED, or SHORT_BUFFER for a row under WELLACORN_PULSES records.
 *
 * A relay that a pulse has closed is closed until this call says that its time is over: `queue.left` of the board says when that is. */
WELLACORN_MUST_USE
wellacorn_done wellacorn_pass(wellacorn_board *board, const wellacorn_pulse *row, uint64_t records, uint32_t d);

/* A relay module stands at a place from now on: at place 1 with relays 9 to 12, at place 2 with relays 13 to 16, all of them open. Nothing becomes
 * due by it, and of the row only the length counts. A place that is filled already stays as it is. Answers SERVED, SHORT_BUFFER for a row under
 * WELLACORN_PULSES records, or OUT_OF_RANGE for another place. */
WELLACORN_MUST_USE
wellacorn_done wellacorn_fill(wellacorn_board *board, const wellacorn_pulse *row, uint64_t records, uint8_t place);

/* The module at a place is gone. Its relays read open, which is a change if one of them was closed; it makes External Monitor due only where the other
 * module is still there. Without any module External Monitor is due to nobody. The pulses that stand, the running one too, lose these relays from
 * their masks, and keep their places, their times and their other relays; nothing else of the row is written to. A place that is empty already stays
 * as it is, and so does the row. Answers as wellacorn_fill. */
WELLACORN_MUST_USE
wellacorn_done wellacorn_empty(wellacorn_board *board, wellacorn_pulse *row, uint64_t records, uint8_t place);

/* Opens connection c at a rank: at a message start, with Monitor on, and due at rank 1 or 2; so is External Monitor if a module is there. `strict` is
 * 0 for a connection on which a sent checksum of 0xFFFF passes unchecked, as the protocol has it; with any other value none does, and the connection
 * stays so until it is closed: that is for a link that garbles bytes, such as radio. Answers SERVED, or NO_CONNECTION, ALREADY_OPEN or BAD_RANK. */
WELLACORN_MUST_USE
wellacorn_done wellacorn_connect(wellacorn_board *board, wellacorn_half halves[WELLACORN_CONNECTIONS], uint8_t c, uint8_t rank, uint8_t strict);

/* Closes connection c: half a message is forgotten, and everything of it is zero. Answers SERVED, or NO_CONNECTION. After either the connection is
 * shut, so a host may leave the answer. */
wellacorn_done wellacorn_close(wellacorn_board *board, wellacorn_half halves[WELLACORN_CONNECTIONS], uint8_t c);

/* Bytes of connection c. Up to the end of a message they are taken, or all of them where none ends: `taken` says how many. A message that
 * ends is served or refused, and what follows it in the piece is to be offered again. Of a message that is refused for its length `place` says
 * where: in its content, however the pieces were cut. A reply is `len` bytes at the start of the reply buffer, whole frames one behind the other: one,
 * or two where request 1 asks for Monitor while a module is there, Monitor and External Monitor. The bytes behind them stay, and without a reply all
 * stay.
 *
 *   rooms      1,024 content bytes for each connection, at 1,024 x c. A call writes to those of its own connection alone.
 *   row        `records` records, at least WELLACORN_PULSES or the answer is SHORT_BUFFER. A pulse that is accepted is written to one of the
 *              first 31; no other record is written to. Not null, not even for a length of 0.
 *   piece      piece_len bytes, read only. Not null, not even for an empty piece, which is judged as any and else answers WAITING.
 *   reply      reply_len bytes, at least WELLACORN_REPLY or the answer is SHORT_BUFFER. Not null, not even for a length of 0.
 *
 * Answers every number but ALREADY_OPEN and BAD_RANK. */
WELLACORN_MUST_USE
wellacorn_done wellacorn_bytes(wellacorn_board *board, wellacorn_half halves[WELLACORN_CONNECTIONS], uint8_t rooms[WELLACORN_ROOMS],
                               wellacorn_pulse *row, uint64_t records, uint8_t c, const uint8_t *piece, uint64_t piece_len, uint8_t *reply,
                               uint64_t reply_len);

/* Collects on connection c what is due, of the state now: a Monitor message, an External Monitor message, or the first and behind it the second, each
 * a whole frame, `len` bytes in all. Neither is due any longer then: SERVED. If nothing is due: WAITING. However much has changed since the last ones,
 * it is one of each. The reply buffer is as in wellacorn_bytes. Answers also NO_CONNECTION or SHORT_BUFFER. */
WELLACORN_MUST_USE
wellacorn_done wellacorn_collect(wellacorn_board *board, uint8_t c, uint8_t *reply, uint64_t reply_len);

/* ---- The box in one piece: all that is lent, and the same calls on it. What a later version lends besides is added here, and a host that
 * uses these stays as it is. */

typedef struct {
    wellacorn_board board;
    wellacorn_half halves[WELLACORN_CONNECTIONS];
    uint8_t rooms[WELLACORN_ROOMS];
    uint64_t ended[WELLACORN_CONNECTIONS];      /* what wellacorn_box_content gives; kept by the functions below alone, and not lent */
    wellacorn_pulse row[WELLACORN_PULSES];
} wellacorn_box;

static inline void wellacorn_box_power_up(wellacorn_box *box, wellacorn_settings s)
{
    wellacorn_power_up(&box->board, s);
    memset(box->ended, 0, sizeof box->ended);
}

WELLACORN_MUST_USE
static inline wellacorn_done wellacorn_box_level(wellacorn_box *box, uint8_t k, uint8_t v)
{
    return wellacorn_level(&box->board, k, v);
}

/* The row is lent whole, so the answer is always SERVED and need not be looked at. */
static inline wellacorn_done wellacorn_box_pass(wellacorn_box *box, uint32_t d)
{
    return wellacorn_pass(&box->board, box->row, WELLACORN_PULSES, d);
}

WELLACORN_MUST_USE
static inline wellacorn_done wellacorn_box_fill(wellacorn_box *box, uint8_t place)
{
    return wellacorn_fill(&box->board, box->row, WELLACORN_PULSES, place);
}

WELLACORN_MUST_USE
static inline wellacorn_done wellacorn_box_empty(wellacorn_box *box, uint8_t place)
{
    return wellacorn_empty(&box->board, box->row, WELLACORN_PULSES, place);
}

/* Keeps how long the content is that the call on connection c has ended. */
static inline void wellacorn_box_keep_ended(wellacorn_box *box, uint8_t c, uint64_t n)
{
    if (c < WELLACORN_CONNECTIONS) {
        box->ended[c] = n;
    }
}

WELLACORN_MUST_USE
static inline wellacorn_done wellacorn_box_connect(wellacorn_box *box, uint8_t c, uint8_t rank, uint8_t strict)
{
    wellacorn_box_keep_ended(box, c, 0);
    return wellacorn_connect(&box->board, box->halves, c, rank, strict);
}

static inline wellacorn_done wellacorn_box_close(wellacorn_box *box, uint8_t c)
{
    wellacorn_box_keep_ended(box, c, 0);
    return wellacorn_close(&box->board, box->halves, c);
}

/* Whether a call of bytes with this answer has ended a message whose content was kept. */
static inline bool wellacorn_ends_content(uint8_t answer)
{
    return answer == WELLACORN_SERVED || answer >= WELLACORN_BAD_CHECKSUM;
}

/* Of a message that has ended the header and N content bytes were taken: some before this call, which the half says, and the rest in it. */
WELLACORN_MUST_USE
static inline wellacorn_done wellacorn_box_bytes(wellacorn_box *box, uint8_t c, const uint8_t *piece, uint64_t piece_len, uint8_t *reply,
                                                 uint64_t reply_len)
{
    const uint64_t got = c < WELLACORN_CONNECTIONS ? box->halves[c].got : 0;
    const wellacorn_done done =
        wellacorn_bytes(&box->board, box->halves, box->rooms, box->row, WELLACORN_PULSES, c, piece, piece_len, reply, reply_len);
    wellacorn_box_keep_ended(box, c, wellacorn_ends_content(done.answer) ? got + done.taken - WELLACORN_HEADER : 0);
    return done;
}

WELLACORN_MUST_USE
static inline wellacorn_done wellacorn_box_collect(wellacorn_box *box, uint8_t c, uint8_t *reply, uint64_t reply_len)
{
    return wellacorn_collect(&box->board, c, reply, reply_len);
}

/* The content of the message that the last wellacorn_box_bytes on connection c has ended, served or refused: how many bytes it has, and in `content`
 * where they stand, until the next call of bytes on that connection. So a host reads what the box does not serve and it serves itself, as a login
 * (NOT_OFFERED). 0 where that call ended no message, or a single byte, a message without content, or one that was TOO_LONG to be kept; where it was
 * refused itself (NO_CONNECTION, SHORT_BUFFER); and from an opening, a closing and a power-up on. With BAD_CHECKSUM they are the bytes that came,
 * which may be garbled. There is no connection above 3: of any such c it is 0. `content` is never null. */
static inline uint64_t wellacorn_box_content(const wellacorn_box *box, uint8_t c, const uint8_t **content)
{
    const bool is_one = c < WELLACORN_CONNECTIONS;
    *content = is_one ? box->rooms + (size_t)WELLACORN_CONTENT * c : box->rooms;
    return is_one ? box->ended[c] : 0;
}

/* ---- Frames, for what the host itself has to say. The box reckons its own. */

/* The checksum of one byte more: 001's CRC-16, the byte into the low end and eight steps to the right. Of no bytes it is 0. */
static inline uint16_t wellacorn_checksum_next(uint16_t sum, uint8_t byte)
{
    unsigned next = (unsigned)sum ^ byte;
    for (int step = 0; step < 8; step++) {
        next = (next & 1u) != 0 ? next >> 1 ^ 0xA001u : next >> 1;
    }
    return (uint16_t)next;
}

/* The checksum of a content. */
static inline uint16_t wellacorn_checksum(const uint8_t *content, uint64_t n)
{
    uint16_t sum = 0;
    for (uint64_t i = 0; i < n; i++) {
        sum = wellacorn_checksum_next(sum, content[i]);
    }
    return sum;
}

/* Makes the frame of a content: its header and behind it the content, which may stand there already or elsewhere in the frame. Gives the frame's
 * length, WELLACORN_HEADER + n, for which there must be room. A content of more than 65,535 bytes has no frame: then it gives 0 and writes nothing. */
static inline uint64_t wellacorn_frame(uint8_t *frame, const uint8_t *content, uint64_t n)
{
    uint16_t sum;
    if (n > UINT16_MAX) {
        return 0;
    }
    sum = wellacorn_checksum(content, n);
    memmove(frame + WELLACORN_HEADER, content, (size_t)n);
    frame[0] = 0x01;
    frame[1] = (uint8_t)(n >> 8);
    frame[2] = (uint8_t)n;
    frame[3] = (uint8_t)(sum >> 8);
    frame[4] = (uint8_t)sum;
    return WELLACORN_HEADER + n;
}

/* ---- The layout that the archive has, held to what this compiler makes of the structs. host/layout.c holds the archive to it. */

/* C before C11 has no static_assert: an array of -1 elements is refused as well, and its name says what does not hold. */
#if defined(__cplusplus) || (defined(__STDC_VERSION__) && __STDC_VERSION__ >= 201112L)
#define WELLACORN_HOLDS(name, condition) static_assert(condition, #name)
#else
#define WELLACORN_HOLDS(name, condition) typedef char name[(condition) ? 1 : -1]
#endif

#define WELLACORN_ROW 64    /* bytes */
#define WELLACORN_SIZE(type, size) WELLACORN_HOLDS(type##_has_its_size, sizeof(type) == (size))
#define WELLACORN_PLACE(type, field, place) WELLACORN_HOLDS(type##_has_##field##_at_its_place, offsetof(type, field) == (place))

WELLACORN_HOLDS(wellacorn_bool_is_one_byte, sizeof(bool) == 1);

WELLACORN_SIZE(wellacorn_input, WELLACORN_ROW);
WELLACORN_PLACE(wellacorn_input, level, 0);
WELLACORN_PLACE(wellacorn_input, alarm, 8);
WELLACORN_PLACE(wellacorn_input, count, 16);
WELLACORN_PLACE(wellacorn_input, setpoint_one, 24);
WELLACORN_PLACE(wellacorn_input, setpoint_two, 32);
WELLACORN_PLACE(wellacorn_input, usage, 40);
WELLACORN_PLACE(wellacorn_input, usage_setpoint, 48);

WELLACORN_SIZE(wellacorn_relay, WELLACORN_ROW);
WELLACORN_PLACE(wellacorn_relay, closed, 0);
WELLACORN_PLACE(wellacorn_relay, usage, 40);
WELLACORN_PLACE(wellacorn_relay, usage_setpoint, 48);

WELLACORN_SIZE(wellacorn_clock, WELLACORN_ROW);
WELLACORN_PLACE(wellacorn_clock, time, 0);

WELLACORN_SIZE(wellacorn_line, WELLACORN_ROW);
WELLACORN_PLACE(wellacorn_line, is_open, 0);
WELLACORN_PLACE(wellacorn_line, rank, 8);
WELLACORN_PLACE(wellacorn_line, monitor, 16);
WELLACORN_PLACE(wellacorn_line, due, 24);
WELLACORN_PLACE(wellacorn_line, strict, 32);
WELLACORN_PLACE(wellacorn_line, external, 40);

WELLACORN_SIZE(wellacorn_queue, WELLACORN_ROW);
WELLACORN_PLACE(wellacorn_queue, first, 0);
WELLACORN_PLACE(wellacorn_queue, standing, 8);
WELLACORN_PLACE(wellacorn_queue, left, 16);
WELLACORN_PLACE(wellacorn_queue, remembered, 24);
WELLACORN_PLACE(wellacorn_queue, mask, 32);
WELLACORN_PLACE(wellacorn_queue, states, 40);
WELLACORN_PLACE(wellacorn_queue, duration, 48);

WELLACORN_SIZE(wellacorn_place, WELLACORN_ROW);
WELLACORN_PLACE(wellacorn_place, filled, 0);

WELLACORN_SIZE(wellacorn_board, WELLACORN_ROWS * WELLACORN_ROW);
WELLACORN_PLACE(wellacorn_board, inputs, 0 * WELLACORN_ROW);
WELLACORN_PLACE(wellacorn_board, relays, 8 * WELLACORN_ROW);
WELLACORN_PLACE(wellacorn_board, clock, 24 * WELLACORN_ROW);
WELLACORN_PLACE(wellacorn_board, lines, 25 * WELLACORN_ROW);
WELLACORN_PLACE(wellacorn_board, queue, 29 * WELLACORN_ROW);
WELLACORN_PLACE(wellacorn_board, places, 30 * WELLACORN_ROW);

WELLACORN_SIZE(wellacorn_pulse, 8);
WELLACORN_PLACE(wellacorn_pulse, mask, 0);
WELLACORN_PLACE(wellacorn_pulse, states, 2);
WELLACORN_PLACE(wellacorn_pulse, duration, 4);

WELLACORN_SIZE(wellacorn_half, 24);
WELLACORN_PLACE(wellacorn_half, got, 0);
WELLACORN_PLACE(wellacorn_half, len, 8);
WELLACORN_PLACE(wellacorn_half, sum, 16);

WELLACORN_SIZE(wellacorn_input_settings, 24);
WELLACORN_PLACE(wellacorn_input_settings, setpoint_one, 0);
WELLACORN_PLACE(wellacorn_input_settings, setpoint_two, 4);
WELLACORN_PLACE(wellacorn_input_settings, usage_setpoint, 8);
WELLACORN_PLACE(wellacorn_input_settings, alarm, 16);

WELLACORN_SIZE(wellacorn_settings, 256);
WELLACORN_PLACE(wellacorn_settings, inputs, 0);
WELLACORN_PLACE(wellacorn_settings, relays, 192);

WELLACORN_SIZE(wellacorn_done, 32);
WELLACORN_PLACE(wellacorn_done, taken, 0);
WELLACORN_PLACE(wellacorn_done, len, 8);
WELLACORN_PLACE(wellacorn_done, place, 16);
WELLACORN_PLACE(wellacorn_done, answer, 24);

#undef WELLACORN_ROW
#undef WELLACORN_SIZE
#undef WELLACORN_PLACE
#undef WELLACORN_HOLDS
#undef WELLACORN_MUST_USE

#ifdef __cplusplus
}
#endif

#endif
