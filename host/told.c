/* What each message did, which pulses began and ended, and what went with a module, in words. */
#define _POSIX_C_SOURCE 200809L

#include "told.h"

#include "say.h"

#include <inttypes.h>
#include <stdarg.h>
#include <string.h>
#include <time.h>

/* ---- Words put one behind the other */

typedef struct {
    char text[640];
    size_t n;
} words;

static void add(words *w, const char *format, ...) SAY_FORMAT(2);

static void add(words *w, const char *format, ...)
{
    va_list args;
    va_start(args, format);
    int n = vsnprintf(w->text + w->n, sizeof w->text - w->n, format, args);
    va_end(args);
    if (n > 0) {
        size_t left = sizeof w->text - 1 - w->n;
        w->n += (size_t)n < left ? (size_t)n : left;
    }
}

/* ---- Fields */

static unsigned two_at(const uint8_t *p)
{
    return (unsigned)p[0] << 8 | p[1];
}

static uint64_t eight_at(const uint8_t *p)
{
    uint64_t x = 0;
    for (int i = 0; i < 8; i++) {
        x = x << 8 | p[i];
    }
    return x;
}

/* A clock reading: a date as long as the year has four digits, else the number. */
static void add_clock(words *w, uint64_t ms)
{
    const uint64_t year_10000 = 253402300800u;
    time_t seconds = (time_t)(ms / 1000 < year_10000 ? ms / 1000 : 0);
    struct tm date;
    char text[40];
    if (ms / 1000 < year_10000 && gmtime_r(&seconds, &date) != NULL && strftime(text, sizeof text, "%Y-%m-%d %H:%M:%S", &date) > 0) {
        add(w, "%s.%03u GMT", text, (unsigned)(ms % 1000));
    } else {
        add(w, "%" PRIu64 " ms", ms);
    }
}

enum { FIRST_DECK = 0xFF };     /* relays 1 to 8 as bits */

/* A pulse: which relays, and how long. One of a relay of the second deck whose module was pulled since then has only its states left to tell that it
 * was one. */
static void add_pulse(words *w, const wellacorn_pulse *pulse)
{
    for (unsigned k = 0; k < WELLACORN_RELAYS; k++) {
        if (pulse->mask == 1u << k && (pulse->states & pulse->mask) != 0) {
            add(w, "relay %u, %" PRIu32 " ms", k + 1, pulse->duration);
            return;
        }
    }
    if (pulse->mask == 0 && pulse->states > FIRST_DECK) {
        add(w, "no relay any more, %" PRIu32 " ms", pulse->duration);
        return;
    }
    int digits = pulse->mask > FIRST_DECK ? 4 : 2;
    add(w, "a block of relays, mask %0*X state %0*X, %" PRIu32 " ms", digits, pulse->mask, digits, pulse->states, pulse->duration);
}

/* ---- Messages that were served. Their layout is right: the box has judged it. */

static void add_request(words *w, const uint8_t *content)
{
    static const char *const requests[] = {
        "asked for the clock", "asked for a Monitor message", "asked for the usages", "", "turned its Monitor messages off",
        "turned its Monitor messages on",
    };
    unsigned request = two_at(content + 1);
    add(w, "%s", request < sizeof requests / sizeof requests[0] ? requests[request] : "asked");
}

/* A pulse that was asked for: it stands last, and runs if it stands alone. */
static void add_asked(words *w, const box *b, const wellacorn_pulse *asked)
{
    uint64_t others = b->lent.board.queue.standing - 1;
    add(w, "asked for a pulse of ");
    add_pulse(w, asked);
    if (others == 0) {
        add(w, ": it has begun");
    } else {
        add(w, ": it waits behind %" PRIu64 " other%s", others, others == 1 ? "" : "s");
    }
}

static void add_command(words *w, const box *b, const uint8_t *content)
{
    unsigned channel = two_at(content + 2);
    switch (content[1]) {
    case 1:
        add(w, "commanded relay %u closed", channel);
        break;
    case 2:
        add(w, "commanded relay %u open", channel);
        break;
    case 3:
        add(w, "toggled relay %u", channel);
        break;
    case 5:
        add(w, "cleared the count of input %u", channel);
        break;
    case 6:
    case 7:
        add_asked(w, b, box_pulse(b, b->lent.board.queue.first, b->lent.board.queue.standing - 1));
        break;
    case 8:
        add(w, "cleared the usage of input %u", channel);
        break;
    case 9:
        add(w, "cleared the usage of relay %u", channel);
        break;
    default:
        add(w, "commanded a block of relays, mask %02X state %02X", content[2], content[3]);
    }
}

static void add_served(words *w, const box *b, const uint8_t *content)
{
    const uint8_t *reply = b->reply + 5;    /* the content of the reply, of those that have one */
    switch (content[0]) {
    case 5:
        add_request(w, content);
        break;
    case 7:
        add(w, "set the clock to ");
        add_clock(w, eight_at(content + 1));
        break;
    case 10:
        add_command(w, b, content);
        break;
    case 21:
        add(w, "read %u devices", two_at(content + 1));
        break;
    case 23:
        add(w, "wrote %u of %u devices", two_at(reply + 1), two_at(content + 1));
        break;
    case 26:
        add(w, "listed the devices: %u", two_at(reply + 2));
        break;
    default:
        add(w, "sent a message of type %u, served", content[0]);
    }
}

/* Which relays really changed. */
static void add_switched(words *w, const box *b, unsigned switched)
{
    for (int k = 0; k < WELLACORN_RELAYS; k++) {
        if (switched >> k & 1) {
            add(w, "; relay %d is %s now", k + 1, b->lent.board.relays[k].closed ? "closed" : "open");
        }
    }
}

/* ---- Messages that were refused: why, and what to do about it */

static void add_checksum(words *w, bool strict)
{
    if (strict) {
        add(w, "its checksum differs, and 0xFFFF does not pass unchecked on this strict connection. "
               "The link is noisy, or the sender reckons no checksum or a wrong one");
    } else {
        add(w, "its checksum differs. The link is noisy, or the sender reckons it wrongly");
    }
}

/* How long a message of a type that the box offers has to be, its type included. */
static const char *layout_words(uint8_t type)
{
    switch (type) {
    case 5:
        return "3 bytes, or 7 with an interval";
    case 7:
        return "9 bytes";
    case 10:
        return "4 bytes, or 8 for a pulse";
    case 21:
        return "3 bytes, and 8 for each ID that it counts";
    case 23:
        return "3 bytes, and 10 and the block for each entry that it counts";
    default:
        return "2 bytes";
    }
}

/* Whether bytes are missing or too many, and where. */
static void add_length(words *w, const uint8_t *content, const wellacorn_done *done)
{
    if (done->answer == WELLACORN_ENDS_EARLY) {
        add(w, "it ends too early at byte %" PRIu64, done->place);
    } else if (done->answer == WELLACORN_LEFT_OVER) {
        add(w, "bytes are left over from byte %" PRIu64 " on", done->place);
    } else {
        add(w, "its list of %u is cut at byte %" PRIu64, two_at(content + 1), done->place);
    }
    add(w, " (its type is byte 0). It should have %s", layout_words(content[0]));
}

/* The relay of the second deck that a command is to switch or pulse; 0 for any other message. */
static unsigned relay_asked(const uint8_t *content, size_t n)
{
    unsigned action = n >= 4 && content[0] == 10 ? content[1] : 0;
    unsigned channel = (action >= 1 && action <= 3) || action == 6 ? two_at(content + 2) : 0;
    return channel > WELLACORN_CHANNELS && channel <= WELLACORN_RELAYS ? channel : 0;
}

/* A number that stands for nothing, or for a relay whose module is not there. */
static void add_range(words *w, const box *b, const uint8_t *content, size_t n)
{
    unsigned relay = relay_asked(content, n);
    if (relay != 0 && !box_is_filled(b, box_place_of(relay))) {
        add(w, "relay %u: no module at place %u. Plug one in there first", relay, box_place_of(relay));
    } else {
        add(w, "an action, request, channel, duration or flag is out of range");
    }
}

static void add_refused(words *w, const box *b, const uint8_t *content, size_t n, const wellacorn_done *done, bool strict)
{
    if (n == 0) {
        add(w, "sent an empty message; refused (%u): ", done->answer);
    } else {
        add(w, "sent a message of type %u; refused (%u): ", content[0], done->answer);
    }
    switch (done->answer) {
    case WELLACORN_BAD_CHECKSUM:
        add_checksum(w, strict);
        break;
    case WELLACORN_NOT_OFFERED:
        add(w, "%s", n == 0 ? "it has no type" : "this box does not offer it");
        break;
    case WELLACORN_LOW_RANK:
        add(w, "its rank is too low. %s", content[0] == 7 ? "An administrator has to log in" : "Somebody has to log in first");
        break;
    case WELLACORN_ENDS_EARLY:
    case WELLACORN_LEFT_OVER:
    case WELLACORN_LIST_CUT:
        add_length(w, content, done);
        break;
    case WELLACORN_QUEUE_FULL:
        add(w, "%d pulses stand in the queue. Ask again when one has ended", WELLACORN_PULSES);
        break;
    default:
        add_range(w, b, content, n);
    }
}

/* ---- A call */

static void told_message(const box *b, uint8_t c, const came *it)
{
    words w = {.n = 0};
    const uint8_t *content;
    size_t n = box_content(b, c, &content);
    if (it->done.answer == WELLACORN_SERVED) {
        add_served(&w, b, content);
        add_switched(&w, b, it->switched);
    } else if (it->done.answer == WELLACORN_TOO_LONG) {
        add(&w, "sent a message of %" PRIu64 " bytes, swallowed (%d): the longest is 1,024", it->read - 5, WELLACORN_TOO_LONG);
    } else {
        add_refused(&w, b, content, n, &it->done, b->lent.board.lines[c].strict != 0);
    }
    say("connection %u %s", c, w.text);
}

void told_bytes(heard *h, const box *b, uint8_t c, const came *it)
{
    uint8_t answer = it->done.answer;
    if (answer == WELLACORN_WAITING) {
        return;
    }
    h->strays += answer == WELLACORN_STRAY;
    h->keep_alives += answer == WELLACORN_KEEP_ALIVE;
    if (answer != WELLACORN_STRAY && answer != WELLACORN_KEEP_ALIVE) {
        told_rest(h, c);
        told_message(b, c, it);
    }
}

/* Says that a pulse has begun or ended, and with the last of them which relays are not as they were before all of it. */
static void told_pulse(const box *b, const passed *it, size_t i, const char *what, bool last)
{
    words w = {.n = 0};
    add_pulse(&w, box_pulse(b, it->first, i));
    add(&w, ", has %s", what);
    add_switched(&w, b, last ? it->switched : 0);
    say("the pulse of %s", w.text);
}

void told_time(const box *b, const passed *it)
{
    for (size_t i = 0; i < it->ended; i++) {
        bool last = i + 1 == it->ended, next = i + 1 < it->stood;
        told_pulse(b, it, i, "ended", last && !next);
        if (next) {
            told_pulse(b, it, i + 1, "begun", last);
        }
    }
}

void told_emptied(const box *b, uint8_t place, const emptied *it)
{
    words w = {.n = 0};
    add(&w, "place %u is empty: relays %u to %u are gone", place, box_first_relay(place), box_first_relay(place) + BOX_MODULE - 1);
    add_switched(&w, b, it->switched);
    if (it->pulses > 0) {
        add(&w, "; %zu %s", it->pulses, it->pulses == 1 ? "pulse has lost them from its mask" : "pulses have lost them from their masks");
    }
    say("%s", w.text);
}

void told_rest(heard *h, uint8_t c)
{
    if (h->strays > 0) {
        say("connection %u sent %lu stray byte%s, ignored (%d): no message begins so", c, h->strays, h->strays == 1 ? "" : "s", WELLACORN_STRAY);
    }
    if (h->keep_alives > 0) {
        say("connection %u is there still: %lu keep-alive%s (%d)", c, h->keep_alives, h->keep_alives == 1 ? "" : "s", WELLACORN_KEEP_ALIVE);
    }
    h->strays = h->keep_alives = 0;
}

const char *told_rank(uint64_t rank)
{
    return rank == 2 ? "administrator" : rank == 1 ? "user" : "not logged in";
}

const char *told_strict(bool strict)
{
    return strict ? ", strict" : "";
}

/* ---- All that the box holds */

static const char *alarm_word(bool on, const char *word)
{
    return on ? word : "";
}

/* 02, M-101, 3: above the setpoint both messages show the alarm, at it the read block alone. */
static const char *count_words(uint64_t count, uint64_t setpoint, const char *above, const char *at)
{
    return setpoint == 0 || count < setpoint ? "" : count > setpoint ? above : at;
}

static void told_input(int k, const wellacorn_input *in)
{
    say("state: input %d %s, count %" PRIu64 ", usage %" PRIu64 " ms%s%s%s%s", k, in->level ? "on" : "off", in->count, in->usage,
        alarm_word(in->alarm && in->level, ", alarm"), count_words(in->count, in->setpoint_one, ", count alarm 1", ", setpoint 1 reached"),
        count_words(in->count, in->setpoint_two, ", count alarm 2", ", setpoint 2 reached"),
        alarm_word(in->usage_setpoint > 0 && in->usage >= in->usage_setpoint, ", usage alarm"));
}

static void told_queue(const box *b)
{
    const wellacorn_queue *queue = &b->lent.board.queue;
    if (queue->standing == 0) {
        say("state: no pulse stands in the queue");
    }
    for (size_t i = 0; i < queue->standing; i++) {
        words w = {.n = 0};
        add_pulse(&w, box_pulse(b, queue->first, i));
        if (i == 0) {
            say("state: the pulse of %s, runs: %" PRIu64 " ms left", w.text, queue->left);
        } else {
            say("state: the pulse of %s, waits", w.text);
        }
    }
}

static void told_relays(const wellacorn_board *board)
{
    for (int k = 0; k < WELLACORN_CHANNELS; k++) {
        const wellacorn_relay *r = &board->relays[k];
        say("state: relay %d %s, usage %" PRIu64 " ms%s", k + 1, r->closed ? "closed" : "open", r->usage,
            alarm_word(r->usage_setpoint > 0 && r->usage >= r->usage_setpoint, ", usage alarm"));
    }
}

/* A place of the second deck, and the relays that are there with its module: they have no usage. */
static void told_place(const box *b, unsigned place)
{
    const unsigned first = box_first_relay(place);
    if (!box_is_filled(b, place)) {
        say("state: place %u is empty", place);
        return;
    }
    say("state: place %u is filled, relays %u to %u", place, first, first + BOX_MODULE - 1);
    for (unsigned k = first; k < first + BOX_MODULE; k++) {
        say("state: relay %u %s", k, b->lent.board.relays[k - 1].closed ? "closed" : "open");
    }
}

void told_state(const box *b, const char *const peers[WELLACORN_CONNECTIONS])
{
    const wellacorn_board *board = &b->lent.board;
    words clock = {.n = 0};
    add_clock(&clock, board->clock.time);
    say("state: clock %" PRIu64 " ms, %s", board->clock.time, clock.text);
    for (int k = 0; k < WELLACORN_CHANNELS; k++) {
        told_input(k + 1, &board->inputs[k]);
    }
    told_relays(board);
    for (unsigned place = 1; place <= WELLACORN_PLACES; place++) {
        told_place(b, place);
    }
    told_queue(b);
    for (int c = 0; c < WELLACORN_CONNECTIONS; c++) {
        const wellacorn_line *l = &board->lines[c];
        if (peers[c] == NULL) {
            say("state: connection %d is free", c);
        } else {
            say("state: connection %d is %s, %s%s, Monitor %s, %" PRIu64 " bytes of a message read", c, peers[c], told_rank(l->rank),
                told_strict(l->strict != 0), l->monitor ? "on" : "off", b->lent.halves[c].got);
        }
    }
}
