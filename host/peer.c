/* The same box in plain C. The rules, documents 01 and 02, are named by their place: section and sentence, of a message also its type. */
#include "peer.h"

#include <string.h>

enum {
    START = 0x01,
    ACK = 0x06,
    HEADER = 5,             /* start byte, length, checksum */
    UNCHECKED = 0xFFFF,     /* 01, Frame, 5: the checksum that stands for none */
    NO_CHECKSUM = 0x10000   /* more than two bytes hold */
};

enum type {
    MONITOR = 1,
    EXTERNAL_MONITOR = 2,
    REQUEST = 5,
    CLOCK = 6,
    SET_CLOCK = 7,
    USAGES = 8,
    COMMAND = 10,
    READ_DEVICES = 21,
    DEVICES_READ = 22,
    WRITE_DEVICES = 23,
    DEVICES_WRITTEN = 24,
    ENUMERATE_DEVICES = 26,
    DEVICES_ENUMERATED = 27
};

/* ---- Numbers in bytes: big-endian and unsigned */

static inline uint16_t get16(const uint8_t *p)
{
    return (uint16_t)(p[0] << 8 | p[1]);
}

static inline uint32_t get32(const uint8_t *p)
{
    return (uint32_t)get16(p) << 16 | get16(p + 2);
}

static inline uint64_t get64(const uint8_t *p)
{
    return (uint64_t)get32(p) << 32 | get32(p + 4);
}

/* Each put gives the place behind what it wrote. */
static inline uint8_t *put8(uint8_t *p, uint8_t x)
{
    *p = x;
    return p + 1;
}

static inline uint8_t *put16(uint8_t *p, uint16_t x)
{
    p[0] = (uint8_t)(x >> 8);
    p[1] = (uint8_t)x;
    return p + 2;
}

static inline uint8_t *put32(uint8_t *p, uint32_t x)
{
    put16(p, (uint16_t)(x >> 16));
    put16(p + 2, (uint16_t)x);
    return p + 4;
}

static inline uint8_t *put64(uint8_t *p, uint64_t x)
{
    put32(p, (uint32_t)(x >> 32));
    put32(p + 4, (uint32_t)x);
    return p + 8;
}

/* ---- Checksum */

/* Entry n: n shifted right eight times, and 0xA001 put over it (exclusive or) for each 1 that falls out. */
static const uint16_t crc_table[256] = {
    0x0000, 0xC0C1, 0xC181, 0x0140, 0xC301, 0x03C0, 0x0280, 0xC241,
    0xC601, 0x06C0, 0x0780, 0xC741, 0x0500, 0xC5C1, 0xC481, 0x0440,
    0xCC01, 0x0CC0, 0x0D80, 0xCD41, 0x0F00, 0xCFC1, 0xCE81, 0x0E40,
    0x0A00, 0xCAC1, 0xCB81, 0x0B40, 0xC901, 0x09C0, 0x0880, 0xC841,
    0xD801, 0x18C0, 0x1980, 0xD941, 0x1B00, 0xDBC1, 0xDA81, 0x1A40,
    0x1E00, 0xDEC1, 0xDF81, 0x1F40, 0xDD01, 0x1DC0, 0x1C80, 0xDC41,
    0x1400, 0xD4C1, 0xD581, 0x1540, 0xD701, 0x17C0, 0x1680, 0xD641,
    0xD201, 0x12C0, 0x1380, 0xD341, 0x1100, 0xD1C1, 0xD081, 0x1040,
    0xF001, 0x30C0, 0x3180, 0xF141, 0x3300, 0xF3C1, 0xF281, 0x3240,
    0x3600, 0xF6C1, 0xF781, 0x3740, 0xF501, 0x35C0, 0x3480, 0xF441,
    0x3C00, 0xFCC1, 0xFD81, 0x3D40, 0xFF01, 0x3FC0, 0x3E80, 0xFE41,
    0xFA01, 0x3AC0, 0x3B80, 0xFB41, 0x3900, 0xF9C1, 0xF881, 0x3840,
    0x2800, 0xE8C1, 0xE981, 0x2940, 0xEB01, 0x2BC0, 0x2A80, 0xEA41,
    0xEE01, 0x2EC0, 0x2F80, 0xEF41, 0x2D00, 0xEDC1, 0xEC81, 0x2C40,
    0xE401, 0x24C0, 0x2580, 0xE541, 0x2700, 0xE7C1, 0xE681, 0x2640,
    0x2200, 0xE2C1, 0xE381, 0x2340, 0xE101, 0x21C0, 0x2080, 0xE041,
    0xA001, 0x60C0, 0x6180, 0xA141, 0x6300, 0xA3C1, 0xA281, 0x6240,
    0x6600, 0xA6C1, 0xA781, 0x6740, 0xA501, 0x65C0, 0x6480, 0xA441,
    0x6C00, 0xACC1, 0xAD81, 0x6D40, 0xAF01, 0x6FC0, 0x6E80, 0xAE41,
    0xAA01, 0x6AC0, 0x6B80, 0xAB41, 0x6900, 0xA9C1, 0xA881, 0x6840,
    0x7800, 0xB8C1, 0xB981, 0x7940, 0xBB01, 0x7BC0, 0x7A80, 0xBA41,
    0xBE01, 0x7EC0, 0x7F80, 0xBF41, 0x7D00, 0xBDC1, 0xBC81, 0x7C40,
    0xB401, 0x74C0, 0x7580, 0xB541, 0x7700, 0xB7C1, 0xB681, 0x7640,
    0x7200, 0xB2C1, 0xB381, 0x7340, 0xB101, 0x71C0, 0x7080, 0xB041,
    0x5000, 0x90C1, 0x9181, 0x5140, 0x9301, 0x53C0, 0x5280, 0x9241,
    0x9601, 0x56C0, 0x5780, 0x9741, 0x5500, 0x95C1, 0x9481, 0x5440,
    0x9C01, 0x5CC0, 0x5D80, 0x9D41, 0x5F00, 0x9FC1, 0x9E81, 0x5E40,
    0x5A00, 0x9AC1, 0x9B81, 0x5B40, 0x9901, 0x59C0, 0x5880, 0x9841,
    0x8801, 0x48C0, 0x4980, 0x8941, 0x4B00, 0x8BC1, 0x8A81, 0x4A40,
    0x4E00, 0x8EC1, 0x8F81, 0x4F40, 0x8D01, 0x4DC0, 0x4C80, 0x8C41,
    0x4400, 0x84C1, 0x8581, 0x4540, 0x8701, 0x47C0, 0x4680, 0x8641,
    0x8201, 0x42C0, 0x4380, 0x8341, 0x4100, 0x81C1, 0x8081, 0x4040,
};

static uint16_t crc16(const uint8_t *p, size_t n)
{
    uint16_t crc = 0;
    for (const uint8_t *end = p + n; p < end; p++) {
        crc = (uint16_t)(crc >> 8 ^ crc_table[(crc ^ *p) & 0xFF]);
    }
    return crc;
}

/* The header before n content bytes that stand behind its place. Gives the frame's length. */
static size_t seal(uint8_t *reply, size_t n)
{
    reply[0] = START;
    put16(reply + 1, (uint16_t)n);
    put16(reply + 3, crc16(reply + HEADER, n));
    return HEADER + n;
}

/* ---- Tables. Several relays are a number, lowest bit relay 1, and what really changed is told by such a number. */

enum { FIRST_DECK = 0x00FF };   /* relays 1 to 8; a level that changed is told by it too */

static bool has_module(const peer_tables *tables)
{
    return tables->present != FIRST_DECK;
}

/* 01, Events, 6: after a real change, to every open connection that has a rank above 0 and Monitor on. 02, M-102, 4 and 6: the second deck's relays do
 * not mark the Monitor message; any change marks the External Monitor message, while there is a module. */
static void mark_due(peer_box *box, unsigned changed)
{
    bool inner = (changed & FIRST_DECK) != 0, external = has_module(&box->tables);
    for (int c = 0; c < WELLACORN_CONNECTIONS; c++) {
        peer_line *line = &box->connections[c].line;
        if (line->is_open & (line->rank != 0) & line->monitor) {
            line->due |= inner;
            line->external |= external;
        }
    }
}

static unsigned put_relay(peer_relay *relays, unsigned k, bool closed)
{
    unsigned changed = relays[k].closed != closed;
    relays[k].closed = closed;
    return changed << k;
}

/* 01, Messages, 10, 3: a relay that is not masked stays. */
static unsigned change_block(peer_relay *relays, unsigned mask, unsigned state)
{
    unsigned changed = 0;
    for (unsigned k = 0; k < WELLACORN_RELAYS; k++) {
        if (mask >> k & 1) {
            changed |= put_relay(relays, k, state >> k & 1);
        }
    }
    return changed;
}

static uint64_t grown(uint64_t ms, uint32_t d)
{
    uint64_t sum = ms + d;
    return sum < ms ? UINT64_MAX : sum;
}

static uint8_t alarm_state(const peer_input *in)
{
    return in->alarm & in->level;
}

/* 02, M-101, 3: the rule of the Monitor message's count alarms. */
static uint8_t alarm_above(uint64_t number, uint64_t setpoint)
{
    return (setpoint != 0) & (number > setpoint);
}

/* 02, M-101, 3: the rule of the read block's count alarms; usage alarms have it too. */
static uint8_t alarm_at_or_above(uint64_t number, uint64_t setpoint)
{
    return (setpoint != 0) & (number >= setpoint);
}

/* ---- Pulses. 02, M-100, 3: beginning and end are two changes, so both say which relays really changed. */

static unsigned begin_pulse(peer_box *box, const peer_pulse *pulse)
{
    peer_relay *relays = box->tables.relays;
    unsigned remembered = 0;
    for (int k = 0; k < WELLACORN_RELAYS; k++) {
        remembered |= (unsigned)relays[k].closed << k;
    }
    box->queue.remembered = (uint16_t)remembered;
    box->queue.left = pulse->duration;
    return change_block(relays, pulse->mask, pulse->states);
}

/* The running pulse ends, and the next begins, if one waits. */
static unsigned end_pulse(peer_box *box, const peer_pulse *row)
{
    peer_queue *queue = &box->queue;
    unsigned changed = change_block(box->tables.relays, row[queue->first].mask, queue->remembered);
    queue->first = queue->first == WELLACORN_PULSES - 1 ? 0 : queue->first + 1;
    queue->standing--;
    if (queue->standing > 0) {
        changed |= begin_pulse(box, &row[queue->first]);
    } else {
        queue->left = 0;
        queue->remembered = 0;
    }
    return changed;
}

/* ---- Devices: inputs at 0 to 7, relays at 8 to 23 */

enum { DEVICES = WELLACORN_CHANNELS + WELLACORN_RELAYS, UNKNOWN = -1 };

/* 01, Messages, IDs: from the low end on FF, the channel, and 1 for a relay. 02, M-102, 9: the second deck's go on in that way. */
static uint64_t id_of(unsigned device)
{
    unsigned k = device < WELLACORN_CHANNELS ? 0x01 + device : 0x0101 + device - WELLACORN_CHANNELS;
    return (uint64_t)k << 8 | 0xFF;
}

/* 02, M-102, 9: those of the second deck are like unknown ones here, whether their module is there or not: no block is read of them, none written. */
static int device_of(uint64_t id)
{
    uint64_t k = id >> 8;
    if ((id & 0xFF) != 0xFF) {
        return UNKNOWN;
    }
    if (k - 0x01 < WELLACORN_CHANNELS) {
        return (int)(k - 0x01);
    }
    if (k - 0x0101 < WELLACORN_CHANNELS) {
        return (int)(k - 0x0101) + WELLACORN_CHANNELS;
    }
    return UNKNOWN;
}

/* ---- Replies: each writes its content and gives the place behind it */

/* What the Monitor message and the read block say alike of an input; each judges the count alarms itself. */
static uint8_t *put_input(uint8_t *p, const peer_input *in, uint8_t one, uint8_t two)
{
    p = put8(p, in->level);
    p = put8(p, alarm_state(in));
    p = put32(p, in->count);
    p = put8(p, one);
    return put8(p, two);
}

static uint8_t *put_monitor(uint8_t *p, const peer_tables *tables)
{
    static const uint8_t version[] = "\x0Fjr310 3.10.0001";

    p = put8(p, MONITOR);
    memcpy(p, version, sizeof version - 1);
    p += sizeof version - 1;
    for (int k = 0; k < WELLACORN_CHANNELS; k++) {
        const peer_input *in = &tables->inputs[k];
        p = put_input(p, in, alarm_above(in->count, in->setpoint_one), alarm_above(in->count, in->setpoint_two));
    }
    for (int k = 0; k < WELLACORN_CHANNELS; k++) {
        p = put8(p, tables->relays[k].closed);
    }
    return put64(p, tables->clock);
}

/* 02, M-102, 5: the present outputs, rising. 001: before them the number of inputs, of which there are none. */
static uint8_t *put_external_monitor(uint8_t *p, const peer_tables *tables)
{
    p = put8(p, EXTERNAL_MONITOR);
    p = put8(p, 0);
    uint8_t *count = p++;
    for (int k = WELLACORN_CHANNELS; k < WELLACORN_RELAYS; k++) {
        if (tables->present >> k & 1) {
            p = put8(p, tables->relays[k].closed);
        }
    }
    put8(count, (uint8_t)(p - count - 1));
    return put64(p, tables->clock);
}

/* Both as whole frames: each gives its length. */
static size_t monitor_frame(uint8_t *frame, const peer_tables *tables)
{
    const uint8_t *end = put_monitor(frame + HEADER, tables);
    return seal(frame, (size_t)(end - frame) - HEADER);
}

static size_t external_frame(uint8_t *frame, const peer_tables *tables)
{
    const uint8_t *end = put_external_monitor(frame + HEADER, tables);
    return seal(frame, (size_t)(end - frame) - HEADER);
}

static uint8_t *put_clock(uint8_t *p, const peer_tables *tables)
{
    p = put8(p, CLOCK);
    return put64(p, tables->clock);
}

static uint8_t *put_usages(uint8_t *p, const peer_tables *tables)
{
    p = put8(p, USAGES);
    for (int k = 0; k < WELLACORN_CHANNELS; k++) {
        p = put64(p, tables->inputs[k].usage);
    }
    for (int k = 0; k < WELLACORN_CHANNELS; k++) {
        p = put64(p, tables->relays[k].usage);
    }
    return put64(p, tables->clock);
}

/* 01, Messages, 21, 2 and 3: ID, block length, block; of an unknown ID no block. */
static uint8_t *put_device(uint8_t *p, const peer_tables *tables, uint64_t id)
{
    int device = device_of(id);

    p = put64(p, id);
    if (device == UNKNOWN) {
        return put16(p, 0);
    }
    if (device < WELLACORN_CHANNELS) {
        const peer_input *in = &tables->inputs[device];
        p = put16(p, 17);
        p = put_input(p, in, alarm_at_or_above(in->count, in->setpoint_one), alarm_at_or_above(in->count, in->setpoint_two));
        p = put64(p, in->usage);
        return put8(p, alarm_at_or_above(in->usage, in->usage_setpoint));
    }
    const peer_relay *relay = &tables->relays[device - WELLACORN_CHANNELS];
    p = put16(p, 10);
    p = put8(p, relay->closed);
    p = put64(p, relay->usage);
    return put8(p, alarm_at_or_above(relay->usage, relay->usage_setpoint));
}

/* ---- Wrong lengths. 02, M-105, 1 and 2: which it is, and where: the place of the first byte that is missing or too many. */

/* A content of n bytes that should have another length. */
static uint8_t wrong_length(peer_box *box, size_t n, size_t length)
{
    if (n < length) {
        box->place = n;
        return WELLACORN_ENDS_EARLY;
    }
    box->place = length;
    return WELLACORN_LEFT_OVER;
}

/* A content of n bytes that ends before its list does. */
static uint8_t list_cut(peer_box *box, size_t n)
{
    box->place = n;
    return WELLACORN_LIST_CUT;
}

/* ---- Messages. Each is given its content of n bytes and writes a reply's content to *end on, which it moves behind it. A frame that comes behind
 * the reply's own is written whole, and counts in the box's `len` already. */

static uint8_t request(peer_box *box, peer_line *line, const uint8_t *content, size_t n, uint8_t **end)
{
    if (n < 3) {
        return wrong_length(box, n, 3);
    }
    /* 01, Answer numbers, 2: a request that has come is judged before the length, and so is an action. */
    unsigned asked = get16(content + 1);
    if (asked > 5 || asked == 3) {
        return WELLACORN_OUT_OF_RANGE;
    }
    /* 02, M-105, 1: what follows the request is an interval, be it cut. */
    if (n != 3 && n != 7) {
        return wrong_length(box, n, 7);
    }
    switch (asked) {
    case 0:
        *end = put_clock(*end, &box->tables);
        break;
    case 1:
        *end = put_monitor(*end, &box->tables);
        if (has_module(&box->tables)) {
            box->len = external_frame(*end, &box->tables);
        }
        break;
    case 2:
        *end = put_usages(*end, &box->tables);
        break;
    case 4:
        line->monitor = false;
        line->due = line->external = false;
        break;
    default:
        line->monitor = true;
        break;
    }
    return WELLACORN_SERVED;
}

static uint8_t set_clock(peer_box *box, const uint8_t *content, size_t n)
{
    if (n != 9) {
        return wrong_length(box, n, 9);
    }
    box->tables.clock = get64(content + 1);
    return WELLACORN_SERVED;
}

enum action {
    CLOSE = 1,
    OPEN = 2,
    TOGGLE = 3,
    CLEAR_COUNT = 5,
    PULSE = 6,
    PULSE_BLOCK = 7,
    CLEAR_INPUT_USAGE = 8,
    CLEAR_RELAY_USAGE = 9,
    BLOCK = 10
};

static bool is_channel(unsigned channel)
{
    return channel >= 1 && channel <= WELLACORN_CHANNELS;
}

/* 02, M-102, 12: a relay whose module is absent is none. */
static bool is_relay(const peer_tables *tables, unsigned channel)
{
    return channel >= 1 && channel <= WELLACORN_RELAYS && (tables->present >> (channel - 1) & 1);
}

/* A pulse of one relay closes it. */
static uint8_t ask_pulse(peer_box *box, peer_pulse *row, const uint8_t *content, size_t n)
{
    peer_queue *queue = &box->queue;

    if (n != 8) {
        return wrong_length(box, n, 8);
    }
    peer_pulse asked = {.mask = content[2], .states = content[3], .duration = get32(content + 4)};
    if (content[1] == PULSE) {
        unsigned channel = get16(content + 2);
        if (!is_relay(&box->tables, channel)) {
            return WELLACORN_OUT_OF_RANGE;
        }
        asked.mask = asked.states = (uint16_t)(1u << (channel - 1));
    }
    if (asked.duration == 0) {
        return WELLACORN_OUT_OF_RANGE;
    }
    if (queue->standing == WELLACORN_PULSES) {
        return WELLACORN_QUEUE_FULL;
    }
    row[(queue->first + queue->standing) % WELLACORN_PULSES] = asked;
    queue->last = asked;
    unsigned changed = queue->standing++ == 0 ? begin_pulse(box, &asked) : 0;
    if (changed) {
        mark_due(box, changed);
    }
    return WELLACORN_SERVED;
}

/* 02, M-102, 2 and 3: only the actions that switch a relay have the second deck's. */
static bool can_act_on(const peer_tables *tables, unsigned channel, unsigned action)
{
    return action <= TOGGLE ? is_relay(tables, channel) : is_channel(channel);
}

/* Says whether the relay really changed. */
static unsigned act_on(peer_tables *tables, unsigned k, unsigned action)
{
    peer_relay *relays = tables->relays;
    switch (action) {
    case CLOSE:
        return put_relay(relays, k, true);
    case OPEN:
        return put_relay(relays, k, false);
    case TOGGLE:
        return put_relay(relays, k, !relays[k].closed);
    case CLEAR_COUNT:
        tables->inputs[k].count = 0;
        return 0;
    case CLEAR_INPUT_USAGE:
        tables->inputs[k].usage = 0;
        return 0;
    default:
        relays[k].usage = 0;
        return 0;
    }
}

static uint8_t command(peer_box *box, peer_pulse *row, const uint8_t *content, size_t n)
{
    if (n < 2) {
        return wrong_length(box, n, 2);
    }
    unsigned action = content[1];
    if (action < CLOSE || action > BLOCK || action == 4) {
        return WELLACORN_OUT_OF_RANGE;
    }
    if (action == PULSE || action == PULSE_BLOCK) {
        return ask_pulse(box, row, content, n);
    }
    if (n != 4) {
        return wrong_length(box, n, 4);
    }
    unsigned changed = 0;
    if (action == BLOCK) {
        changed = change_block(box->tables.relays, content[2], content[3]);
    } else {
        unsigned channel = get16(content + 2);
        if (!can_act_on(&box->tables, channel, action)) {
            return WELLACORN_OUT_OF_RANGE;
        }
        changed = act_on(&box->tables, channel - 1, action);
    }
    if (changed) {
        mark_due(box, changed);
    }
    return WELLACORN_SERVED;
}

enum { LIST = 3 };      /* the place of a list: behind the type and the count */

static uint8_t read_devices(peer_box *box, const uint8_t *content, size_t n, uint8_t **end)
{
    if (n < LIST) {
        return wrong_length(box, n, LIST);
    }
    size_t length = LIST + 8 * (size_t)get16(content + 1);
    if (n != length) {
        return n < length ? list_cut(box, n) : wrong_length(box, n, length);
    }
    uint8_t *p = put8(*end, DEVICES_READ);
    p = put16(p, get16(content + 1));
    for (const uint8_t *id = content + LIST; id < content + n; id += 8) {
        p = put_device(p, &box->tables, get64(id));
    }
    *end = p;
    return WELLACORN_SERVED;
}

/* 01, Messages, 23, 4: a count is cleared before one is written. Says whether the entry was written. */
static bool write_input(peer_input *in, const uint8_t *block, size_t length)
{
    enum { RESET_COUNT = 1, WRITE_COUNT = 2, RESET_USAGE = 4, ALL = 7 };

    if (length != 1 && length != 5) {
        return false;
    }
    unsigned flags = block[0];
    if (flags > ALL || ((flags & WRITE_COUNT) && length != 5)) {
        return false;
    }
    if (flags & RESET_COUNT) {
        in->count = 0;
    }
    if (flags & WRITE_COUNT) {
        in->count = get32(block + 1);
    }
    if (flags & RESET_USAGE) {
        in->usage = 0;
    }
    return true;
}

static bool write_relay(peer_relay *relays, unsigned k, const uint8_t *block, size_t length, unsigned *changed)
{
    enum { STATE = 1, RESET_USAGE = 2, ALL = 3 };

    if (length != 1 && length != 2) {
        return false;
    }
    unsigned flags = block[0];
    if (flags > ALL) {
        return false;
    }
    if (flags & STATE) {
        if (length != 2 || block[1] > 1) {
            return false;
        }
        *changed |= put_relay(relays, k, block[1]);
    }
    if (flags & RESET_USAGE) {
        relays[k].usage = 0;
    }
    return true;
}

enum { ENTRY = 10 };    /* an entry before its block: ID and block length */

/* 01, Messages, 23, 2: judged before anything is written. Answers WELLACORN_SERVED where the entries fit. */
static uint8_t judge_entries(peer_box *box, const uint8_t *content, size_t n)
{
    if (n < LIST) {
        return wrong_length(box, n, LIST);
    }
    size_t at = LIST;
    for (unsigned left = get16(content + 1); left > 0; left--) {
        if (n - at < ENTRY) {
            return list_cut(box, n);
        }
        size_t length = get16(content + at + 8);
        at += ENTRY;
        if (n - at < length) {
            return list_cut(box, n);
        }
        at += length;
    }
    return at == n ? WELLACORN_SERVED : wrong_length(box, n, at);
}

static uint8_t write_devices(peer_box *box, const uint8_t *content, size_t n, uint8_t **end)
{
    uint8_t answer = judge_entries(box, content, n);
    if (answer != WELLACORN_SERVED) {
        return answer;
    }
    /* 01, Events, 8: a change in one entry is not taken back by the next. */
    unsigned changed = 0;
    uint16_t written = 0;
    for (size_t at = LIST; at < n;) {
        int device = device_of(get64(content + at));
        size_t length = get16(content + at + 8);
        const uint8_t *block = content + at + ENTRY;
        if (device == UNKNOWN) {
            /* this entry fails alone */
        } else if (device < WELLACORN_CHANNELS) {
            written += write_input(&box->tables.inputs[device], block, length);
        } else {
            written += write_relay(box->tables.relays, (unsigned)device - WELLACORN_CHANNELS, block, length, &changed);
        }
        at += ENTRY + length;
    }
    if (changed) {
        mark_due(box, changed);
    }
    *end = put8(*end, DEVICES_WRITTEN);
    *end = put16(*end, written);
    return WELLACORN_SERVED;
}

static bool is_there(const peer_tables *tables, unsigned device)
{
    return device < WELLACORN_CHANNELS || (tables->present >> (device - WELLACORN_CHANNELS) & 1);
}

static uint8_t enumerate_devices(peer_box *box, const uint8_t *content, size_t n, uint8_t **end)
{
    enum { INTERNAL = 1, ALL = 3 };

    if (n != 2) {
        return wrong_length(box, n, 2);
    }
    unsigned flags = content[1];
    if (flags < INTERNAL || flags > ALL) {
        return WELLACORN_OUT_OF_RANGE;
    }
    uint8_t *p = put8(*end, DEVICES_ENUMERATED);
    p = put8(p, content[1]);
    uint8_t *count = p, *ids = p + 2;
    p = ids;
    for (unsigned device = 0; flags & INTERNAL && device < DEVICES; device++) {
        if (is_there(&box->tables, device)) {
            p = put64(p, id_of(device));
        }
    }
    put16(count, (uint16_t)((p - ids) / 8));
    *end = p;
    return WELLACORN_SERVED;
}

/* A whole message: type, then rank, then its own rules. */
static uint8_t serve(peer_box *box, peer_line *line, peer_pulse *row, const uint8_t *content, size_t n, uint8_t **end)
{
    unsigned type = n == 0 ? 0 : content[0];
    unsigned needed = 1;

    switch (type) {
    case SET_CLOCK:
        needed = 2;
        break;
    case REQUEST:
    case COMMAND:
    case READ_DEVICES:
    case WRITE_DEVICES:
    case ENUMERATE_DEVICES:
        break;
    default:
        return WELLACORN_NOT_OFFERED;
    }
    if (line->rank < needed) {
        return WELLACORN_LOW_RANK;
    }
    switch (type) {
    case REQUEST:
        return request(box, line, content, n, end);
    case SET_CLOCK:
        return set_clock(box, content, n);
    case COMMAND:
        return command(box, row, content, n);
    case READ_DEVICES:
        return read_devices(box, content, n, end);
    case WRITE_DEVICES:
        return write_devices(box, content, n, end);
    default:
        return enumerate_devices(box, content, n, end);
    }
}

/* A message that has ended. Its content is not there if it is too long. */
static uint8_t judge(peer_box *box, peer_line *line, peer_pulse *row, const uint8_t *content, size_t n, unsigned sum, uint8_t *reply)
{
    if (n > WELLACORN_CONTENT) {
        return WELLACORN_TOO_LONG;
    }
    /* 02, M-103, 3: one comparison, as fast as if there were no strictness. */
    if (sum != line->unchecked && sum != crc16(content, n)) {
        return WELLACORN_BAD_CHECKSUM;
    }
    uint8_t *end = reply + HEADER;
    uint8_t answer = serve(box, line, row, content, n, &end);
    size_t written = (size_t)(end - reply) - HEADER;
    if (written > 0) {
        box->len += seal(reply, written);
    }
    return answer;
}

/* ---- The calls */

void peer_power_up(peer_box *box, const wellacorn_settings *settings)
{
    memset(box, 0, sizeof *box);
    box->tables.present = FIRST_DECK;
    for (int k = 0; k < WELLACORN_CHANNELS; k++) {
        peer_input *in = &box->tables.inputs[k];
        in->setpoint_one = settings->inputs[k].setpoint_one;
        in->setpoint_two = settings->inputs[k].setpoint_two;
        in->usage_setpoint = settings->inputs[k].usage_setpoint;
        in->alarm = settings->inputs[k].alarm;
        box->tables.relays[k].usage_setpoint = settings->relays[k];
    }
}

uint8_t peer_level(peer_box *box, uint8_t k, uint8_t v)
{
    if (k < 1 || k > WELLACORN_CHANNELS || v > 1) {
        return WELLACORN_OUT_OF_RANGE;
    }
    peer_input *in = &box->tables.inputs[k - 1];
    if (in->level != v) {
        in->level = v;
        if (v && in->count < UINT32_MAX) {
            in->count++;
        }
        mark_due(box, FIRST_DECK);
    }
    return WELLACORN_SERVED;
}

static void grow(peer_tables *tables, uint32_t d)
{
    tables->clock = grown(tables->clock, d);
    for (int k = 0; k < WELLACORN_CHANNELS; k++) {
        if (tables->inputs[k].level) {
            tables->inputs[k].usage = grown(tables->inputs[k].usage, d);
        }
        if (tables->relays[k].closed) {
            tables->relays[k].usage = grown(tables->relays[k].usage, d);
        }
    }
}

/* Goes from end to end of the pulses that end within d ms. Gives the ms behind the last of them, in which nothing has grown so far. */
static uint32_t run_pulses(peer_box *box, const peer_pulse *row, uint32_t d)
{
    peer_queue *queue = &box->queue;
    unsigned changed = 0;
    while (queue->standing > 0 && queue->left <= d) {
        d -= queue->left;
        grow(&box->tables, queue->left);
        changed |= end_pulse(box, row);
    }
    if (queue->standing > 0) {
        queue->left -= d;
    }
    if (changed) {
        mark_due(box, changed);
    }
    return d;
}

uint8_t peer_pass(peer_box *box, const peer_pulse *row, size_t records, uint32_t d)
{
    if (records < WELLACORN_PULSES) {
        return WELLACORN_SHORT_BUFFER;
    }
    if (box->queue.standing > 0) {
        d = run_pulses(box, row, d);
    }
    grow(&box->tables, d);
    return WELLACORN_SERVED;
}

/* 02, M-102, 1: the four relays of a module at this place. */
static unsigned module_at(uint8_t place)
{
    return 0x0F00u << 4 * (place - 1);
}

/* 02, M-102, 12. */
static uint8_t judge_place(size_t records, uint8_t place)
{
    if (records < WELLACORN_PULSES) {
        return WELLACORN_SHORT_BUFFER;
    }
    return place >= 1 && place <= WELLACORN_PLACES ? WELLACORN_SERVED : WELLACORN_OUT_OF_RANGE;
}

/* The relays of an empty place are open: an emptying sees to that. */
uint8_t peer_fill(peer_box *box, const peer_pulse *row, size_t records, uint8_t place)
{
    (void)row;
    uint8_t answer = judge_place(records, place);
    if (answer == WELLACORN_SERVED) {
        box->tables.present |= (uint16_t)module_at(place);
    }
    return answer;
}

/* 02, M-102, 4 and 8: what opens with a module is a change, told by the other; without another nothing is due of them any more. */
static void mark_emptied(peer_box *box, unsigned changed)
{
    if (changed) {
        mark_due(box, changed);
    }
    for (int c = 0; c < WELLACORN_CONNECTIONS; c++) {
        box->connections[c].line.external &= has_module(&box->tables);
    }
}

uint8_t peer_empty(peer_box *box, peer_pulse *row, size_t records, uint8_t place)
{
    const peer_queue *queue = &box->queue;
    uint8_t answer = judge_place(records, place);
    if (answer != WELLACORN_SERVED || (box->tables.present & module_at(place)) == 0) {
        return answer;
    }
    unsigned module = module_at(place);
    box->tables.present &= (uint16_t)~module;
    for (unsigned i = 0; i < queue->standing; i++) {
        row[(queue->first + i) % WELLACORN_PULSES].mask &= (uint16_t)~module;
    }
    mark_emptied(box, change_block(box->tables.relays, module, 0));
    return answer;
}

static const peer_half nothing_read;

uint8_t peer_connect(peer_box *box, uint8_t c, uint8_t rank, uint8_t strict)
{
    if (c >= WELLACORN_CONNECTIONS) {
        return WELLACORN_NO_CONNECTION;
    }
    peer_connection *opened = &box->connections[c];
    if (opened->line.is_open) {
        return WELLACORN_ALREADY_OPEN;
    }
    if (rank > 2) {
        return WELLACORN_BAD_RANK;
    }
    opened->line = (peer_line){
        .is_open = true,
        .rank = rank,
        .monitor = true,
        .due = rank > 0,
        .external = rank > 0 && has_module(&box->tables),
        .strict = strict,
        .unchecked = strict != 0 ? NO_CHECKSUM : UNCHECKED,
    };
    opened->half = nothing_read;
    return WELLACORN_SERVED;
}

static bool is_open(const peer_box *box, uint8_t c)
{
    return c < WELLACORN_CONNECTIONS && box->connections[c].line.is_open;
}

uint8_t peer_close(peer_box *box, uint8_t c)
{
    if (!is_open(box, c)) {
        return WELLACORN_NO_CONNECTION;
    }
    box->connections[c].line = (peer_line){.is_open = false};
    box->connections[c].half = nothing_read;
    return WELLACORN_SERVED;
}

uint8_t peer_collect(peer_box *box, uint8_t c, uint8_t *reply, size_t reply_len)
{
    box->taken = 0;
    box->len = 0;
    box->place = 0;
    if (!is_open(box, c)) {
        return WELLACORN_NO_CONNECTION;
    }
    if (reply_len < WELLACORN_REPLY) {
        return WELLACORN_SHORT_BUFFER;
    }
    peer_line *line = &box->connections[c].line;
    if (!line->due && !line->external) {
        return WELLACORN_WAITING;
    }
    if (line->due) {
        box->len = monitor_frame(reply, &box->tables);
    }
    if (line->external) {
        box->len += external_frame(reply + box->len, &box->tables);
    }
    line->due = line->external = false;
    return WELLACORN_SERVED;
}

static void read_header(peer_half *half, uint8_t byte)
{
    switch (half->got++) {
    case 0:
        break;
    case 1:
        half->len = (uint16_t)(byte << 8);
        break;
    case 2:
        half->len |= byte;
        break;
    case 3:
        half->sum = (uint16_t)(byte << 8);
        break;
    default:
        half->sum |= byte;
        break;
    }
}

uint8_t peer_bytes(peer_box *box, peer_pulse *row, size_t records, uint8_t c, const uint8_t *piece, size_t piece_len, uint8_t *reply,
                   size_t reply_len)
{
    box->taken = 0;
    box->len = 0;
    box->place = 0;
    if (!is_open(box, c)) {
        return WELLACORN_NO_CONNECTION;
    }
    if (reply_len < WELLACORN_REPLY || records < WELLACORN_PULSES) {
        return WELLACORN_SHORT_BUFFER;
    }
    if (piece_len == 0) {
        return WELLACORN_WAITING;
    }
    peer_connection *from = &box->connections[c];
    peer_half *half = &from->half;

    if (half->got == 0) {
        if (piece[0] != START) {
            box->taken = 1;
            return piece[0] == ACK ? WELLACORN_KEEP_ALIVE : WELLACORN_STRAY;
        }
        /* A message that lies whole in the piece is served from there. */
        if (piece_len >= HEADER && piece_len - HEADER >= get16(piece + 1)) {
            size_t n = get16(piece + 1);
            box->taken = HEADER + n;
            return judge(box, &from->line, row, piece + HEADER, n, get16(piece + 3), reply);
        }
    }

    size_t at = 0;
    while (half->got < HEADER) {
        if (at == piece_len) {
            box->taken = at;
            return WELLACORN_WAITING;
        }
        read_header(half, piece[at++]);
    }
    size_t missing = HEADER + half->len - half->got;
    size_t here = piece_len - at < missing ? piece_len - at : missing;
    if (half->len <= WELLACORN_CONTENT) {
        memcpy(from->room + (half->got - HEADER), piece + at, here);
    }
    half->got += (uint32_t)here;
    box->taken = at + here;
    if (here < missing) {
        return WELLACORN_WAITING;
    }
    peer_half ended = *half;
    *half = nothing_read;
    return judge(box, &from->line, row, from->room, ended.len, ended.sum, reply);
}
