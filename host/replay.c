/* The replay tool: reads lines from standard input until the end and prints exactly one line for each. docs/REPLAY.md says which. */
#define _POSIX_C_SOURCE 200809L

#include "engine.h"

#include <errno.h>
#include <stdio.h>
#include <stdlib.h>
#include <string.h>
#include <unistd.h>

enum {
    DIGITS = 200000,                            /* hexadecimal digits of a piece at most */
    CAP = 65536,                                /* the longest reply buffer that can be asked for */
    GUARD = WELLACORN_REPLY,                    /* bytes behind the reply buffer that are watched too: a whole reply's */
    FILL = 0xA5,                                /* what the reply buffer holds before a call */
    RECORDS = 64,                               /* the longest row of pulses that can be asked for; so many records are kept and watched */
    DECIMALS = 20,                              /* decimal digits of a number at most, leading zeros included */
    WORDS = 41,                                 /* words of a line at most: `power` and 40 numbers */
    LONGEST = 6 + 3 * (DECIMALS + 1) + DIGITS,  /* the longest line that is not `?`: `bytes`, two numbers, a piece, a number */
    IN = 1 << 18,
    OUT = 1 << 18,
    PRINTED = 2 * CAP + 1024                    /* more than the longest line that is printed */
};

static_assert(LONGEST < IN, "a line that is not `?` and its end fit the input buffer");
static_assert(PRINTED < OUT, "a printed line fits the output buffer");

/* ---- Output: collected, and written when the buffer is full or input has to be waited for */

static char out[OUT];
static size_t out_len;

static void fail(const char *what)
{
    fprintf(stderr, "replay: %s: %s\n", what, strerror(errno));
    exit(EXIT_FAILURE);
}

static void flush_out(void)
{
    for (size_t at = 0; at < out_len;) {
        ssize_t n = write(STDOUT_FILENO, out + at, out_len - at);
        if (n >= 0) {
            at += (size_t)n;
        } else if (errno != EINTR) {
            fail("standard output");
        }
    }
    out_len = 0;
}

static void print_char(char ch)
{
    out[out_len++] = ch;
}

static void print_text(const char *text)
{
    size_t n = strlen(text);
    memcpy(out + out_len, text, n);
    out_len += n;
}

static void print_number(uint64_t x)
{
    char digits[DECIMALS];
    size_t at = sizeof digits;
    do {
        digits[--at] = (char)('0' + x % 10);
        x /= 10;
    } while (x > 0);
    memcpy(out + out_len, digits + at, sizeof digits - at);
    out_len += sizeof digits - at;
}

/* Upper case, `-` for none. */
static void print_hex(const uint8_t *p, size_t n)
{
    static const char digits[] = "0123456789ABCDEF";
    if (n == 0) {
        print_char('-');
    }
    for (size_t i = 0; i < n; i++) {
        print_char(digits[p[i] >> 4]);
        print_char(digits[p[i] & 0xF]);
    }
}

/* ---- Words of a line. They are not ended by a zero: a line may hold any byte. */

typedef struct {
    const char *text;
    size_t len;
} word;

/* Words are separated by exactly one space: of two spaces the word between is empty, and no line has an empty word.
 * Gives their number, or 0 if there are more than a line can have. */
static size_t split(word line, word words[WORDS])
{
    size_t n = 0;
    for (;;) {
        if (n == WORDS) {
            return 0;
        }
        const char *space = memchr(line.text, ' ', line.len);
        words[n].text = line.text;
        words[n].len = space == NULL ? line.len : (size_t)(space - line.text);
        n++;
        if (space == NULL) {
            return n;
        }
        line.text += words[n - 1].len + 1;
        line.len -= words[n - 1].len + 1;
    }
}

static bool is(word w, const char *name)
{
    return w.len == strlen(name) && memcmp(w.text, name, w.len) == 0;
}

/* A decimal and unsigned number, 0 to top. */
static bool number(word w, uint64_t top, uint64_t *value)
{
    if (w.len == 0 || w.len > DECIMALS) {
        return false;
    }
    uint64_t x = 0;
    for (size_t i = 0; i < w.len; i++) {
        if (w.text[i] < '0' || w.text[i] > '9') {
            return false;
        }
        unsigned digit = (unsigned)(w.text[i] - '0');
        if (x > (UINT64_MAX - digit) / 10) {
            return false;
        }
        x = 10 * x + digit;
    }
    *value = x;
    return x <= top;
}

static bool byte(word w, uint8_t *value)
{
    uint64_t x = 0;
    bool good = number(w, UINT8_MAX, &x);
    *value = (uint8_t)x;
    return good;
}

static bool four_bytes(word w, uint32_t *value)
{
    uint64_t x = 0;
    bool good = number(w, UINT32_MAX, &x);
    *value = (uint32_t)x;
    return good;
}

static bool one_bit(word w, bool *value)
{
    uint64_t x = 0;
    bool good = number(w, 1, &x);
    *value = x != 0;
    return good;
}

static bool capacity(word w, size_t *value)
{
    uint64_t x = 0;
    bool good = number(w, CAP, &x);
    *value = (size_t)x;
    return good;
}

/* The length of the row of pulses: the last of n words, which has the place `at`. A line that ends before it lends as many as are needed. */
static bool row_length(const word *words, size_t n, size_t at, size_t *value)
{
    uint64_t x = WELLACORN_PULSES;
    bool good = n == at || (n == at + 1 && number(words[at], RECORDS, &x));
    *value = (size_t)x;
    return good;
}

/* The value of an upper-case hexadecimal digit, 16 for any other character. */
static unsigned hex_digit(char ch)
{
    if (ch >= '0' && ch <= '9') {
        return (unsigned)(ch - '0');
    }
    if (ch >= 'A' && ch <= 'F') {
        return (unsigned)(ch - 'A' + 10);
    }
    return 16;
}

static uint8_t piece[DIGITS / 2];
static size_t piece_len;

static bool read_piece(word w)
{
    piece_len = 0;
    if (is(w, "-")) {
        return true;
    }
    if (w.len == 0 || w.len > DIGITS || w.len % 2 != 0) {
        return false;
    }
    for (size_t i = 0; i < w.len; i += 2) {
        unsigned upper = hex_digit(w.text[i]);
        unsigned lower = hex_digit(w.text[i + 1]);
        if (upper > 15 || lower > 15) {
            return false;
        }
        piece[piece_len++] = (uint8_t)(upper << 4 | lower);
    }
    return true;
}

/* ---- The box, and the lines it obeys. Each says whether it was a good line; a bad one does and prints nothing. */

static engine box;
static uint8_t reply[CAP + GUARD];

static const wellacorn_settings all_zero;

static bool power(const word *words, size_t n)
{
    wellacorn_settings s = all_zero;
    if (n != 0 && n != 5 * WELLACORN_CHANNELS) {
        return false;
    }
    if (n != 0) {
        for (int k = 0; k < WELLACORN_CHANNELS; k++, words += 4) {
            wellacorn_input_settings *in = &s.inputs[k];
            if (!four_bytes(words[0], &in->setpoint_one) || !four_bytes(words[1], &in->setpoint_two) ||
                !number(words[2], UINT64_MAX, &in->usage_setpoint) || !one_bit(words[3], &in->alarm)) {
                return false;
            }
        }
        for (int k = 0; k < WELLACORN_CHANNELS; k++, words++) {
            if (!number(words[0], UINT64_MAX, &s.relays[k])) {
                return false;
            }
        }
    }
    engine_power_up(&box, &s);
    print_number(WELLACORN_SERVED);
    return true;
}

/* A line that ends before it says whether the connection is strict opens one that is not. */
static bool connect_line(const word *words, size_t n)
{
    uint8_t c, rank, strict = 0;
    if (n < 2 || n > 3 || !byte(words[0], &c) || !byte(words[1], &rank) || (n == 3 && !byte(words[2], &strict))) {
        return false;
    }
    engine_connect(&box, c, rank, strict);
    print_number(box.answer);
    return true;
}

static bool close_line(const word *words, size_t n)
{
    uint8_t c;
    if (n != 1 || !byte(words[0], &c)) {
        return false;
    }
    engine_close(&box, c);
    print_number(box.answer);
    return true;
}

static bool level(const word *words, size_t n)
{
    uint8_t k, v;
    if (n != 2 || !byte(words[0], &k) || !byte(words[1], &v)) {
        return false;
    }
    engine_level(&box, k, v);
    print_number(box.answer);
    return true;
}

/* The row of pulses: one that all calls share, and one for the calls that are lent too short a row. Both are watched in all their records,
 * those too that are not lent. */
static engine_pulse shared[RECORDS], too_short[RECORDS];

/* What the call must leave: both rows and the queue before it. */
static engine_pulse shared_before[RECORDS], too_short_before[RECORDS];
static wellacorn_queue queue_before;

static engine_pulse *row_of(size_t records)
{
    return records < WELLACORN_PULSES ? too_short : shared;
}

/* The row that is lent for a call. */
static engine_pulse *lend_row(size_t records)
{
    memset(too_short, FILL, sizeof too_short);
    memcpy(shared_before, shared, sizeof shared);
    memcpy(too_short_before, too_short, sizeof too_short);
    queue_before = engine_queue(&box);
    watch_lend(row_of(records), records * sizeof(engine_pulse), sizeof shared);
    return row_of(records);
}

static void take_row_back(size_t records)
{
    watch_take_back(row_of(records), records * sizeof(engine_pulse), sizeof shared);
}

static bool rows_differ(void)
{
    return memcmp(shared, shared_before, sizeof shared) != 0 || memcmp(too_short, too_short_before, sizeof too_short) != 0;
}

/* Whether a record changed that the call must leave: every one, but where a pulse was accepted the one that holds it. */
static bool row_spoilt(void)
{
    if (engine_queue(&box).standing == queue_before.standing + 1) {
        uint64_t place = (queue_before.first + queue_before.standing) % WELLACORN_PULSES;
        shared_before[place] = shared[place];
    }
    return rows_differ();
}

/* The same of an emptying that takes the module at a place out: of each pulse that stood the mask has lost the module's four relays, and nothing
 * else has changed. A number that no queue has is read as 31. */
static bool row_spoilt_without(uint8_t place)
{
    const uint16_t others = (uint16_t)~(0x0F00u << 4 * (place - 1));
    for (size_t i = 0; i < queue_before.standing && i < WELLACORN_PULSES; i++) {
        shared_before[(queue_before.first + i) % WELLACORN_PULSES].mask &= others;
    }
    return rows_differ();
}

static bool pass(const word *words, size_t n)
{
    uint32_t d;
    size_t records;
    if (n < 1 || !four_bytes(words[0], &d) || !row_length(words, n, 1, &records)) {
        return false;
    }
    engine_pass(&box, lend_row(records), records, d);
    take_row_back(records);
    print_number(box.answer);
    if (row_spoilt()) {
        print_text(" spoilt");
    }
    return true;
}

/* A place, and the length of the row. */
static bool place_line(const word *words, size_t n, uint8_t *place, size_t *records)
{
    return n >= 1 && byte(words[0], place) && row_length(words, n, 1, records);
}

static bool fill(const word *words, size_t n)
{
    uint8_t place;
    size_t records;
    if (!place_line(words, n, &place, &records)) {
        return false;
    }
    engine_fill(&box, lend_row(records), records, place);
    take_row_back(records);
    print_number(box.answer);
    if (rows_differ()) {
        print_text(" spoilt");
    }
    return true;
}

static bool is_filled(uint8_t place)
{
    return place >= 1 && place <= WELLACORN_PLACES && engine_board(&box).places[place - 1].filled != 0;
}

static bool empty(const word *words, size_t n)
{
    uint8_t place;
    size_t records;
    if (!place_line(words, n, &place, &records)) {
        return false;
    }
    bool takes_out = records >= WELLACORN_PULSES && is_filled(place);
    engine_empty(&box, lend_row(records), records, place);
    take_row_back(records);
    print_number(box.answer);
    if (takes_out ? row_spoilt_without(place) : rows_differ()) {
        print_text(" spoilt");
    }
    return true;
}

/* The reply buffer of `cap` bytes before a call, and as many behind it as are watched. */
static void lend_reply(size_t cap)
{
    memset(reply, FILL, cap + GUARD);
    watch_unwritten(reply, cap);
    watch_lend(reply, cap, sizeof reply);
}

/* What is in the reply buffer after a call. A length beyond the buffer is no reply's. */
static size_t take_reply_back(size_t cap)
{
    size_t len = box.len <= cap ? (size_t)box.len : cap;
    watch_take_back(reply, len, sizeof reply);
    return len;
}

/* Reply length, reply, and whether a byte outside the reply has changed, or something else is `spoilt`. A length beyond the buffer is no
 * reply's, so it is spoilt too. */
static void print_reply(size_t cap, bool spoilt)
{
    size_t shown = take_reply_back(cap);
    uint8_t changed = 0;        /* bits, not a bool: this is the tool's longest loop, and compilers make wide steps of it so */
    for (size_t i = shown; i < cap + GUARD; i++) {
        changed |= reply[i] ^ FILL;
    }
    print_char(' ');
    print_number(box.len);
    print_char(' ');
    print_hex(reply, shown);
    if (spoilt || changed != 0 || box.len > cap) {
        print_text(" spoilt");
    }
}

static bool collect(const word *words, size_t n)
{
    uint8_t c;
    size_t cap;
    if (n != 2 || !byte(words[0], &c) || !capacity(words[1], &cap)) {
        return false;
    }
    lend_reply(cap);
    engine_collect(&box, c, reply, cap);
    print_number(box.answer);
    print_reply(cap, false);
    return true;
}

static bool bytes(const word *words, size_t n)
{
    uint8_t c;
    size_t cap, records;
    if (n < 3 || !byte(words[0], &c) || !capacity(words[1], &cap) || !read_piece(words[2]) || !row_length(words, n, 3, &records)) {
        return false;
    }
    lend_reply(cap);
    watch_lend(piece, piece_len, sizeof piece);
    engine_bytes(&box, lend_row(records), records, c, piece, piece_len, reply, cap);
    watch_take_back(piece, piece_len, sizeof piece);
    take_row_back(records);
    print_number(box.answer);
    print_char(' ');
    print_number(box.taken);
    print_char(' ');
    print_number(box.place);
    print_reply(cap, row_spoilt());
    return true;
}

/* Numbers with a comma between and a space before. */
static void print_numbers(const uint64_t *numbers, size_t n)
{
    for (size_t i = 0; i < n; i++) {
        print_char(i == 0 ? ' ' : ',');
        print_number(numbers[i]);
    }
}

/* The pulses that stand, the running one first; then the relays that it will give back. A number that no queue has is shown, its records
 * once at most. */
static void print_queue(const wellacorn_queue *q)
{
    uint16_t running = 0;
    print_text(" P ");
    print_number(q->standing);
    for (size_t i = 0; i < q->standing && i < WELLACORN_PULSES; i++) {
        wellacorn_pulse pulse = engine_pulse_in(&shared[(q->first + i) % WELLACORN_PULSES]);
        running = i == 0 ? pulse.mask : running;
        print_numbers((const uint64_t[]){pulse.mask, pulse.states & pulse.mask, i == 0 ? q->left : pulse.duration}, 3);
    }
    if (q->standing > 0) {
        print_text(" was ");
        print_number(q->remembered & running);
    }
}

static bool state(const word *words, size_t n)
{
    (void)words;
    if (n != 0) {
        return false;
    }
    wellacorn_board b = engine_board(&box);
    print_text("C ");
    print_number(b.clock.time);
    print_text(" I");
    for (int k = 0; k < WELLACORN_CHANNELS; k++) {
        const wellacorn_input *in = &b.inputs[k];
        print_numbers((const uint64_t[]){in->level, in->count, in->usage}, 3);
    }
    print_text(" R");
    for (int k = 0; k < WELLACORN_RELAYS; k++) {
        const wellacorn_relay *relay = &b.relays[k];
        print_numbers((const uint64_t[]){relay->closed, relay->usage}, 2);
    }
    print_text(" N");
    for (int c = 0; c < WELLACORN_CONNECTIONS; c++) {
        const wellacorn_line *line = &b.lines[c];
        const uint64_t got = engine_half(&box, c).got;
        print_numbers((const uint64_t[]){line->is_open, line->rank, line->monitor, line->due, got, line->external, line->strict != 0}, 7);
    }
    print_queue(&b.queue);
    return true;
}

static bool obey(word line)
{
    static const struct {
        const char *name;
        bool (*obey)(const word *words, size_t n);
    } lines[] = {
        {"bytes", bytes}, {"collect", collect}, {"level", level},       {"pass", pass},        {"fill", fill},
        {"empty", empty}, {"state", state},     {"open", connect_line}, {"close", close_line}, {"power", power},
    };

    word words[WORDS];
    size_t n = split(line, words);
    for (size_t i = 0; n > 0 && i < sizeof lines / sizeof lines[0]; i++) {
        if (is(words[0], lines[i].name)) {
            return lines[i].obey(words + 1, n - 1);
        }
    }
    return false;
}

static void answer(word line)
{
    if (OUT - out_len < PRINTED) {
        flush_out();
    }
    if (!obey(line)) {
        print_char('?');
    }
    print_char('\n');
}

/* ---- Input. A line that does not fit the buffer is longer than any that is obeyed: its bytes are dropped, and it is answered once. */

static char in[IN];

static size_t read_more(size_t held)
{
    flush_out();    /* who waits for an answer before the next line gets it */
    for (;;) {
        ssize_t n = read(STDIN_FILENO, in + held, IN - held);
        if (n >= 0) {
            return (size_t)n;
        }
        if (errno != EINTR) {
            fail("standard input");
        }
    }
}

/* Reads to the end of the input, and answers each line. */
static void answer_all(void)
{
    const word too_long = {"", 0};
    size_t held = 0;            /* bytes in the buffer: the beginning of a line */
    bool dropped = false;       /* an earlier part of this line was dropped */

    for (size_t n; (n = read_more(held)) > 0;) {
        size_t from = 0, scan = held;
        held += n;
        for (char *end; (end = memchr(in + scan, '\n', held - scan)) != NULL;) {
            size_t to = (size_t)(end - in);
            answer(dropped ? too_long : (word){in + from, to - from});
            dropped = false;
            from = scan = to + 1;
        }
        held -= from;
        memmove(in, in + from, held);
        if (held == IN) {
            dropped = true;
            held = 0;
        }
    }
    if (held > 0 || dropped) {
        answer(dropped ? too_long : (word){in, held});
    }
    flush_out();
}

int main(int argc, char **argv)
{
    if (argc == 2 && strcmp(argv[1], "--version") == 0) {
        return puts("replay " WELLACORN_VERSION) < 0 ? EXIT_FAILURE : EXIT_SUCCESS;
    }
    memset(shared, FILL, sizeof shared);    /* it need not be cleared */
    engine_power_up(&box, &all_zero);
    answer_all();
    return EXIT_SUCCESS;
}
