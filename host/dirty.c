/* Calls each function of the library with dirt above its small arguments, beside the same call without: nothing may differ.
 *
 * What stands in a register or on the stack above an argument that does not fill it, the calling conventions leave open, so that the library must not
 * look at it. A compiler mostly leaves zeros there. So each function is called here through a type all of whose numbers have 64 bits, which C
 * does not allow and both machines do. Small arguments are a byte, or the four of a duration.
 *
 *     dirty [CALLS]    prints a line for each function: how often it was called, and how often something differed. Fails if anything did.
 *
 * That a library which looks there is found out is tried too (tests/test_archive.py). */
#include "wellacorn.h"

#include <inttypes.h>
#include <stdio.h>
#include <stdlib.h>
#include <string.h>

typedef wellacorn_done wide_level(wellacorn_board *, uint64_t k, uint64_t v);
typedef wellacorn_done wide_pass(wellacorn_board *, const wellacorn_pulse *, uint64_t records, uint64_t d);
typedef wellacorn_done wide_fill(wellacorn_board *, const wellacorn_pulse *, uint64_t records, uint64_t place);
typedef wellacorn_done wide_empty(wellacorn_board *, wellacorn_pulse *, uint64_t records, uint64_t place);
typedef wellacorn_done wide_connect(wellacorn_board *, wellacorn_half *, uint64_t c, uint64_t rank, uint64_t strict);
typedef wellacorn_done wide_close(wellacorn_board *, wellacorn_half *, uint64_t c);
typedef wellacorn_done wide_bytes(wellacorn_board *, wellacorn_half *, uint8_t *, wellacorn_pulse *, uint64_t records, uint64_t c, const uint8_t *,
                                  uint64_t piece_len, uint8_t *, uint64_t reply_len);
typedef wellacorn_done wide_collect(wellacorn_board *, uint64_t c, uint8_t *, uint64_t reply_len);

/* The function by another type. It is read anew for each call, so that the compiler cannot see which one it is. */
#define WIDE(type, function) (*(type *const volatile *)&(type *){(type *)(void (*)(void))(function)})

/* Both boxes, and the arguments of a call on them. */
typedef struct {
    wellacorn_box box;
    uint8_t reply[WELLACORN_REPLY];
} side;

static side clean, dirty;
static uint8_t piece[64];
static size_t piece_len;

/* ---- Random numbers */

static uint64_t seed = 88172645463325252u;

static uint64_t any(void)
{
    seed ^= seed << 13;
    seed ^= seed >> 7;
    seed ^= seed << 17;
    return seed;
}

static uint8_t below(unsigned n)
{
    return (uint8_t)(any() % n);
}

/* A byte below n mostly, so that calls are served, and now and then any. */
static uint8_t mostly_below(unsigned n)
{
    return any() % 16 == 0 ? (uint8_t)any() : below(n);
}

/* The length of the row: as many records as are needed mostly. */
static uint64_t records(void)
{
    return any() % 16 == 0 ? WELLACORN_PULSES - 1 : WELLACORN_PULSES;
}

/* A small argument with dirt above it. */
static uint64_t dirty_byte(uint8_t x)
{
    return any() << 8 | x;
}

static uint64_t dirty_four(uint32_t x)
{
    return any() << 32 | x;
}

/* ---- The calls. Each does the same on both sides, and gives what both came to. */

typedef struct {
    wellacorn_done clean, dirty;
} both;

static both call_level(void)
{
    uint8_t k = mostly_below(9), v = mostly_below(3);
    return (both){wellacorn_level(&clean.box.board, k, v), WIDE(wide_level, wellacorn_level)(&dirty.box.board, dirty_byte(k), dirty_byte(v))};
}

static both call_pass(void)
{
    uint32_t d = any() % 64 == 0 ? (uint32_t)any() : below(100);
    uint64_t n = records();
    return (both){wellacorn_pass(&clean.box.board, clean.box.row, n, d),
                  WIDE(wide_pass, wellacorn_pass)(&dirty.box.board, dirty.box.row, n, dirty_four(d))};
}

static both call_fill(void)
{
    uint8_t place = mostly_below(4);
    uint64_t n = records();
    return (both){wellacorn_fill(&clean.box.board, clean.box.row, n, place),
                  WIDE(wide_fill, wellacorn_fill)(&dirty.box.board, dirty.box.row, n, dirty_byte(place))};
}

static both call_empty(void)
{
    uint8_t place = mostly_below(4);
    uint64_t n = records();
    return (both){wellacorn_empty(&clean.box.board, clean.box.row, n, place),
                  WIDE(wide_empty, wellacorn_empty)(&dirty.box.board, dirty.box.row, n, dirty_byte(place))};
}

static both call_connect(void)
{
    uint8_t c = mostly_below(5), rank = mostly_below(4), strict = mostly_below(2);
    return (both){wellacorn_connect(&clean.box.board, clean.box.halves, c, rank, strict),
                  WIDE(wide_connect, wellacorn_connect)(&dirty.box.board, dirty.box.halves, dirty_byte(c), dirty_byte(rank), dirty_byte(strict))};
}

static both call_close(void)
{
    uint8_t c = mostly_below(5);
    return (both){wellacorn_close(&clean.box.board, clean.box.halves, c),
                  WIDE(wide_close, wellacorn_close)(&dirty.box.board, dirty.box.halves, dirty_byte(c))};
}

static both call_collect(void)
{
    uint8_t c = mostly_below(5);
    return (both){wellacorn_collect(&clean.box.board, c, clean.reply, WELLACORN_REPLY),
                  WIDE(wide_collect, wellacorn_collect)(&dirty.box.board, dirty_byte(c), dirty.reply, WELLACORN_REPLY)};
}

/* A request, a command, a pulse, ReadDevices of one ID or nonsense; mostly whole. */
static void choose_piece(void)
{
    static const struct {
        size_t n;
        uint8_t content[11];
    } messages[] = {
        {3, {5, 0, 2}}, {3, {5, 0, 4}}, {4, {10, 3, 0, 2}}, {4, {10, 5, 0, 2}}, {8, {10, 6, 0, 3, 0, 0, 0, 9}}, {11, {21, 0, 1, 0, 0, 0, 0, 0, 1, 2, 0xFF}},
    };
    size_t chosen = below(sizeof messages / sizeof messages[0]), n = messages[chosen].n;
    uint8_t *content = piece + 5;
    memcpy(content, messages[chosen].content, sizeof messages[chosen].content);
    if (any() % 4 == 0) {
        content[below((unsigned)n)] = (uint8_t)any();
    }
    wellacorn_frame(piece, content, n);
    piece_len = any() % 4 == 0 ? below(5 + (unsigned)n + 1) : 5 + n;
}

static both call_bytes(void)
{
    uint8_t c = mostly_below(5);
    uint64_t n = records();
    wellacorn_box *a = &clean.box, *b = &dirty.box;
    choose_piece();
    return (both){wellacorn_bytes(&a->board, a->halves, a->rooms, a->row, n, c, piece, piece_len, clean.reply, WELLACORN_REPLY),
                  WIDE(wide_bytes, wellacorn_bytes)(&b->board, b->halves, b->rooms, b->row, n, dirty_byte(c), piece, piece_len, dirty.reply,
                                                    WELLACORN_REPLY)};
}

/* ---- Comparing */

static bool differ(const both *came)
{
    const wellacorn_done *a = &came->clean, *b = &came->dirty;
    return a->answer != b->answer || a->taken != b->taken || a->len != b->len || a->place != b->place || memcmp(&clean, &dirty, sizeof clean) != 0;
}

/* The functions, how often each is called for one call of the rarest, and what came of it. */
static struct {
    const char *name;
    both (*call)(void);
    unsigned weight;
    unsigned long calls, served, different;
} functions[] = {
    {"level", call_level, 4, 0, 0, 0},     {"pass", call_pass, 4, 0, 0, 0},   {"fill", call_fill, 1, 0, 0, 0},       {"empty", call_empty, 1, 0, 0, 0},
    {"connect", call_connect, 3, 0, 0, 0}, {"close", call_close, 1, 0, 0, 0}, {"collect", call_collect, 3, 0, 0, 0}, {"bytes", call_bytes, 15, 0, 0, 0},
};

enum { FUNCTIONS = sizeof functions / sizeof functions[0] };

static size_t choose_function(void)
{
    unsigned all = 0;
    for (size_t i = 0; i < FUNCTIONS; i++) {
        all += functions[i].weight;
    }
    unsigned at = below(all);
    size_t i = 0;
    for (; at >= functions[i].weight; i++) {
        at -= functions[i].weight;
    }
    return i;
}

/* One call on both sides, which are the same after it, so that the next is judged alone. */
static void call(void)
{
    size_t i = choose_function();
    both came = functions[i].call();
    functions[i].calls++;
    functions[i].served += came.clean.answer == WELLACORN_SERVED;
    if (differ(&came)) {
        functions[i].different++;
        dirty = clean;
    }
}

int main(int argc, char **argv)
{
    unsigned long calls = argc > 1 ? strtoul(argv[1], NULL, 10) : 1000000;
    bool failed = false;
    wellacorn_settings settings = {.inputs = {{.setpoint_one = 3, .alarm = true}}};
    wellacorn_box_power_up(&clean.box, settings);
    dirty = clean;
    for (; calls > 0; calls--) {
        call();
    }
    for (size_t i = 0; i < FUNCTIONS; i++) {
        printf("dirty: %-8s %8lu calls, %8lu served, %8lu differ\n", functions[i].name, functions[i].calls, functions[i].served, functions[i].different);
        failed = failed || functions[i].different > 0 || functions[i].served == 0 || functions[i].served == functions[i].calls;
    }
    return failed ? EXIT_FAILURE : EXIT_SUCCESS;
}
