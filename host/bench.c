/* The benchmark: the library against the plain C peer, the same calls on both in one run.
 *
 *     bench [--rounds N]
 *
 * First each workload is done by both, and the two must agree in every sum, in the reply and in all that the box holds; so must they on frames
 * of wrong lengths, which are not measured. Then each workload is measured in rounds; in each both come once, and the one that comes first
 * changes. A figure is the median of its rounds, in processor time, so that what else the machine does weighs little. Both boxes change what they
 * hold in place.
 *
 * host/bench runs it too, also with rows added to the board, and measures the host that answers on the network.
 */
#define _POSIX_C_SOURCE 200809L

#include "wellacorn.h"
#include "workloads.h"

#include <stdio.h>
#include <stdlib.h>
#include <string.h>
#include <time.h>

enum { ROUNDS = 101, MOST_ROUNDS = 100000, STREAM = 65536, HEADER = 5 };

/* A round of one side lasts at least so long, so that the clock's own time is not seen. */
static const double LEAST = 500e-6;

/* ---- Messages */

static void put(uint8_t *p, int size, uint64_t x)
{
    for (int i = size - 1; i >= 0; i--, x >>= 8) {
        p[i] = (uint8_t)x;
    }
}

/* The header before n content bytes that stand behind its place. Gives the frame's length. */
static size_t seal(uint8_t *frame, size_t n)
{
    return (size_t)wellacorn_frame(frame, frame + HEADER, n);
}

/* The same numbers in every run. */
static unsigned random_below(unsigned top)
{
    static uint64_t x = 0x9E3779B97F4A7C15u;
    x ^= x << 13;
    x ^= x >> 7;
    x ^= x << 17;
    return (unsigned)(x >> 33) % top;
}

/* Device 0 to 7 an input, 8 to 15 a relay, 16 a relay of the second deck, which is read and written as an unknown one is. No module is there. */
static uint64_t id_of(unsigned device)
{
    return device < 8 ? 0x01FFu + 0x100u * device : 0x0101FFu + 0x100u * (device - 8);
}

static size_t request(uint8_t *content, unsigned asked)
{
    content[0] = 5;
    put(content + 1, 2, asked);
    return 3;
}

static size_t set_clock(uint8_t *content)
{
    content[0] = 7;
    put(content + 1, 8, 1700000000000u + random_below(1000000));
    return 9;
}

static size_t command(uint8_t *content, unsigned action, unsigned parameter)
{
    content[0] = 10;
    content[1] = (uint8_t)action;
    put(content + 2, 2, parameter);
    return 4;
}

/* A pulse of one relay where the mask is 0, else of a block. */
static size_t pulse(uint8_t *content, unsigned channel, unsigned mask, unsigned states, unsigned ms)
{
    content[0] = 10;
    content[1] = mask == 0 ? 6 : 7;
    put(content + 2, 2, mask == 0 ? channel : mask << 8 | states);
    put(content + 4, 4, ms);
    return 8;
}

static size_t read_devices(uint8_t *content, unsigned n, unsigned devices)
{
    content[0] = 21;
    put(content + 1, 2, n);
    for (unsigned i = 0; i < n; i++) {
        put(content + 3 + 8 * i, 8, id_of(random_below(devices)));
    }
    return 3 + 8 * (size_t)n;
}

static size_t write_devices(uint8_t *content, unsigned n)
{
    uint8_t *p = content + 3;
    content[0] = 23;
    put(content + 1, 2, n);
    for (unsigned i = 0; i < n; i++) {
        unsigned device = random_below(17);
        unsigned length = device < 8 ? 5 : 2;
        put(p, 8, id_of(device));
        put(p + 8, 2, length);
        p[10] = device < 8 ? 2 : 1;
        put(p + 11, (int)length - 1, device < 8 ? random_below(2000) : random_below(2));
        p += 10 + length;
    }
    return (size_t)(p - content);
}

static size_t enumerate_devices(uint8_t *content)
{
    content[0] = 26;
    content[1] = (uint8_t)(1 + random_below(3));
    return 2;
}

static size_t any_content(uint8_t *content)
{
    static const uint8_t actions[] = {1, 2, 3, 3, 5, 8, 9};
    switch (random_below(10)) {
    case 0:
        return request(content, 0);
    case 1:
        return request(content, 1);
    case 2:
        return request(content, 2);
    case 3:
        return set_clock(content);
    case 4:
    case 5:
        return command(content, actions[random_below(sizeof actions)], 1 + random_below(8));
    case 6:
        return command(content, 10, random_below(65536));
    case 7:
        return read_devices(content, 1 + random_below(24), 17);
    case 8:
        return write_devices(content, 1 + random_below(8));
    default:
        return enumerate_devices(content);
    }
}

/* Frames of every type one behind the other, a keep-alive among them at times, one in fifty with a wrong checksum. Filled up with
 * keep-alives. */
static void make_stream(uint8_t stream[STREAM])
{
    size_t at = 0;
    memset(stream, 0x06, STREAM);
    for (;;) {
        uint8_t frame[HEADER + WELLACORN_CONTENT];
        size_t n = seal(frame, any_content(frame + HEADER));
        if (random_below(50) == 0) {
            frame[4] ^= 1;
        }
        if (n > STREAM - at) {
            return;
        }
        memcpy(stream + at, frame, n);
        at += n + (random_below(20) == 0 && at + n < STREAM);
    }
}

/* A content of any type cut somewhere, or with up to seven bytes behind it; now and then it has its length. */
static size_t crooked_content(uint8_t *content)
{
    size_t n = random_below(8) == 0 ? pulse(content, 1, random_below(256), 0x55, 1) : any_content(content);
    return 1 + random_below((unsigned)n + 7);
}

/* Frames of them one behind the other, each with its true checksum. Filled up with keep-alives. */
static void make_crooked(uint8_t stream[STREAM])
{
    memset(stream, 0x06, STREAM);
    for (size_t at = 0;;) {
        uint8_t frame[HEADER + WELLACORN_CONTENT] = {0};
        size_t n = seal(frame, crooked_content(frame + HEADER));
        if (n > STREAM - at) {
            return;
        }
        memcpy(stream + at, frame, n);
        at += n;
    }
}

/* ---- Rows */

typedef struct {
    const char *name;
    const char *unit;
    size_t units;               /* in one time */
    int which;                  /* of a side's workloads */
    const uint8_t *bytes;
    size_t n;
    size_t step;
} row;

enum {
    SMALL = HEADER + 4,
    COMMANDS = 64,
    READ = HEADER + 3 + 127 * 8,
    OVERSIZE = HEADER + 65535,
    SINGLE = 8192,
    EVENTS = 64,
    ASKED = HEADER + 8          /* a request for a pulse */
};

static uint8_t commands[COMMANDS * SMALL];
static uint8_t short_pulse[ASKED], long_pulse[ASKED];
static uint8_t short_pulses[WELLACORN_PULSES * ASKED];
static uint8_t stream[STREAM], crooked[STREAM];
static uint8_t many[READ];
static uint8_t oversize[OVERSIZE];

static const row rows[] = {
    {"small commands, one per call", "calls", COMMANDS, PIECES, commands, sizeof commands, SMALL},
    {"mixed frames, drained from 64 KiB", "bytes", STREAM, DRAIN, stream, STREAM, 0},
    {"mixed frames, one byte per call", "calls", SINGLE, PIECES, stream, SINGLE, 1},
    {"ReadDevices of 127 IDs", "calls", 1, PIECES, many, sizeof many, sizeof many},
    {"pass", "calls", EVENTS, PASS, NULL, EVENTS, 0},
    {"level, pass and collect", "calls", 3 * EVENTS, COLLECT, NULL, EVENTS, 0},
    {"oversize message swallowed", "calls", 1, PIECES, oversize, sizeof oversize, sizeof oversize},
    {"pulse of 1 ms asked for, 1 ms", "calls", 1 + 1, PULSED, short_pulse, ASKED, 1},
    {"pulse of 64 ms, 1 ms per call", "calls", 1 + EVENTS, PULSED, long_pulse, ASKED, EVENTS},
    {"31 pulses asked for, ended in one", "calls", WELLACORN_PULSES + 1, QUEUED, short_pulses, sizeof short_pulses, ASKED},
};

enum { ROWS = sizeof rows / sizeof rows[0] };

/* Compared and not measured: nobody waits for a refusal. */
static const row wrong_lengths = {"frames of wrong lengths, drained from 64 KiB", "bytes", STREAM, DRAIN, crooked, STREAM, 0};

static void make_messages(void)
{
    for (size_t i = 0; i < COMMANDS; i++) {
        seal(commands + SMALL * i, command(commands + SMALL * i + HEADER, 3, (unsigned)(1 + i % 8)));
    }
    seal(short_pulse, pulse(short_pulse + HEADER, 2, 0, 0, 1));
    seal(long_pulse, pulse(long_pulse + HEADER, 2, 0, 0, EVENTS));
    for (unsigned i = 0; i < WELLACORN_PULSES; i++) {
        seal(short_pulses + ASKED * i, pulse(short_pulses + ASKED * i + HEADER, 1 + i % 8, i % 2 == 0 ? 0 : 0x3C, 0x14, 1));
    }
    make_stream(stream);
    seal(many, read_devices(many + HEADER, 127, 16));
    oversize[0] = 0x01;
    put(oversize + 1, 2, 65535);
    make_crooked(crooked);      /* last, so that the random numbers of what is measured stay those of earlier figures */
}

/* ---- Both sides */

static workload_tally run(const workload_side *side, const row *r, size_t times)
{
    return side->does[r->which](r->bytes, r->n, r->step, times);
}

/* Boards, halves and records have no padding: also words that nobody uses must be the same. */
static bool same_held(void)
{
    wellacorn_board one = library_side.board();
    wellacorn_board other = peer_side.board();
    bool same = memcmp(&one, &other, sizeof one) == 0;
    for (int c = 0; c < WELLACORN_CONNECTIONS; c++) {
        wellacorn_half a = library_side.half(c);
        wellacorn_half b = peer_side.half(c);
        same &= memcmp(&a, &b, sizeof a) == 0;
    }
    for (int place = 0; place < WELLACORN_PULSES; place++) {
        wellacorn_pulse a = library_side.pulse(place);
        wellacorn_pulse b = peer_side.pulse(place);
        same &= memcmp(&a, &b, sizeof a) == 0;
    }
    return same;
}

/* Two times, so that the second finds what the first left. */
static bool agree(const row *r)
{
    library_side.fresh();
    peer_side.fresh();
    workload_tally one = run(&library_side, r, 2);
    workload_tally other = run(&peer_side, r, 2);
    return one.answers == other.answers && one.taken == other.taken && one.places == other.places && one.len == other.len && same_held() &&
           memcmp(library_side.reply, peer_side.reply, WELLACORN_REPLY) == 0;
}

/* Says where they do not. */
static bool all_agree(void)
{
    for (size_t i = 0; i <= ROWS; i++) {
        const row *r = i < ROWS ? &rows[i] : &wrong_lengths;
        if (!agree(r)) {
            printf("bench: library and peer differ: %s\n", r->name);
            return false;
        }
    }
    return true;
}

static double seconds(void)
{
    struct timespec t;
    clock_gettime(CLOCK_PROCESS_CPUTIME_ID, &t);
    return (double)t.tv_sec + 1e-9 * (double)t.tv_nsec;
}

static volatile uint64_t sink;  /* what is summed up is used */

static double time_of(const workload_side *side, const row *r, size_t times)
{
    double start = seconds();
    workload_tally t = run(side, r, times);
    double end = seconds();
    sink += t.answers + t.taken + t.places + t.len;
    return end - start;
}

static size_t times_for(const workload_side *side, const row *r)
{
    size_t times = 1;
    while (time_of(side, r, times) < LEAST) {
        times *= 2;
    }
    return times;
}

static int by_size(const void *a, const void *b)
{
    double x = *(const double *)a, y = *(const double *)b;
    return (x > y) - (x < y);
}

static double median(double *all, size_t n)
{
    qsort(all, n, sizeof *all, by_size);
    return n % 2 != 0 ? all[n / 2] : (all[n / 2 - 1] + all[n / 2]) / 2;
}

static void measure(const row *r, size_t rounds, double *library, double *peer)
{
    library_side.fresh();
    peer_side.fresh();
    size_t library_times = times_for(&library_side, r);
    size_t peer_times = times_for(&peer_side, r);
    for (size_t i = 0; i < rounds; i++) {
        if (i % 2 == 0) {
            library[i] = time_of(&library_side, r, library_times);
            peer[i] = time_of(&peer_side, r, peer_times);
        } else {
            peer[i] = time_of(&peer_side, r, peer_times);
            library[i] = time_of(&library_side, r, library_times);
        }
    }
    double library_time = median(library, rounds) / (double)library_times;
    double peer_time = median(peer, rounds) / (double)peer_times;
    double units = (double)r->units;
    printf("%-36s %-6s %15.0f %15.0f %10.3f\n", r->name, r->unit, units / library_time, units / peer_time, peer_time / library_time);
    fflush(stdout);
}

static size_t rounds_of(int argc, char **argv)
{
    if (argc == 1) {
        return ROUNDS;
    }
    if (argc == 3 && strcmp(argv[1], "--rounds") == 0) {
        char *end;
        long n = strtol(argv[2], &end, 10);
        if (*end == '\0' && end != argv[2] && n >= 1 && n <= MOST_ROUNDS) {
            return (size_t)n;
        }
    }
    fprintf(stderr, "usage: bench [--rounds N], N from 1 to %d\n", MOST_ROUNDS);
    exit(2);
}

int main(int argc, char **argv)
{
    size_t rounds = rounds_of(argc, argv);
    double *library = calloc(rounds, sizeof *library);
    double *peer = calloc(rounds, sizeof *peer);
    if (library == NULL || peer == NULL) {
        fputs("bench: no memory\n", stderr);
        return EXIT_FAILURE;
    }
    make_messages();
    if (!all_agree()) {
        return EXIT_FAILURE;
    }
    printf("Medians of %zu rounds, buffers not cleared between calls. ", rounds);
    printf("Ratio: peer time / library time, above 1 where the library is faster.\n");
    printf("%-36s %-6s %15s %15s %10s\n", "workload", "unit", "library, 1/s", "peer, 1/s", "ratio");
    for (size_t i = 0; i < ROWS; i++) {
        measure(&rows[i], rounds, library, peer);
    }
    free(library);
    free(peer);
    return EXIT_SUCCESS;
}
