/* The workloads of the benchmark, for one of the two boxes (engine.h). */
#include "workloads.h"

#include "engine.h"

static engine box;
static engine_pulse row[WELLACORN_PULSES];
static uint8_t reply[WELLACORN_REPLY];

static inline void offer(workload_tally *t, const uint8_t *piece, size_t n)
{
    engine_bytes(&box, row, WELLACORN_PULSES, 0, piece, n, reply, sizeof reply);
    t->answers += box.answer;
    t->taken += box.taken;
    t->places += box.place;
    t->len += box.len;
}

static inline void let_pass(workload_tally *t, uint32_t d)
{
    engine_pass(&box, row, WELLACORN_PULSES, d);
    t->answers += box.answer;
}

static void fresh(void)
{
    wellacorn_settings s = {0};
    for (int k = 0; k < WELLACORN_CHANNELS; k++) {
        s.inputs[k] = (wellacorn_input_settings){.setpoint_one = 10, .setpoint_two = 1000, .usage_setpoint = 100000, .alarm = k % 2 == 0};
        s.relays[k] = 200000;
    }
    engine_power_up(&box, &s);
    engine_connect(&box, 0, 2, 0);
    for (uint8_t k = 1; k <= WELLACORN_CHANNELS; k += 2) {
        engine_level(&box, k, 1);
    }
    static const uint8_t close_half[] = {0x01, 0, 4, 0xFF, 0xFF, 10, 10, 0x55, 0x55};
    workload_tally unread = {0};
    offer(&unread, close_half, sizeof close_half);
}

static workload_tally pieces(const uint8_t *bytes, size_t n, size_t step, size_t times)
{
    workload_tally t = {0};
    for (; times > 0; times--) {
        for (size_t at = 0; at < n; at += step) {
            offer(&t, bytes + at, step);
        }
    }
    return t;
}

static workload_tally drain(const uint8_t *bytes, size_t n, size_t step, size_t times)
{
    (void)step;
    workload_tally t = {0};
    for (; times > 0; times--) {
        for (size_t at = 0; at < n; at += (size_t)box.taken) {
            offer(&t, bytes + at, n - at);
            if (box.taken == 0) {
                break;      /* never of an open connection; the sums will differ */
            }
        }
    }
    return t;
}

static workload_tally pass(const uint8_t *bytes, size_t n, size_t step, size_t times)
{
    (void)bytes;
    (void)step;
    workload_tally t = {0};
    for (; times > 0; times--) {
        for (size_t i = 0; i < n; i++) {
            let_pass(&t, 1);
        }
    }
    return t;
}

static workload_tally collect(const uint8_t *bytes, size_t n, size_t step, size_t times)
{
    (void)bytes;
    (void)step;
    workload_tally t = {0};
    for (; times > 0; times--) {
        for (size_t i = 0; i < n; i++) {
            engine_level(&box, (uint8_t)(i % WELLACORN_CHANNELS + 1), (uint8_t)(i / WELLACORN_CHANNELS % 2));
            t.answers += box.answer;
            let_pass(&t, 1);
            engine_collect(&box, 0, reply, sizeof reply);
            t.answers += box.answer;
            t.places += box.place;
            t.len += box.len;
        }
    }
    return t;
}

static workload_tally pulsed(const uint8_t *bytes, size_t n, size_t step, size_t times)
{
    workload_tally t = {0};
    for (; times > 0; times--) {
        offer(&t, bytes, n);
        for (size_t i = 0; i < step; i++) {
            let_pass(&t, 1);
        }
    }
    return t;
}

static workload_tally queued(const uint8_t *bytes, size_t n, size_t step, size_t times)
{
    workload_tally t = {0};
    for (; times > 0; times--) {
        for (size_t at = 0; at < n; at += step) {
            offer(&t, bytes + at, step);
        }
        let_pass(&t, (uint32_t)(n / step));
    }
    return t;
}

static wellacorn_board board(void)
{
    return engine_board(&box);
}

static wellacorn_half half(int c)
{
    return engine_half(&box, c);
}

static wellacorn_pulse pulse(int place)
{
    return engine_pulse_in(&row[place]);
}

#ifdef ENGINE_PEER
const workload_side peer_side =
#else
const workload_side library_side =
#endif
    {
        .fresh = fresh,
        .does = {[PIECES] = pieces, [DRAIN] = drain, [PASS] = pass, [COLLECT] = collect, [PULSED] = pulsed, [QUEUED] = queued},
        .board = board,
        .half = half,
        .pulse = pulse,
        .reply = reply,
};
