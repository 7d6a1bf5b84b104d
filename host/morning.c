/* A simulated morning. */
#include "morning.h"

#include "say.h"

#include <inttypes.h>

enum {
    PULSE = 150,            /* ms that a fish holds the input on, at least; at most twice that */
    QUIET = 500,            /* ms from one fish to the next on a lift, at least */
    QUIET_MORE = 7500       /* and at most so many more */
};

/* xorshift64: plenty for fish. */
static uint32_t draw(morning *m, uint32_t below)
{
    m->random ^= m->random << 13;
    m->random ^= m->random >> 7;
    m->random ^= m->random << 17;
    return (uint32_t)(m->random >> 32) % below;
}

void morning_begin(morning *m, uint64_t seed, uint64_t now)
{
    m->random = seed * 0x9E3779B97F4A7C15u | 1;
    for (int k = 0; k < WELLACORN_CHANNELS; k++) {
        draw(m, 1);
        m->next[k] = now + draw(m, QUIET_MORE);
    }
}

uint64_t morning_next(const morning *m)
{
    uint64_t first = m->next[0];
    for (int k = 1; k < WELLACORN_CHANNELS; k++) {
        first = m->next[k] < first ? m->next[k] : first;
    }
    return first;
}

static void change(morning *m, box *b, int k, uint64_t now)
{
    const wellacorn_input *input = &b->lent.board.inputs[k];
    bool on = !input->level;
    box_level(b, (uint8_t)(k + 1), on);
    m->next[k] = now + (on ? PULSE + draw(m, PULSE) : QUIET + draw(m, QUIET_MORE));
    if (on) {
        say("fish on lift %d: %" PRIu64 " counted", k + 1, input->count);
    }
}

void morning_turn(morning *m, box *b, uint64_t now)
{
    for (int k = 0; k < WELLACORN_CHANNELS; k++) {
        if (now >= m->next[k]) {
            change(m, b, k, now);
        }
    }
}
