/* What a client may ask the host itself. */
#include "custom.h"

#include "numbers.h"

#include <string.h>

enum { ANSWER_TYPE = 254, GOOD = 0 };

/* ---- Questions */

static bool is_named(const char *name, const uint8_t *content, size_t n)
{
    static const uint8_t behind[] = {0, 0, 0};      /* command type, payload size */
    size_t length = strlen(name);
    return n == 2 + length + sizeof behind && content[0] == CUSTOM_TYPE && content[1] == length && memcmp(content + 2, name, length) == 0 &&
           memcmp(content + 2 + length, behind, sizeof behind) == 0;
}

custom_question custom_asks(const uint8_t *content, size_t n)
{
    return is_named("pulses", content, n) ? CUSTOM_PULSES : is_named("refused", content, n) ? CUSTOM_REFUSED : CUSTOM_NONE;
}

/* ---- Answers */

static uint8_t *put_head(uint8_t *p, uint64_t payload)
{
    p = number_put(p, 1, ANSWER_TYPE);
    p = number_put(p, 1, GOOD);
    return number_put(p, 2, payload);
}

size_t custom_pulses(uint8_t content[CUSTOM_LONGEST], const wellacorn_board *board)
{
    uint8_t *p = put_head(content, 1);
    p = number_put(p, 1, board->queue.standing);
    return (size_t)(p - content);
}

size_t custom_refused(uint8_t content[CUSTOM_LONGEST], const refusal *last, uint64_t now)
{
    static const refusal none;
    const refusal *told = last->is_one ? last : &none;
    uint64_t seconds = last->is_one ? (now - last->at) / 1000 : 0;
    uint8_t *p = put_head(content, 10);
    p = number_put(p, 1, (uint64_t)told->is_one + told->has_type);
    p = number_put(p, 1, told->connection);
    p = number_put(p, 1, told->type);
    p = number_put(p, 1, told->answer);
    p = number_put(p, 2, told->place);
    p = number_put(p, 4, seconds < UINT32_MAX ? seconds : UINT32_MAX);
    return (size_t)(p - content);
}

/* ---- What was refused */

/* Of the answers to bytes on an open connection, those below it are of a piece, of a message that was served and of single bytes. */
static bool is_refused(uint8_t answer)
{
    return answer >= WELLACORN_TOO_LONG;
}

void custom_heard(refusal *last, const box *b, uint8_t c, const came *it, uint64_t now)
{
    const uint8_t *content;
    if (!is_refused(it->done.answer)) {
        return;
    }
    bool has_type = box_content(b, c, &content) > 0;
    *last = (refusal){
        .is_one = true,
        .has_type = has_type,
        .type = has_type ? content[0] : 0,
        .connection = c,
        .answer = it->done.answer,
        .place = it->done.place,
        .at = now,
    };
}
