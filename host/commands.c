/* Commands, one a line, from a person or from the program that knows the inputs. */
#define _POSIX_C_SOURCE 200809L

#include "commands.h"

#include "say.h"
#include "told.h"

#include <errno.h>
#include <inttypes.h>
#include <stdlib.h>
#include <string.h>
#include <unistd.h>

enum { WORDS = 4 };     /* one more than a command has, to see that there are too many */

static const char *known(const commands *c)
{
    return c->person ? "write `level K V`, `filled P`, `emptied P`, `state` or `quit`" : "write `level K V`, `filled P` or `emptied P`";
}

static size_t split(char *text, char *words[WORDS])
{
    size_t n = 0;
    char *rest = NULL;
    for (char *word = strtok_r(text, " \t\r", &rest); word != NULL && n < WORDS; word = strtok_r(NULL, " \t\r", &rest)) {
        words[n++] = word;
    }
    return n;
}

/* A number of a byte; 255, which is no input, no level and no place, where the word is none. */
static uint8_t byte(const char *word)
{
    size_t n = strlen(word);
    unsigned long x = n <= 3 && strspn(word, "0123456789") == n ? strtoul(word, NULL, 10) : 255;
    return x <= 255 ? (uint8_t)x : 255;
}

/* A program may tell a level again and again: that nothing changed is said to a person alone. */
static void level(box *b, const char *input, const char *value, bool person)
{
    uint8_t k = byte(input), v = byte(value);
    const wellacorn_input *inputs = b->lent.board.inputs;
    bool was = k >= 1 && k <= WELLACORN_CHANNELS && inputs[k - 1].level;
    wellacorn_done done = box_level(b, k, v);
    if (done.answer != WELLACORN_SERVED) {
        say("level refused (%u): write `level K V` with K from 1 to 8 and V 1 (on) or 0 (off)", done.answer);
    } else if (was == (v == 1) && person) {
        say("input %u was %s already: nothing changed", k, v == 1 ? "on" : "off");
    } else if (was != (v == 1)) {
        say("input %u is %s: %" PRIu64 " counted", k, v == 1 ? "on" : "off", inputs[k - 1].count);
    }
}

static void refuse_place(const char *command, uint8_t answer)
{
    say("%s refused (%u): write `%s P` with P 1 (relays 9 to 12) or 2 (relays 13 to 16)", command, answer, command);
}

/* A module has been plugged in. */
static void filled(box *b, const char *word)
{
    uint8_t place = byte(word);
    bool was_filled = box_is_filled(b, place);
    wellacorn_done done = box_fill(b, place);
    if (done.answer != WELLACORN_SERVED) {
        refuse_place("filled", done.answer);
    } else if (was_filled) {
        say("place %u was filled already: nothing changed", place);
    } else {
        say("place %u is filled: relays %u to %u are there, all open", place, box_first_relay(place), box_first_relay(place) + BOX_MODULE - 1);
    }
}

/* A module has been pulled. */
static void pulled(box *b, const char *word)
{
    uint8_t place = byte(word);
    emptied it = box_empty(b, place);
    if (it.done.answer != WELLACORN_SERVED) {
        refuse_place("emptied", it.done.answer);
    } else if (!it.was_filled) {
        say("place %u was empty already: nothing changed", place);
    } else {
        told_emptied(b, place, &it);
    }
}

static bool obey(commands *c, box *b, const char *const peers[WELLACORN_CONNECTIONS])
{
    char *words[WORDS];
    size_t n = split(c->text, words);
    if (n == 0) {
        return true;
    }
    if (c->person && n == 1 && strcmp(words[0], "quit") == 0) {
        return false;
    }
    if (c->person && n == 1 && strcmp(words[0], "state") == 0) {
        told_state(b, peers);
    } else if (n == 3 && strcmp(words[0], "level") == 0) {
        level(b, words[1], words[2], c->person);
    } else if (n == 2 && strcmp(words[0], "filled") == 0) {
        filled(b, words[1]);
    } else if (n == 2 && strcmp(words[0], "emptied") == 0) {
        pulled(b, words[1]);
    } else {
        say("no such command: %s", known(c));
    }
    return true;
}

/* One more byte of a line. False: the box is to end. */
static bool take(commands *c, char ch, box *b, const char *const peers[WELLACORN_CONNECTIONS])
{
    if (ch != '\n') {
        c->too_long |= c->n == COMMANDS_LINE - 1;
        c->n -= c->n == COMMANDS_LINE - 1;
        c->text[c->n++] = ch == 0 ? '?' : ch;
        return true;
    }
    bool cut = c->too_long;
    c->text[c->n] = 0;
    c->n = 0;
    c->too_long = false;
    if (cut) {
        say("a line that long is no command: %s", known(c));
        return true;
    }
    return obey(c, b, peers);
}

void commands_begin(commands *c, int fd, bool person)
{
    *c = (commands){.fd = fd, .person = person};
}

bool commands_read(commands *c, box *b, const char *const peers[WELLACORN_CONNECTIONS])
{
    char some[COMMANDS_LINE];
    ssize_t n = read(c->fd, some, sizeof some);
    if (n == 0 || (n < 0 && errno != EINTR && errno != EAGAIN)) {
        c->over = true;
    }
    for (ssize_t i = 0; i < n; i++) {
        if (!take(c, some[i], b, peers)) {
            return false;
        }
    }
    return true;
}
