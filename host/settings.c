/* The settings of the box at power-up. Every error is named, so that one look mends them all. */
#define _POSIX_C_SOURCE 200809L

#include "settings.h"

#include "numbers.h"

#include <errno.h>
#include <inttypes.h>
#include <stdio.h>
#include <string.h>

enum {
    OF_AN_INPUT = 4,                    /* numbers */
    OF_INPUTS = OF_AN_INPUT * WELLACORN_CHANNELS,
    NUMBERS = OF_INPUTS + WELLACORN_CHANNELS,   /* of a box: then one for each relay */
    WORDS = 5,                          /* of a line at most: a time may have its unit as a word of its own */
    LARGEST = 65536,                    /* bytes of a file */
    FIRST_SETPOINT = 20,                /* of the settings without a file, so that a first morning shows alarms */
    SECOND_SETPOINT = 50
};

static const char blanks[] = " \t\r\v\f", blanks_and_ends[] = " \t\r\v\f\n";

/* The numbers of an input in their order, and what there is of a relay. */
enum { SETPOINT_ONE, SETPOINT_TWO, USAGE_SETPOINT, ALARM };

static const char *const names[OF_AN_INPUT] = {"setpoint-one", "setpoint-two", "usage-setpoint", "alarm"};

void settings_usual(wellacorn_settings *s)
{
    memset(s, 0, sizeof *s);
    for (int k = 0; k < WELLACORN_CHANNELS; k++) {
        s->inputs[k].setpoint_one = FIRST_SETPOINT;
        s->inputs[k].setpoint_two = SECOND_SETPOINT;
    }
    s->inputs[WELLACORN_CHANNELS - 1].alarm = true;
}

/* ---- The numbers by their places: four for each input, then one for each relay */

/* Which of the four is meant; a relay has a usage setpoint. */
static int kind_at(int place)
{
    return place < OF_INPUTS ? place % OF_AN_INPUT : USAGE_SETPOINT;
}

static uint64_t most_at(int place)
{
    static const uint64_t most[OF_AN_INPUT] = {UINT32_MAX, UINT32_MAX, UINT64_MAX, 1};
    return most[kind_at(place)];
}

static void set(wellacorn_settings *s, int place, uint64_t x)
{
    wellacorn_input_settings *in = &s->inputs[place / OF_AN_INPUT % WELLACORN_CHANNELS];
    if (place >= OF_INPUTS) {
        s->relays[place - OF_INPUTS] = x;
    } else if (kind_at(place) == SETPOINT_ONE) {
        in->setpoint_one = (uint32_t)x;
    } else if (kind_at(place) == SETPOINT_TWO) {
        in->setpoint_two = (uint32_t)x;
    } else if (kind_at(place) == USAGE_SETPOINT) {
        in->usage_setpoint = x;
    } else {
        in->alarm = x == 1;
    }
}

/* ---- A file of numbers */

static bool read_numbers(wellacorn_settings *s, char *text, const char *path)
{
    char *rest = NULL, *word = strtok_r(text, blanks_and_ends, &rest);
    for (int place = 0; place < NUMBERS; place++) {
        uint64_t x;
        if (word == NULL || !number_read(word, most_at(place), &x)) {
            fprintf(stderr, "boxd: number %d of 40 in the settings file %s is missing or out of range. docs/REPLAY.md says which they are\n",
                    place + 1, path);
            return false;
        }
        set(s, place, x);
        word = strtok_r(NULL, blanks_and_ends, &rest);
    }
    if (word != NULL) {
        fprintf(stderr, "boxd: there are more than 40 numbers in the settings file %s. docs/REPLAY.md says which they are\n", path);
    }
    return word == NULL;
}

/* ---- The words of a line. Each gives NULL, or what is wrong and what to do. */

/* Where the thing stands that a line names. */
static const char *read_place(char *words[], int *place)
{
    bool is_input = strcmp(words[0], "input") == 0;
    uint64_t channel;
    int kind = 0;
    if (!is_input && strcmp(words[0], "relay") != 0) {
        return "a line begins with input or relay; # begins a comment";
    }
    if (!number_read(words[1], WELLACORN_CHANNELS, &channel) || channel == 0) {
        return "inputs and relays are numbered from 1 to 8: write for example input 3, or relay 5";
    }
    while (kind < OF_AN_INPUT && strcmp(words[2], names[kind]) != 0) {
        kind++;
    }
    if (is_input && kind == OF_AN_INPUT) {
        return "of an input there are setpoint-one, setpoint-two, usage-setpoint and alarm: write one of them";
    }
    if (!is_input && kind != USAGE_SETPOINT) {
        return "of a relay there is usage-setpoint alone: write that";
    }
    *place = is_input ? OF_AN_INPUT * (int)(channel - 1) + kind : OF_INPUTS + (int)(channel - 1);
    return NULL;
}

/* How many ms a unit has; without one it is ms. 0: there is no such unit. */
static uint64_t unit_ms(const char *word)
{
    static const struct {
        const char *name;
        uint64_t ms;
    } units[] = {{"", 1}, {"ms", 1}, {"s", 1000}, {"min", 60000}, {"h", 3600000}};
    for (size_t i = 0; i < sizeof units / sizeof units[0]; i++) {
        if (strcmp(word, units[i].name) == 0) {
            return units[i].ms;
        }
    }
    return 0;
}

/* A number with its unit directly behind it, as a further word, or without one. */
static const char *read_time(const char *word, const char *unit, uint64_t *x)
{
    char number[24] = {0};
    size_t digits = strspn(word, "0123456789");
    uint64_t ms = unit_ms(word[digits] == 0 && unit != NULL ? unit : word + digits);
    if (ms == 0 || (word[digits] != 0 && unit != NULL)) {
        return "behind the number of a time ms, s, min or h may stand, and without one it is in ms: write for example 900000, or 15min";
    }
    memcpy(number, word, digits < sizeof number ? digits : sizeof number - 1);
    if (!number_read(number, UINT64_MAX / ms, x)) {
        return "a usage setpoint is a number, and at most 18446744073709551615 ms: write for example 900000, or 15min";
    }
    *x *= ms;
    return NULL;
}

static const char *read_switch(const char *word, uint64_t *x)
{
    *x = strcmp(word, "on") == 0;
    return *x == 1 || strcmp(word, "off") == 0 ? NULL : "an alarm switch is on or off: write one of the two";
}

static const char *read_value(int kind, const char *word, const char *more, uint64_t *x)
{
    if (kind == USAGE_SETPOINT) {
        return read_time(word, more, x);
    }
    if (more != NULL) {
        return "a line ends behind its value: put a # before what is a comment";
    }
    if (kind == ALARM) {
        return read_switch(word, x);
    }
    return number_read(word, UINT32_MAX, x) ? NULL : "a count setpoint is a number from 0 to 4294967295: write for example 100";
}

/* ---- A file of lines */

typedef struct {
    wellacorn_settings *to;
    const char *path;
    unsigned line;              /* that is read */
    unsigned lines[NUMBERS];    /* in which each thing is set; 0: in none */
    unsigned wrong;
} reading;

static void complain(reading *r, const char *wrong)
{
    fprintf(stderr, "boxd: %s, line %u: %s\n", r->path, r->line, wrong);
    r->wrong++;
}

static void set_once(reading *r, int place, uint64_t x)
{
    if (r->lines[place] != 0) {
        fprintf(stderr, "boxd: %s, line %u: this is set in line %u already; keep one of the two\n", r->path, r->line, r->lines[place]);
        r->wrong++;
        return;
    }
    r->lines[place] = r->line;
    set(r->to, place, x);
}

/* How many words the line has; WORDS + 1 stands for more than there may be. */
static size_t split(char *text, char *words[WORDS])
{
    size_t n = 0;
    char *rest = NULL;
    for (char *word = strtok_r(text, blanks, &rest); word != NULL && n <= WORDS; word = strtok_r(NULL, blanks, &rest)) {
        if (n < WORDS) {
            words[n] = word;
        }
        n++;
    }
    return n;
}

static void read_line(reading *r, char *text)
{
    char *words[WORDS];
    int place = 0;
    uint64_t x = 0;
    text[strcspn(text, "#")] = 0;
    size_t n = split(text, words);
    if (n == 0) {
        return;
    }
    if (n < WORDS - 1 || n > WORDS) {
        complain(r, "a line has four words: write for example input 3 setpoint-one 100, or relay 5 usage-setpoint 15min");
        return;
    }
    const char *wrong = read_place(words, &place);
    wrong = wrong == NULL ? read_value(kind_at(place), words[3], n == WORDS ? words[4] : NULL, &x) : wrong;
    if (wrong != NULL) {
        complain(r, wrong);
    } else {
        set_once(r, place, x);
    }
}

static bool sets_something(const reading *r)
{
    static const unsigned none[NUMBERS];
    return memcmp(r->lines, none, sizeof none) != 0;
}

static bool read_lines(reading *r, char *text)
{
    for (char *next; text != NULL; text = next) {
        next = strchr(text, '\n');
        if (next != NULL) {
            *next++ = 0;
        }
        r->line++;
        read_line(r, text);
    }
    if (r->wrong > 0) {
        fprintf(stderr, "boxd: %u error%s in the settings file %s, nothing was started: mend %s (docs/HOST.md, Settings)\n", r->wrong,
                r->wrong == 1 ? "" : "s", r->path, r->wrong == 1 ? "it" : "them");
    } else if (!sets_something(r)) {
        fprintf(stderr, "boxd: nothing is set in the settings file %s: write a line into it, for example input 3 setpoint-one 100, or do without it\n",
                r->path);
    }
    return r->wrong == 0 && sets_something(r);
}

/* ---- The file */

/* The whole file as a text. */
static bool read_text(char text[LARGEST + 2], const char *path)
{
    FILE *file = fopen(path, "r");
    if (file == NULL) {
        fprintf(stderr, "boxd: the settings file %s cannot be read: %s. Name another file\n", path, strerror(errno));
        return false;
    }
    size_t n = fread(text, 1, LARGEST + 1, file);
    bool broken = ferror(file) != 0, is_text = n <= LARGEST && memchr(text, 0, n) == NULL;
    fclose(file);
    text[n] = 0;
    if (broken) {
        fprintf(stderr, "boxd: reading the settings file %s failed. Name a plain file\n", path);
    } else if (!is_text) {
        fprintf(stderr, "boxd: the settings file %s has more than 65536 bytes, or zeros among them. Name a file of settings\n", path);
    }
    return !broken && is_text;
}

bool settings_read(wellacorn_settings *s, const char *path)
{
    static char text[LARGEST + 2];
    if (!read_text(text, path)) {
        return false;
    }
    memset(s, 0, sizeof *s);
    const char *first = text + strspn(text, blanks_and_ends);
    return *first >= '0' && *first <= '9' ? read_numbers(s, text, path) : read_lines(&(reading){.to = s, .path = path}, text);
}

/* ---- What it means, in words */

static void tell_count(int input, int alarm, uint32_t setpoint)
{
    if (setpoint > 0) {
        printf("input %d: the setpoint of count alarm %d is %" PRIu32 "\n", input, alarm, setpoint);
    }
}

/* A time in the largest unit of which it is a whole number. */
static void tell_usage(const char *what, int channel, uint64_t ms)
{
    static const char *const units[] = {"h", "min", "s", "ms"};
    size_t i = 0;
    while (ms % unit_ms(units[i]) != 0) {
        i++;
    }
    if (ms > 0) {
        printf("%s %d: the usage alarm comes at %" PRIu64 " %s\n", what, channel, ms / unit_ms(units[i]), units[i]);
    }
}

static void tell_input(int input, const wellacorn_input_settings *in)
{
    tell_count(input, 1, in->setpoint_one);
    tell_count(input, 2, in->setpoint_two);
    tell_usage("input", input, in->usage_setpoint);
    if (in->alarm) {
        printf("input %d: the alarm switch is on\n", input);
    }
}

bool settings_check(const char *path)
{
    wellacorn_settings s;
    if (!settings_read(&s, path)) {
        return false;
    }
    for (int k = 0; k < WELLACORN_CHANNELS; k++) {
        tell_input(k + 1, &s.inputs[k]);
    }
    for (int k = 0; k < WELLACORN_CHANNELS; k++) {
        tell_usage("relay", k + 1, s.relays[k]);
    }
    puts("Nothing else is set: every other setpoint is 0, which is no alarm, and every other alarm switch is off");
    return true;
}
