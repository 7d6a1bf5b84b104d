/* What the host says: one line for each event, with date and time before it, on standard output or in a log file.
 *
 * Nothing here ever waits for the reader of standard output or for the disk: what cannot be written is kept up to a limit, and lines beyond it are
 * counted and left out, so that no client of the box is delayed by a pipe. Where the disk is full it is tried again each second.
 *
 * Nobody fills the log either: each source of lines has a number of them for a minute. What it says beyond that is counted and left out, and one line
 * behind the minute says how many there were.
 */
#ifndef SAY_H
#define SAY_H

#include <stdbool.h>
#include <stdint.h>

#if defined(__GNUC__)
#define SAY_FORMAT(place) __attribute__((format(printf, place, place + 1)))
#else
#define SAY_FORMAT(place)
#endif

/* Whose lines they are. A connection's number counts, not its client: who hangs up and comes again has no more lines for it. */
typedef enum {
    SAY_PERSON,             /* answers to who types commands, the beginning and the end: as many as there are */
    SAY_BOX,                /* fish, pulses, inputs */
    SAY_DOOR,               /* who comes and goes */
    SAY_LOGINS,             /* a flood of messages is not to hide a wrong password */
    SAY_CONNECTION,         /* of connection 0; the others follow */
    SAY_SOURCES = SAY_CONNECTION + 4
} say_source;

/* The source of what is said from now on. Gives the one before. */
say_source say_as(say_source source);

/* How many lines a minute a connection has: few while nobody has logged in on it. */
void say_known(uint8_t c, bool known);

/* Says now how many of a connection's lines were left out, if any were: it is closed. */
void say_left_out(uint8_t c);

/* One line, without its end. */
void say(const char *format, ...) SAY_FORMAT(1);

/* Says things to a file from now on, behind what stands in it. False where it cannot be opened: errno says why. */
bool say_open(const char *path);

/* Opens the log file anew: it may have been put away under another name. */
void say_open_anew(void);

/* Where it writes to, if something waits to be written and may be; else -1. */
int say_waits(void);

/* Writes what can be written now, and says what was left out in a minute that is over. */
void say_write(void);

/* In how many ms it is to be called again, if nothing else happens; UINT64_MAX where it need not. */
uint64_t say_patience(void);

/* Writes the rest, for at most a second. */
void say_end(void);

#endif
