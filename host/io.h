/* Inputs and outputs for real: a program of the box builder's that knows the hardware. It writes a line for each event and is written one:
 *
 *     level K V       input K is on (1) or off (0)            filled P, emptied P     a relay module was plugged in at place P, or pulled
 *     relay K V       relay K is to be closed (1) or open (0)
 *
 * The first three come from it. The last is told of each relay that is there, when the program comes and at each change. It is a command that the host
 * runs, on whose standard input and output the lines go, or it connects to a Unix socket of the host's. The host never waits for it, and starts a
 * command that has ended again.
 */
#ifndef IO_H
#define IO_H

#include "commands.h"

#include <sys/types.h>

enum { IO_LINES = 4096 };       /* bytes of lines that wait to be written, at most */

typedef struct {
    const char *command;        /* NULL: none is run */
    const char *path;           /* of the socket; NULL: there is none */
    int door;                   /* the socket that is listened on, or -1 */
    int in, out;                /* the program's, or -1 while it is not there */
    pid_t pid;                  /* of the command; 0: none runs */
    uint64_t began;             /* when it was started; ms */
    uint64_t next;              /* when a command is started or ended by force; ms */
    uint64_t pause;             /* ms until it is started again */
    commands commands;
    char lines[IO_LINES];
    size_t from, to;            /* lines that wait to be written stand between them */
    unsigned told;              /* the relays of which it has been told since it came, relay 1 the lowest bit */
    unsigned closed;            /* as it was told of them */
} io;

/* Begins with a command or a socket; with neither it does nothing. False where it cannot: it says why, to standard error. */
bool io_begin(io *i, const char *command, const char *path);

/* The relays may have changed: queues a line for each that has. */
void io_relays(io *i, const box *b);

/* Whether lines wait to be written. */
bool io_waits(const io *i);

/* Goes on with it; `reads`, `knocks`: something has come from the program, or a program to the door. */
void io_turn(io *i, box *b, uint64_t now, bool reads, bool knocks);

/* When there is something to do though nothing comes; ms. */
uint64_t io_next(const io *i, uint64_t now);

/* Ends the command and the socket. */
void io_end(io *i);

#endif
