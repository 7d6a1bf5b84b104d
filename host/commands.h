/* Commands, one a line: `level K V`, `filled P`, `emptied P`, which tell the box what has happened, and from a person `state` and `quit`. */
#ifndef COMMANDS_H
#define COMMANDS_H

#include "box.h"

enum { COMMANDS_LINE = 256 };       /* bytes of a line at most */

typedef struct {
    int fd;                         /* where they come from */
    bool person;                    /* whether a person writes them */
    char text[COMMANDS_LINE];
    size_t n;                       /* bytes of an unfinished line */
    bool too_long;                  /* an earlier part of this line was dropped */
    bool over;                      /* no more will come */
} commands;

void commands_begin(commands *c, int fd, bool person);

/* Reads what comes now and obeys each whole line. `peers` names the connections that are open, for a person's `state`. False: the box is to end. */
bool commands_read(commands *c, box *b, const char *const peers[WELLACORN_CONNECTIONS]);

#endif
