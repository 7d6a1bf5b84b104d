/* Lines that never end: the host's own rule of when a connection is closed, and which one makes room for a newcomer.
 *
 *   - Without a served message or a keep-alive for `idle` (001: 15 minutes) it is closed. Half a message, stray bytes and refused messages do not count.
 *   - Where clients have to log in, one that has not done so within `login` is closed, whatever it sends.
 *   - A link on which nothing is acknowledged for `link` is dead: the system ends it.
 *   - Where all four are taken, a newcomer displaces the oldest on which nobody has logged in.
 *
 * All of it stands in this file. The first rule is to become the library's (M-112); it goes from here then.
 */
#ifndef QUIET_H
#define QUIET_H

#include "wellacorn.h"

typedef struct {
    uint64_t idle;              /* ms */
    uint64_t login;             /* ms; UINT64_MAX where nobody has to log in */
    uint64_t link;              /* ms */
} quiet_limits;

/* Of one connection. */
typedef struct {
    uint64_t opened;            /* when its client came; ms */
    uint64_t heard;             /* the last served message or keep-alive, or the opening; ms */
    bool known;                 /* somebody has logged in on it, or nobody has to */
} quiet;

/* A client has come, or has logged in. */
void quiet_open(quiet *q, uint64_t now, bool known);
void quiet_known(quiet *q, uint64_t now);

/* A call of its bytes was answered so. */
void quiet_heard(quiet *q, uint64_t now, uint8_t answer);

/* Why an open connection is to be closed, in words; NULL: it is not. */
const char *quiet_over(const quiet *q, const quiet_limits *limits, uint64_t now);

/* When an open connection is to be closed, if nothing comes; ms. */
uint64_t quiet_next(const quiet *q, const quiet_limits *limits);

/* Which of four open connections a newcomer displaces; -1: none. */
int quiet_displaced(const quiet all[WELLACORN_CONNECTIONS]);

/* Has the system end a dead link. */
void quiet_watch_link(int fd, const quiet_limits *limits);

#endif
