/* Clients for whom there is no connection. Each is told so in the protocol's own words and closed, but not at once: what it still sends is
 * read and dropped for a while, for closing a socket with unread bytes would throw away what it has been told. */
#ifndef GUESTS_H
#define GUESTS_H

#include <stdbool.h>
#include <stdint.h>

enum { GUESTS = 8 };            /* at a time; one more ends the oldest */

typedef struct {
    int fd;                     /* -1: none */
    uint64_t until;             /* ms: then it is closed in any case */
} guest;

void guests_begin(guest all[GUESTS]);

/* Why is the text of a Textual Response, without its newline. */
void guests_turn_away(guest all[GUESTS], uint64_t now, int fd, const char *why);

/* Goes on with one of them; `ready`: its socket has something to read. */
void guests_turn(guest *g, uint64_t now, bool ready);

/* When the next one is to be closed, in ms; UINT64_MAX where there is none. */
uint64_t guests_next(const guest all[GUESTS]);
void guests_end(guest all[GUESTS]);

#endif
