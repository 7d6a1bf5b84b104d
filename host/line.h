/* A connection: its socket, the bytes that the box has not taken, and the replies that the client has not read.
 *
 * Both stores are bounded. A connection is read from, served and collected only while its queue has room for a whole longest reply, so no
 * reply is ever dropped: a client that does not read is not read from, and the others notice nothing.
 */
#ifndef LINE_H
#define LINE_H

#include "wellacorn.h"

enum {
    LINE_IN = 4096,                     /* bytes in that wait to be taken, at most */
    LINE_OUT = 4 * WELLACORN_REPLY,     /* bytes out that wait to be sent, at most */
    LINE_PEER = 64                      /* the client's address in words */
};

typedef struct {
    int fd;                     /* -1: shut */
    bool ended;                 /* the client sends no more */
    char peer[LINE_PEER];
    uint8_t in[LINE_IN];
    size_t in_from, in_to;      /* untaken bytes stand between them */
    uint8_t out[LINE_OUT];
    size_t out_from, out_to;    /* unsent bytes stand between them */
} line;

void line_open(line *l, int fd, const char *peer);

/* Shuts it; gives its socket, which is the caller's now. */
int line_give_up(line *l);
bool line_is_open(const line *l);

/* Whether the queue has room for a whole longest reply. */
bool line_has_room(const line *l);

/* Whether the socket is to be read from. */
bool line_reads(const line *l);

/* The untaken bytes, to be offered before any later ones; their number. */
size_t line_untaken(const line *l, const uint8_t **bytes);

/* The box took so many of them. They are wiped: a password may be among them. */
void line_took(line *l, size_t n);

/* A reply for the client. There must be room. */
void line_queue(line *l, const uint8_t *bytes, size_t n);

/* Bytes that wait to be sent. */
size_t line_unsent(const line *l);

/* Reads or writes what the socket gives or takes now, without waiting. False where the connection is broken: errno says how. */
bool line_read(line *l);
bool line_write(line *l);

#endif
