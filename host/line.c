/* A connection: bytes in that the box has not taken, replies out that the client has not read. */
#define _POSIX_C_SOURCE 200809L

#include "line.h"

#include <errno.h>
#include <stdio.h>
#include <string.h>
#include <sys/socket.h>
#include <unistd.h>

void line_open(line *l, int fd, const char *peer)
{
    l->fd = fd;
    l->ended = false;
    l->in_from = l->in_to = 0;
    l->out_from = l->out_to = 0;
    snprintf(l->peer, sizeof l->peer, "%s", peer);
}

int line_give_up(line *l)
{
    int fd = l->fd;
    memset(l->in, 0, sizeof l->in);
    l->fd = -1;
    return fd;
}

bool line_is_open(const line *l)
{
    return l->fd >= 0;
}

bool line_has_room(const line *l)
{
    return LINE_OUT - line_unsent(l) >= WELLACORN_REPLY;
}

bool line_reads(const line *l)
{
    return !l->ended && line_has_room(l) && l->in_to - l->in_from < LINE_IN;
}

size_t line_untaken(const line *l, const uint8_t **bytes)
{
    *bytes = l->in + l->in_from;
    return l->in_to - l->in_from;
}

void line_took(line *l, size_t n)
{
    memset(l->in + l->in_from, 0, n);
    l->in_from += n;
    if (l->in_from == l->in_to) {
        l->in_from = l->in_to = 0;
    }
}

void line_queue(line *l, const uint8_t *bytes, size_t n)
{
    assert(LINE_OUT - line_unsent(l) >= n);
    if (LINE_OUT - l->out_to < n) {
        memmove(l->out, l->out + l->out_from, line_unsent(l));
        l->out_to -= l->out_from;
        l->out_from = 0;
    }
    memcpy(l->out + l->out_to, bytes, n);
    l->out_to += n;
}

size_t line_unsent(const line *l)
{
    return l->out_to - l->out_from;
}

static bool try_again(void)
{
    return errno == EAGAIN || errno == EWOULDBLOCK || errno == EINTR;
}

bool line_read(line *l)
{
    if (l->in_from > 0) {
        memmove(l->in, l->in + l->in_from, l->in_to - l->in_from);
        l->in_to -= l->in_from;
        memset(l->in + l->in_to, 0, l->in_from);
        l->in_from = 0;
    }
    ssize_t n = recv(l->fd, l->in + l->in_to, LINE_IN - l->in_to, 0);
    if (n > 0) {
        l->in_to += (size_t)n;
    } else if (n == 0) {
        l->ended = true;
    }
    return n >= 0 || try_again();
}

bool line_write(line *l)
{
    while (line_unsent(l) > 0) {
        ssize_t n = send(l->fd, l->out + l->out_from, line_unsent(l), MSG_NOSIGNAL);
        if (n < 0) {
            return try_again();
        }
        l->out_from += (size_t)n;
    }
    l->out_from = l->out_to = 0;
    return true;
}
