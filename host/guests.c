/* Clients that are turned away. */
#define _POSIX_C_SOURCE 200809L

#include "guests.h"

#include "box.h"
#include "passwords.h"

#include <errno.h>
#include <stdio.h>
#include <string.h>
#include <sys/socket.h>
#include <unistd.h>

enum {
    STAYS = 1000,           /* ms that a guest has to read why */
    TEXT = 256,             /* bytes of that, at most */
    SCRAP = 4096
};

static void end_guest(guest *g)
{
    close(g->fd);
    g->fd = -1;
}

static guest *place(guest all[GUESTS])
{
    guest *oldest = &all[0];
    for (int i = 0; i < GUESTS; i++) {
        if (all[i].fd < 0) {
            return &all[i];
        }
        oldest = all[i].until < oldest->until ? &all[i] : oldest;
    }
    end_guest(oldest);
    return oldest;
}

void guests_begin(guest all[GUESTS])
{
    for (int i = 0; i < GUESTS; i++) {
        all[i].fd = -1;
    }
}

/* A Textual Response, type 3, with its newline and its final zero. */
void guests_turn_away(guest all[GUESTS], uint64_t now, int fd, const char *why)
{
    char text[TEXT];
    uint8_t frame[sizeof text + 5];
    snprintf(text, sizeof text, "\003%s\n", why);
    size_t n = frame_of(frame, (const uint8_t *)text, strlen(text) + 1);
    guest *g = place(all);
    send(fd, frame, n, MSG_NOSIGNAL);
    shutdown(fd, SHUT_WR);
    g->fd = fd;
    g->until = now + STAYS;
}

void guests_turn(guest *g, uint64_t now, bool ready)
{
    uint8_t scrap[SCRAP];
    if (g->fd < 0) {
        return;
    }
    ssize_t n = ready ? recv(g->fd, scrap, sizeof scrap, 0) : 1;
    if (now >= g->until || n == 0 || (n < 0 && errno != EAGAIN && errno != EINTR)) {
        end_guest(g);
    }
    wipe(scrap, sizeof scrap);      /* a password may be among it */
}

uint64_t guests_next(const guest all[GUESTS])
{
    uint64_t next = UINT64_MAX;
    for (int i = 0; i < GUESTS; i++) {
        next = all[i].fd >= 0 && all[i].until < next ? all[i].until : next;
    }
    return next;
}

void guests_end(guest all[GUESTS])
{
    for (int i = 0; i < GUESTS; i++) {
        if (all[i].fd >= 0) {
            end_guest(&all[i]);
        }
    }
}
