/* Lines that never end. */
#define _DEFAULT_SOURCE

#include "quiet.h"

#include <netinet/in.h>
#include <netinet/tcp.h>
#include <sys/socket.h>

enum { PROBES = 4 };        /* of a link on which nothing is sent, within the time after which it is dead */

void quiet_open(quiet *q, uint64_t now, bool known)
{
    *q = (quiet){.opened = now, .heard = now, .known = known};
}

void quiet_known(quiet *q, uint64_t now)
{
    q->known = true;
    q->heard = now;
}

void quiet_heard(quiet *q, uint64_t now, uint8_t answer)
{
    if (answer == WELLACORN_SERVED || answer == WELLACORN_KEEP_ALIVE) {
        q->heard = now;
    }
}

static uint64_t login_end(const quiet *q, const quiet_limits *limits)
{
    return q->known || limits->login == UINT64_MAX ? UINT64_MAX : q->opened + limits->login;
}

const char *quiet_over(const quiet *q, const quiet_limits *limits, uint64_t now)
{
    if (now >= login_end(q, limits)) {
        return "nobody has logged in on it in time";
    }
    return now >= q->heard + limits->idle ? "no message was served for too long, nor was there a keep-alive" : NULL;
}

uint64_t quiet_next(const quiet *q, const quiet_limits *limits)
{
    uint64_t idle = q->heard + limits->idle, login = login_end(q, limits);
    return idle < login ? idle : login;
}

int quiet_displaced(const quiet all[WELLACORN_CONNECTIONS])
{
    int oldest = -1;
    for (int c = 0; c < WELLACORN_CONNECTIONS; c++) {
        if (!all[c].known && (oldest < 0 || all[c].opened < all[oldest].opened)) {
            oldest = c;
        }
    }
    return oldest;
}

/* Where nothing is sent, probes ask whether the link is there: they begin in time for the last to be unanswered when the time is over. */
void quiet_watch_link(int fd, const quiet_limits *limits)
{
    int on = 1, probes = PROBES, seconds = (int)(limits->link / 1000 / (PROBES + 1)) + 1;
    unsigned unacknowledged = (unsigned)limits->link;
    setsockopt(fd, SOL_SOCKET, SO_KEEPALIVE, &on, sizeof on);
    setsockopt(fd, IPPROTO_TCP, TCP_KEEPIDLE, &seconds, sizeof seconds);
    setsockopt(fd, IPPROTO_TCP, TCP_KEEPINTVL, &seconds, sizeof seconds);
    setsockopt(fd, IPPROTO_TCP, TCP_KEEPCNT, &probes, sizeof probes);
    setsockopt(fd, IPPROTO_TCP, TCP_USER_TIMEOUT, &unacknowledged, sizeof unacknowledged);
}
