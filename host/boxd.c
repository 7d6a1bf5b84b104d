/* The reference host: the box on the network, for ordinary JNIOR clients. docs/HOST.md says how to write one's own.
 *
 * One thread, one poll. Each turn: wait, tell the box the time, take what has come, serve each connection a while, send what can be sent.
 */
#define _POSIX_C_SOURCE 200809L

#include "box.h"
#include "commands.h"
#include "counts.h"
#include "custom.h"
#include "guests.h"
#include "io.h"
#include "line.h"
#include "login.h"
#include "morning.h"
#include "options.h"
#include "quiet.h"
#include "say.h"
#include "told.h"
#include "users.h"

#include <errno.h>
#include <fcntl.h>
#include <inttypes.h>
#include <netinet/in.h>
#include <netinet/tcp.h>
#include <poll.h>
#include <signal.h>
#include <stdio.h>
#include <stdlib.h>
#include <string.h>
#include <sys/socket.h>
#include <time.h>
#include <unistd.h>

enum {
    TURN = 64,                  /* messages of one connection before the others have their turn */
    ADMITTED = 8,               /* new clients in a turn */
    ACCEPT_AGAIN = 1000,        /* ms until the next try where a client could not be admitted */
    LONGEST_WAIT = 3600000,     /* ms */
    SYSTEM_QUEUE = 32768        /* bytes that the system may hold for a client: a client that does not read is to find few old messages */
};

/* Places in the list that is polled. */
enum {
    AT_SIGNAL,
    AT_COMMANDS,
    AT_PRINT,
    AT_IO_DOOR,
    AT_IO_IN,
    AT_IO_OUT,
    AT_SAVER,
    AT_DOOR,
    AT_LINES,
    AT_GUESTS = AT_LINES + WELLACORN_CONNECTIONS,
    POLLED = AT_GUESTS + GUESTS
};

typedef struct {
    options options;
    users users;
    door door;
    box box;
    line lines[WELLACORN_CONNECTIONS];
    login logins[WELLACORN_CONNECTIONS];
    heard heard[WELLACORN_CONNECTIONS];
    quiet quiet[WELLACORN_CONNECTIONS];
    quiet_limits limits;
    refusal last_refused;       /* on any connection */
    guest guests[GUESTS];
    morning morning;
    io io;
    counts counts;
    commands commands;
    struct timespec start;
    uint64_t now;               /* ms since the start, as the box has been told */
    uint64_t accept_after;      /* ms */
    int listener;
    bool failed;                /* the box ends because it cannot go on */
    bool hung_up;               /* it ends because its terminal is gone */
} host;

static int signal_pipe[2];

/* ---- Time */

/* Whole ms since the start. The rest of a ms is not lost: it is in the next reading. */
static uint64_t clock_ms(const host *h)
{
    struct timespec t;
    clock_gettime(CLOCK_MONOTONIC, &t);
    int64_t ns = (int64_t)(t.tv_sec - h->start.tv_sec) * 1000000000 + (t.tv_nsec - h->start.tv_nsec);
    return ns < 0 ? 0 : (uint64_t)ns / 1000000;
}

static void tell_time(host *h)
{
    h->now = clock_ms(h);
    passed it = box_time(&h->box, h->now);
    say_as(SAY_BOX);
    told_time(&h->box, &it);
}

/* ---- Passwords in the rooms */

/* Offers the library a message of n zero bytes, on a connection at the start of a message: it writes over the first n bytes of the connection's room,
 * which nobody but the library writes to. There is no type 0, so it is refused, and what is refused changes nothing. */
static void wipe_room(host *h, uint8_t c, size_t n)
{
    static const uint8_t zeros[WELLACORN_CONTENT];
    uint8_t frame[5 + WELLACORN_CONTENT];
    box_bytes(&h->box, c, frame, frame_of(frame, zeros, n));
}

/* A message has ended: where it was a login, a garbled one too, its password is wiped. Without users there is none to hide. */
static void wipe_password(host *h, uint8_t c, const came *it)
{
    const uint8_t *content;
    bool is_whole = it->done.answer == WELLACORN_NOT_OFFERED || it->done.answer == WELLACORN_BAD_CHECKSUM;
    size_t n = is_whole && h->door.users != NULL ? box_content(&h->box, c, &content) : 0;
    if (n > 0 && content[0] == LOGIN_TYPE) {
        wipe_room(h, c, n);
    }
}

/* A connection was closed: half a login may stand in its room, or one whose type was garbled. The library takes bytes on an open one alone. */
static void wipe_closed(host *h, uint8_t c)
{
    if (h->door.users != NULL) {
        box_connect(&h->box, c, 0, false);
        wipe_room(h, c, WELLACORN_CONTENT);
        box_close(&h->box, c);
    }
}

/* ---- Connections */

/* Whether a user's connection is strict, or, with NULL, one that nobody has logged in on. */
static bool is_strict(const host *h, const user *who)
{
    return h->options.strict || (who != NULL && who->strict);
}

static void open_line(host *h, uint8_t c, int fd, const char *peer)
{
    uint8_t rank = h->door.users == NULL ? 2 : 0;
    bool strict = is_strict(h, NULL);
    line_open(&h->lines[c], fd, peer);
    login_fresh(&h->logins[c]);
    h->heard[c] = (heard){0};
    quiet_open(&h->quiet[c], h->now, rank > 0);
    say_known(c, rank > 0);
    box_connect(&h->box, c, rank, strict);
    say_as(SAY_DOOR);
    say("connection %u: %s connected, %s%s", c, peer, told_rank(rank), told_strict(strict));
}

/* Closes it for the box. Its socket is the caller's then. */
static int leave_line(host *h, uint8_t c, const char *why)
{
    uint64_t half = h->box.lent.halves[c].got;
    say_as(SAY_CONNECTION + c);
    told_rest(&h->heard[c], c);
    box_close(&h->box, c);
    wipe_closed(h, c);
    login_fresh(&h->logins[c]);
    say_as(SAY_DOOR);
    say_left_out(c);
    if (half > 0) {
        say("connection %u closed: %s; %" PRIu64 " bytes of an unfinished message were dropped", c, why, half);
    } else {
        say("connection %u closed: %s", c, why);
    }
    return line_give_up(&h->lines[c]);
}

static void close_line(host *h, uint8_t c, const char *why)
{
    close(leave_line(h, c, why));
}

/* ---- Messages that the library does not offer, and that are the host's */

/* The content of such a message; 0 bytes of any other. */
static size_t not_offered(const host *h, uint8_t c, const came *it, const uint8_t **content)
{
    return it->done.answer == WELLACORN_NOT_OFFERED ? box_content(&h->box, c, content) : 0;
}

/* What a message asks the host: nothing, if nobody has logged in. */
static custom_question asked_of_host(const host *h, uint8_t c, const came *it)
{
    const uint8_t *content;
    size_t n = not_offered(h, c, it, &content);
    return n == 0 || h->box.lent.board.lines[c].rank == 0 ? CUSTOM_NONE : custom_asks(content, n);
}

/* Answers a question to the host. Whether it was one. */
static bool answers_custom(host *h, uint8_t c, const came *it)
{
    const wellacorn_board *board = &h->box.lent.board;
    custom_question asked = asked_of_host(h, c, it);
    if (asked == CUSTOM_NONE) {
        return false;
    }
    uint8_t answer[CUSTOM_LONGEST], frame[5 + CUSTOM_LONGEST];
    size_t n;
    told_rest(&h->heard[c], c);
    if (asked == CUSTOM_PULSES) {
        n = custom_pulses(answer, board);
        say("connection %u asked how many pulses stand: %" PRIu64, c, board->queue.standing);
    } else {
        n = custom_refused(answer, &h->last_refused, h->now);
        say("connection %u asked which message was refused last", c);
    }
    line_queue(&h->lines[c], frame, frame_of(frame, answer, n));
    return true;
}

/* ---- Logins */

/* Whether it was a login, which is the host's. */
static bool begins_login(host *h, uint8_t c, const came *it)
{
    const uint8_t *content;
    size_t n = not_offered(h, c, it, &content);
    if (n == 0 || content[0] != LOGIN_TYPE) {
        return false;
    }
    told_rest(&h->heard[c], c);
    login_begin(&h->logins[c], &h->door, h->now, content, n);
    return true;
}

static void tell_login(const host *h, uint8_t c, uint8_t rank)
{
    const login *l = &h->logins[c];
    const char *name = l->who == NULL ? "somebody unknown" : l->who->name;
    if (l->stage == LOGIN_WRONG) {
        say("connection %u: login of %s refused", c, name);
    } else if (h->door.users == NULL) {
        say("connection %u logged in: nobody has to here, each is an administrator", c);
    } else {
        say("connection %u: %s logged in, %s%s", c, name, told_rank(rank), told_strict(is_strict(h, l->who)));
    }
}

/* Goes on with the login of a connection, and answers it when it is judged. The connection is then opened anew, at the user's rank and as strict
 * as the user is: what an earlier user was is over. */
static void go_on_with_login(host *h, uint8_t c)
{
    login *l = &h->logins[c];
    login_turn(l, &h->door, h->now);
    if (l->stage != LOGIN_RIGHT && l->stage != LOGIN_WRONG) {
        return;
    }
    uint8_t rank = l->stage == LOGIN_WRONG ? 0 : l->who == NULL ? 2 : l->who->rank;
    uint8_t content[2], frame[LOGIN_REPLY];
    login_answer(content, rank);
    line_queue(&h->lines[c], frame, frame_of(frame, content, sizeof content));
    say_as(SAY_LOGINS);
    tell_login(h, c, rank);
    if (l->stage == LOGIN_RIGHT && l->who != NULL) {
        quiet_known(&h->quiet[c], h->now);
        say_known(c, true);
        box_close(&h->box, c);
        box_connect(&h->box, c, rank, is_strict(h, l->who));
    }
    login_done(l);
}

/* ---- Serving */

static bool can_serve(const host *h, uint8_t c)
{
    const uint8_t *bytes;
    const line *l = &h->lines[c];
    return line_is_open(l) && !login_is_on(&h->logins[c]) && line_has_room(l) && line_untaken(l, &bytes) > 0;
}

/* Offers the untaken bytes, message for message. */
static void serve(host *h, uint8_t c)
{
    line *l = &h->lines[c];
    const uint8_t *piece;
    say_as(SAY_CONNECTION + c);
    for (int i = 0; i < TURN && can_serve(h, c); i++) {
        size_t n = line_untaken(l, &piece);
        came it = box_bytes(&h->box, c, piece, n);
        quiet_heard(&h->quiet[c], h->now, it.done.answer);
        line_took(l, (size_t)it.done.taken);
        line_queue(l, h->box.reply, (size_t)it.done.len);
        if (!begins_login(h, c, &it) && !answers_custom(h, c, &it)) {
            told_bytes(&h->heard[c], &h->box, c, &it);
            custom_heard(&h->last_refused, &h->box, c, &it, h->now);
        }
        wipe_password(h, c, &it);
    }
    if (line_untaken(l, &piece) == 0) {
        told_rest(&h->heard[c], c);
    }
}

static bool can_collect(const host *h, uint8_t c)
{
    return box_due(&h->box, c) && line_has_room(&h->lines[c]);
}

static void collect(host *h, uint8_t c)
{
    if (can_collect(h, c)) {
        wellacorn_done done = box_collect(&h->box, c);
        line_queue(&h->lines[c], h->box.reply, (size_t)done.len);
    }
}

/* The client sends no more, and nothing is left to serve, to collect or to send. */
static bool is_finished(const host *h, uint8_t c)
{
    const uint8_t *bytes;
    const line *l = &h->lines[c];
    return l->ended && !login_is_on(&h->logins[c]) && line_untaken(l, &bytes) == 0 && line_unsent(l) == 0 && !box_due(&h->box, c);
}

/* The client has hung up with a wrong password as its last word, and nobody has logged in: its refusal is not held back for an empty place. */
static bool is_given_up(const host *h, uint8_t c)
{
    const uint8_t *bytes;
    const line *l = &h->lines[c];
    return l->ended && line_untaken(l, &bytes) == 0 && !h->quiet[c].known && h->logins[c].stage == LOGIN_HELD;
}

static void turn_line(host *h, uint8_t c)
{
    serve(h, c);
    go_on_with_login(h, c);
    collect(h, c);
    const char *over = quiet_over(&h->quiet[c], &h->limits, h->now);
    if (!line_write(&h->lines[c])) {
        close_line(h, c, strerror(errno));
    } else if (is_finished(h, c) || is_given_up(h, c)) {
        close_line(h, c, "the client hung up");
    } else if (over != NULL) {
        close_line(h, c, over);
    }
}

static const char *what_broke(int fd)
{
    int error = 0;
    socklen_t len = sizeof error;
    return getsockopt(fd, SOL_SOCKET, SO_ERROR, &error, &len) == 0 && error != 0 ? strerror(error) : "the client is gone";
}

/* It is read while a login is weighed too, as far as there is room: who hangs up meanwhile is to be noticed. */
static void read_line(host *h, uint8_t c, short events)
{
    line *l = &h->lines[c];
    bool reads = line_reads(l);
    if (events != 0 && reads && !line_read(l)) {
        close_line(h, c, strerror(errno));
    } else if ((events & (POLLERR | POLLHUP | POLLNVAL)) != 0 && !reads) {
        close_line(h, c, what_broke(l->fd));
    }
}

/* ---- New clients */

static bool prepare(const host *h, int fd)
{
    int on = 1, queue = SYSTEM_QUEUE;
    setsockopt(fd, SOL_SOCKET, SO_SNDBUF, &queue, sizeof queue);
    setsockopt(fd, IPPROTO_TCP, TCP_NODELAY, &on, sizeof on);
    quiet_watch_link(fd, &h->limits);
    return fcntl(fd, F_SETFL, O_NONBLOCK) == 0 && fcntl(fd, F_SETFD, FD_CLOEXEC) == 0;
}

/* A connection that is free, or that nobody has logged in on; -1: there is none. */
static int place_for_newcomer(host *h)
{
    for (uint8_t c = 0; c < WELLACORN_CONNECTIONS; c++) {
        if (!line_is_open(&h->lines[c])) {
            return c;
        }
    }
    int c = quiet_displaced(h->quiet);
    if (c >= 0) {
        int fd = leave_line(h, (uint8_t)c, "nobody has logged in on it, and its place was needed");
        guests_turn_away(h->guests, h->now, fd, "Nobody has logged in on this connection, and its place was needed. Connect again and log in.");
    }
    return c;
}

static void welcome(host *h, int fd, const char *peer)
{
    int c = place_for_newcomer(h);
    if (c >= 0) {
        open_line(h, (uint8_t)c, fd, peer);
        return;
    }
    say_as(SAY_DOOR);
    say("%s was told that all four connections are in use, and turned away", peer);
    guests_turn_away(h->guests, h->now, fd, "All four connections of this box are in use. Close one of them, or try again later.");
}

/* Takes one new client. Whether there may be more. */
static bool admit(host *h)
{
    struct sockaddr_storage from;
    socklen_t len = sizeof from;
    char peer[LINE_PEER];
    int fd = accept(h->listener, (struct sockaddr *)&from, &len);
    if (fd < 0 && (errno == EAGAIN || errno == EWOULDBLOCK || errno == EINTR || errno == ECONNABORTED)) {
        return false;
    }
    if (fd < 0 || !prepare(h, fd)) {
        say_as(SAY_DOOR);
        say("a client could not be admitted: %s. The next try is in a second; free memory or raise `ulimit -n`", strerror(errno));
        h->accept_after = h->now + ACCEPT_AGAIN;
        if (fd >= 0) {
            close(fd);
        }
        return false;
    }
    address_words(&from, peer, sizeof peer);
    welcome(h, fd, peer);
    return true;
}

/* ---- Waiting */

static uint64_t earlier(uint64_t one, uint64_t other)
{
    return one < other ? one : other;
}

/* How long nothing has to be done, in ms, if nothing comes. */
static int patience(const host *h)
{
    uint64_t next = h->now + LONGEST_WAIT;
    for (uint8_t c = 0; c < WELLACORN_CONNECTIONS; c++) {
        next = can_serve(h, c) || can_collect(h, c) ? h->now : earlier(next, login_next(&h->logins[c], h->now));
        next = line_is_open(&h->lines[c]) ? earlier(next, quiet_next(&h->quiet[c], &h->limits)) : next;
    }
    next = earlier(next, box_next(&h->box));
    next = earlier(next, guests_next(h->guests));
    next = h->options.simulate ? earlier(next, morning_next(&h->morning)) : next;
    next = earlier(next, io_next(&h->io, h->now));
    next = earlier(next, counts_next(&h->counts, &h->box));
    next = say_patience() < LONGEST_WAIT ? earlier(next, h->now + say_patience()) : next;
    next = h->accept_after > h->now ? earlier(next, h->accept_after) : next;
    return next <= h->now ? 0 : (int)(next - h->now);
}

static void watch(struct pollfd *place, int fd, short events)
{
    *place = (struct pollfd){.fd = fd, .events = events};
}

static void watch_all(const host *h, struct pollfd polled[POLLED])
{
    watch(&polled[AT_SIGNAL], signal_pipe[0], POLLIN);
    watch(&polled[AT_COMMANDS], h->commands.over ? -1 : h->commands.fd, POLLIN);
    watch(&polled[AT_PRINT], say_waits(), POLLOUT);
    watch(&polled[AT_IO_DOOR], h->io.door, POLLIN);
    watch(&polled[AT_IO_IN], h->io.in, POLLIN);
    watch(&polled[AT_IO_OUT], io_waits(&h->io) ? h->io.out : -1, POLLOUT);
    watch(&polled[AT_SAVER], h->counts.back, POLLIN);
    watch(&polled[AT_DOOR], h->accept_after > h->now ? -1 : h->listener, POLLIN);
    for (int c = 0; c < WELLACORN_CONNECTIONS; c++) {
        const line *l = &h->lines[c];
        bool reads = line_is_open(l) && line_reads(l);
        bool writes = line_is_open(l) && line_unsent(l) > 0;
        watch(&polled[AT_LINES + c], l->fd, (short)((reads ? POLLIN : 0) | (writes ? POLLOUT : 0)));
    }
    for (int i = 0; i < GUESTS; i++) {
        watch(&polled[AT_GUESTS + i], h->guests[i].fd, POLLIN);
    }
}

/* ---- A turn */

/* SIGHUP with a log file: it has been put away under another name. False: a signal that ends the box. */
static bool read_signals(host *h)
{
    char some[16];
    ssize_t n = read(signal_pipe[0], some, sizeof some);
    for (ssize_t i = 0; i < n; i++) {
        if (some[i] != SIGHUP || h->options.log == NULL) {
            h->hung_up = some[i] == SIGHUP;
            return false;
        }
        say_open_anew();
    }
    return true;
}

static bool read_commands(host *h)
{
    const char *peers[WELLACORN_CONNECTIONS];
    say_as(SAY_PERSON);
    for (int c = 0; c < WELLACORN_CONNECTIONS; c++) {
        peers[c] = line_is_open(&h->lines[c]) ? h->lines[c].peer : NULL;
    }
    return commands_read(&h->commands, &h->box, peers);
}

static void turn_lines(host *h, const struct pollfd polled[POLLED])
{
    for (uint8_t c = 0; c < WELLACORN_CONNECTIONS; c++) {
        if (line_is_open(&h->lines[c])) {
            read_line(h, c, polled[AT_LINES + c].revents);
        }
    }
    for (uint8_t c = 0; c < WELLACORN_CONNECTIONS; c++) {
        if (line_is_open(&h->lines[c])) {
            turn_line(h, c);
        }
    }
}

/* What the inputs have to tell, simulated or real, and the counts that come of it. */
static void turn_inputs(host *h, const struct pollfd polled[POLLED])
{
    say_as(SAY_BOX);
    if (h->options.simulate) {
        morning_turn(&h->morning, &h->box, h->now);
    }
    io_turn(&h->io, &h->box, h->now, polled[AT_IO_IN].revents != 0, polled[AT_IO_DOOR].revents != 0);
    say_as(SAY_BOX);
    counts_turn(&h->counts, &h->box, h->now, polled[AT_SAVER].revents != 0);
}

static void keep_trace(box *b)
{
    if (b->trace != NULL && (fflush(b->trace) != 0 || ferror(b->trace))) {
        say("the trace cannot be written any more: %s. It ends here; make room and start anew", strerror(errno));
        fclose(b->trace);
        b->trace = NULL;
    }
}

/* False: the box is to end. */
static bool turn(host *h)
{
    struct pollfd polled[POLLED];
    keep_trace(&h->box);
    say_write();
    tell_time(h);
    watch_all(h, polled);
    if (poll(polled, POLLED, patience(h)) < 0) {
        if (errno != EINTR) {
            say("the box cannot wait for its clients: %s. Raise `ulimit -n` to 32 or more and start it again", strerror(errno));
            h->failed = true;
            return false;
        }
        memset(polled, 0, sizeof polled);       /* a signal: the pipe tells the next poll */
    }
    tell_time(h);
    if ((polled[AT_SIGNAL].revents != 0 && !read_signals(h)) || (polled[AT_COMMANDS].revents != 0 && !read_commands(h))) {
        return false;
    }
    turn_inputs(h, polled);
    turn_lines(h, polled);
    for (int i = 0; i < GUESTS; i++) {
        guests_turn(&h->guests[i], h->now, polled[AT_GUESTS + i].revents != 0);
    }
    for (int i = 0; polled[AT_DOOR].revents != 0 && i < ADMITTED && admit(h);) {
        i++;
    }
    return true;
}

/* ---- Beginning and end */

static void pass_on(int number)
{
    int kept = errno;
    const char told = (char)number;
    if (write(signal_pipe[1], &told, 1) < 0) {
        /* it is full: the box has been told already */
    }
    errno = kept;
}

/* Whoever started the box with SIGHUP ignored (nohup) means it to outlive its terminal. */
static bool outlives_terminal(const options *o)
{
    struct sigaction before;
    return o->log == NULL && sigaction(SIGHUP, NULL, &before) == 0 && before.sa_handler == SIG_IGN;
}

/* A file that has grown too large is an error of its writing, no signal. */
static bool catch_signals(const options *o)
{
    const int caught[] = {SIGINT, SIGTERM, SIGHUP}, ignored[] = {SIGPIPE, SIGXFSZ};
    struct sigaction passed_on = {.sa_handler = pass_on}, nothing = {.sa_handler = SIG_IGN};
    bool good = pipe(signal_pipe) == 0;
    for (int end = 0; end < 2 && good; end++) {
        good = fcntl(signal_pipe[end], F_SETFL, O_NONBLOCK) == 0 && fcntl(signal_pipe[end], F_SETFD, FD_CLOEXEC) == 0;
        good = good && sigaction(ignored[end], &nothing, NULL) == 0;
    }
    for (int i = 0; i < (outlives_terminal(o) ? 2 : 3) && good; i++) {
        good = sigaction(caught[i], &passed_on, NULL) == 0;
    }
    return good;
}

static const char *listen_advice(int error)
{
    switch (error) {
    case EADDRINUSE:
        return "Another box may be running: end it, or choose another port, for example --listen 127.0.0.1:9201";
    case EADDRNOTAVAIL:
        return "This machine does not have that address: choose one that it has, or 0.0.0.0 for all";
    case EACCES:
        return "Choose a port from 1024 on: those below are the system's";
    default:
        return "Choose another address after --listen";
    }
}

static bool listen_at(host *h)
{
    int on = 1;
    char words[LINE_PEER];
    const options *o = &h->options;
    address_words(&o->address, words, sizeof words);
    h->listener = socket(o->address.ss_family, SOCK_STREAM, 0);
    if (h->listener < 0 || setsockopt(h->listener, SOL_SOCKET, SO_REUSEADDR, &on, sizeof on) != 0 ||
        bind(h->listener, (const struct sockaddr *)&o->address, o->address_len) != 0 || listen(h->listener, 16) != 0 ||
        fcntl(h->listener, F_SETFL, O_NONBLOCK) != 0 || fcntl(h->listener, F_SETFD, FD_CLOEXEC) != 0) {
        fprintf(stderr, "boxd: cannot listen on %s: %s. %s\n", words, strerror(errno), listen_advice(errno));
        return false;
    }
    return true;
}

static FILE *open_trace(const char *path)
{
    int fd = open(path, O_WRONLY | O_CREAT | O_TRUNC | O_CLOEXEC, S_IRUSR | S_IWUSR);
    FILE *trace = fd < 0 ? NULL : fdopen(fd, "w");
    if (trace == NULL) {
        fprintf(stderr, "boxd: the trace %s cannot be written: %s. Name another file after --trace\n", path, strerror(errno));
    }
    return trace;
}

static void greet(const host *h)
{
    struct sockaddr_storage at;
    socklen_t len = sizeof at;
    char words[LINE_PEER];
    getsockname(h->listener, (struct sockaddr *)&at, &len);
    address_words(&at, words, sizeof words);
    say("the box listens on %s", words);
    if (h->door.users != NULL) {
        say("clients log in: there %s %zu user%s", h->users.n == 1 ? "is" : "are", h->users.n, h->users.n == 1 ? "" : "s");
    } else {
        say("nobody has to log in: each client is an administrator%s",
            h->options.loopback ? "" : ", and others than this machine reach it. --users FILE asks for a login");
    }
    if (h->options.strict) {
        say("every connection is strict: a checksum of 0xFFFF does not pass unchecked");
    }
    if (h->options.simulate) {
        say("SIMULATED: fish rise at random, none of them is real");
    }
    say("commands: level K V, filled P, emptied P, state, quit");
}

/* Standard input and output are always something: no socket is to take their place. */
static void fill_standard(void)
{
    int fd;
    do {
        fd = open("/dev/null", O_RDWR);
    } while (fd >= 0 && fd <= STDERR_FILENO);
    close(fd);
}

/* Reads and opens the files that are named. False where one cannot be used: it has said so. */
static bool open_files(host *h)
{
    const options *o = &h->options;
    if (o->users != NULL && !users_read(&h->users, o->users)) {
        return false;
    }
    h->door.users = o->users == NULL ? NULL : &h->users;
    if (o->trace != NULL && (h->box.trace = open_trace(o->trace)) == NULL) {
        return false;
    }
    if (o->log != NULL && !say_open(o->log)) {
        fprintf(stderr, "boxd: the log %s cannot be written: %s. Name another file after --log\n", o->log, strerror(errno));
        return false;
    }
    return true;
}

static void tell_io(void *whom, const box *b)
{
    io_relays(whom, b);
}

static void power_up(host *h)
{
    clock_gettime(CLOCK_MONOTONIC, &h->start);
    box_power_up(&h->box, &h->options.settings, h->box.trace);
    h->box.switched = tell_io;
    h->box.whom = &h->io;
    morning_begin(&h->morning, h->options.seed, 0);
}

static bool begin(host *h)
{
    const options *o = &h->options;
    fill_standard();
    h->limits = (quiet_limits){.idle = o->idle * 1000, .login = o->users == NULL ? UINT64_MAX : o->login_time * 1000, .link = o->link_time * 1000};
    for (int c = 0; c < WELLACORN_CONNECTIONS; c++) {
        h->lines[c].fd = -1;
    }
    guests_begin(h->guests);
    commands_begin(&h->commands, STDIN_FILENO, true);
    if (!counts_begin(&h->counts, o->counts) || !open_files(h)) {
        return false;
    }
    if (!catch_signals(o)) {
        fprintf(stderr, "boxd: signals cannot be caught: %s. Raise `ulimit -n` or end other programs\n", strerror(errno));
        return false;
    }
    if (!listen_at(h) || !io_begin(&h->io, o->io_command, o->io_socket)) {
        return false;
    }
    power_up(h);
    if (!counts_restore(&h->counts, &h->box)) {
        return false;
    }
    greet(h);
    return true;
}

static void end(host *h)
{
    for (uint8_t c = 0; c < WELLACORN_CONNECTIONS; c++) {
        if (line_is_open(&h->lines[c])) {
            line_write(&h->lines[c]);
            close_line(h, c, "the box ends");
        }
    }
    guests_end(h->guests);
    close(h->listener);
    say_as(SAY_PERSON);
    io_end(&h->io);
    counts_end(&h->counts, &h->box);
    keep_trace(&h->box);
    if (h->box.trace != NULL) {
        fclose(h->box.trace);
    }
    say_end();                  /* so that there is room for the last line */
    say("the box has ended");
    say_end();
}

int main(int argc, char **argv)
{
    static host h;
    options_came came_to = options_read(&h.options, argc, argv);
    if (came_to != OPTIONS_GOOD) {
        return came_to == OPTIONS_DONE ? EXIT_SUCCESS : EXIT_FAILURE;
    }
    if (!begin(&h)) {
        return EXIT_FAILURE;
    }
    while (turn(&h)) {
    }
    end(&h);
    if (h.hung_up) {            /* it has ended in order, and says all the same by what */
        signal(SIGHUP, SIG_DFL);
        raise(SIGHUP);
    }
    return h.failed ? EXIT_FAILURE : EXIT_SUCCESS;
}
