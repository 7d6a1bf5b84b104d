/* Inputs and outputs for real: the lines, the command, the socket. */
#define _DEFAULT_SOURCE

#include "io.h"

#include "say.h"

#include <errno.h>
#include <fcntl.h>
#include <signal.h>
#include <stdio.h>
#include <string.h>
#include <sys/socket.h>
#include <sys/stat.h>
#include <sys/un.h>
#include <sys/wait.h>
#include <time.h>
#include <unistd.h>

enum {
    RELAY_LINE = 16,            /* bytes of a line at most */
    PAUSE_FIRST = 1000,         /* ms until a command that has ended is started again; each time twice as long */
    PAUSE_MOST = 30000,
    STEADY = 60000,             /* ms: one that ran so long is started again soon */
    LOOK_AGAIN = 20,            /* ms between two looks whether it has ended */
    PATIENCE = 1000             /* ms that it has to end */
};

/* ---- What it is told */

static bool is_there(const box *b, unsigned relay)
{
    return relay <= WELLACORN_CHANNELS || box_is_filled(b, box_place_of(relay));
}

/* Makes room at the end of what waits. Whether there is enough for a line. */
static bool has_room(io *i)
{
    if (i->from > 0) {
        memmove(i->lines, i->lines + i->from, i->to - i->from);
        i->to -= i->from;
        i->from = 0;
    }
    return IO_LINES - i->to >= RELAY_LINE;
}

static void queue_relay(io *i, unsigned relay, bool closed)
{
    const unsigned bit = 1u << (relay - 1);
    i->to += (size_t)snprintf(i->lines + i->to, RELAY_LINE, "relay %u %u\n", relay, closed);
    i->told |= bit;
    i->closed = closed ? i->closed | bit : i->closed & ~bit;
}

/* A relay whose module is pulled is told open if it was closed, and told of again when a module comes. Where there is no room for a line it is told
 * later, as it is then. */
void io_relays(io *i, const box *b)
{
    for (unsigned relay = 1; i->out >= 0 && relay <= WELLACORN_RELAYS; relay++) {
        const unsigned bit = 1u << (relay - 1);
        bool closed = b->lent.board.relays[relay - 1].closed != 0, there = is_there(b, relay);
        bool differs = (i->told & bit) == 0 ? there : closed != ((i->closed & bit) != 0);
        if (differs && has_room(i)) {
            queue_relay(i, relay, closed);
        }
        if (!there && (i->closed & bit) == 0) {
            i->told &= ~bit;
        }
    }
}

bool io_waits(const io *i)
{
    return i->out >= 0 && i->to > i->from;
}

/* ---- The program comes and goes */

static void came_to_it(io *i, const box *b, int in, int out)
{
    fcntl(in, F_SETFL, O_NONBLOCK);
    fcntl(out, F_SETFL, O_NONBLOCK);
    i->in = in;
    i->out = out;
    i->from = i->to = 0;
    i->told = i->closed = 0;
    commands_begin(&i->commands, in, false);
    io_relays(i, b);
}

static void shut(io *i)
{
    if (i->out != i->in) {
        close(i->out);
    }
    close(i->in);
    i->in = i->out = -1;
}

static void goes(io *i, uint64_t now)
{
    shut(i);
    if (i->pid > 0) {
        kill(-i->pid, SIGTERM);
        i->next = now + PATIENCE;
    } else {
        say("the program at %s has gone: the inputs are not read until it comes again", i->path);
    }
}

/* ---- The command */

static void become(const char *command, int in, int out)
{
    struct sigaction usual = {.sa_handler = SIG_DFL};
    setpgid(0, 0);
    sigaction(SIGPIPE, &usual, NULL);       /* what the host ignores */
    sigaction(SIGXFSZ, &usual, NULL);
    dup2(in, STDIN_FILENO);
    dup2(out, STDOUT_FILENO);
    execl("/bin/sh", "sh", "-c", command, (char *)NULL);
    _exit(127);
}

/* Two pipes; none of them stays open in other programs. */
static bool make_pipes(int to[2], int back[2])
{
    if (pipe(to) != 0) {
        return false;
    }
    if (pipe(back) != 0) {
        close(to[0]);
        close(to[1]);
        return false;
    }
    for (int end = 0; end < 2; end++) {
        fcntl(to[end], F_SETFD, FD_CLOEXEC);
        fcntl(back[end], F_SETFD, FD_CLOEXEC);
    }
    return true;
}

static void start_command(io *i, const box *b, uint64_t now)
{
    int to[2], back[2];
    i->next = now + i->pause;
    if (!make_pipes(to, back)) {
        say("the command of --io cannot be started: %s. It is tried again", strerror(errno));
        return;
    }
    i->pid = fork();
    if (i->pid == 0) {
        become(i->command, to[0], back[1]);
    }
    close(to[0]);
    close(back[1]);
    if (i->pid < 0) {
        say("the command of --io cannot be started: %s. It is tried again", strerror(errno));
        i->pid = 0;
        close(to[1]);
        close(back[0]);
        return;
    }
    setpgid(i->pid, i->pid);
    i->began = now;
    i->next = UINT64_MAX;
    came_to_it(i, b, back[0], to[1]);
}

static void tell_end(const io *i, int status)
{
    if (WIFSIGNALED(status)) {
        say("the command of --io was ended by signal %d: the inputs are not read. It is started again in %u s", WTERMSIG(status),
            (unsigned)(i->pause / 1000));
    } else {
        say("the command of --io has ended with status %d: the inputs are not read. It is started again in %u s", WEXITSTATUS(status),
            (unsigned)(i->pause / 1000));
    }
}

/* The command has closed its output: it is to end, by force if need be, and is started again. */
static void await_end(io *i, uint64_t now)
{
    int status;
    if (waitpid(i->pid, &status, WNOHANG) != i->pid) {
        if (now >= i->next) {
            kill(-i->pid, SIGKILL);
            i->next = now + PATIENCE;
        }
        return;
    }
    i->pid = 0;
    i->pause = now - i->began >= STEADY ? PAUSE_FIRST : i->pause;
    tell_end(i, status);
    i->next = now + i->pause;
    i->pause = 2 * i->pause < PAUSE_MOST ? 2 * i->pause : PAUSE_MOST;
}

/* ---- The socket */

/* A socket that is left over from an earlier run and that nobody listens on goes away. */
static void clear_path(const struct sockaddr_un *at)
{
    struct stat about;
    if (lstat(at->sun_path, &about) != 0 || !S_ISSOCK(about.st_mode)) {
        return;
    }
    int fd = socket(AF_UNIX, SOCK_STREAM, 0);
    if (fd >= 0 && connect(fd, (const struct sockaddr *)at, sizeof *at) != 0 && errno == ECONNREFUSED) {
        unlink(at->sun_path);
    }
    close(fd);
}

static bool open_door(io *i)
{
    struct sockaddr_un at = {.sun_family = AF_UNIX};
    if (strlen(i->path) >= sizeof at.sun_path) {
        fprintf(stderr, "boxd: the path %s is too long for a socket. Choose a shorter one after --io-socket\n", i->path);
        return false;
    }
    strcpy(at.sun_path, i->path);
    clear_path(&at);
    mode_t before = umask(S_IRWXG | S_IRWXO);
    i->door = socket(AF_UNIX, SOCK_STREAM, 0);
    bool good = i->door >= 0 && bind(i->door, (const struct sockaddr *)&at, sizeof at) == 0 && listen(i->door, 4) == 0;
    umask(before);
    if (!good) {
        fprintf(stderr, "boxd: there cannot be a socket %s: %s. Another box may use it: end it, or choose another path after --io-socket\n",
                i->path, strerror(errno));
        return false;
    }
    return fcntl(i->door, F_SETFL, O_NONBLOCK) == 0 && fcntl(i->door, F_SETFD, FD_CLOEXEC) == 0;
}

static void answer_door(io *i, const box *b)
{
    int fd = accept(i->door, NULL, NULL);
    if (fd < 0) {
        return;
    }
    fcntl(fd, F_SETFD, FD_CLOEXEC);
    if (i->in >= 0) {
        say("a second program came to %s and was turned away: the inputs have one source", i->path);
        close(fd);
        return;
    }
    say("the program that knows the inputs has come to %s", i->path);
    came_to_it(i, b, fd, fd);
}

/* ---- Turns */

bool io_begin(io *i, const char *command, const char *path)
{
    *i = (io){.command = command, .path = path, .door = -1, .in = -1, .out = -1, .pause = PAUSE_FIRST, .next = command == NULL ? UINT64_MAX : 0};
    return path == NULL || open_door(i);
}

/* A command may tell the inputs and not care for the relays: it has closed its standard input, and still runs. */
static void tells_only(io *i)
{
    say("the command of --io takes no lines any more: it is not told of relays until it is started again");
    close(i->out);
    i->out = -1;
}

/* Writes what it takes now. False where it takes nothing any more. */
static bool write_lines(io *i)
{
    while (io_waits(i)) {
        ssize_t n = write(i->out, i->lines + i->from, i->to - i->from);
        if (n < 0) {
            return errno == EAGAIN || errno == EWOULDBLOCK || errno == EINTR;
        }
        i->from += (size_t)n;
    }
    return true;
}

void io_turn(io *i, box *b, uint64_t now, bool reads, bool knocks)
{
    if (i->in >= 0 && reads) {
        commands_read(&i->commands, b, NULL);
    }
    io_relays(i, b);
    bool takes = write_lines(i);
    if (i->in >= 0 && (i->commands.over || (!takes && i->pid == 0))) {
        goes(i, now);
    } else if (!takes) {
        tells_only(i);
    }
    if (i->pid > 0 && i->in < 0) {
        await_end(i, now);
    }
    if (i->command != NULL && i->pid == 0 && now >= i->next) {
        start_command(i, b, now);
    }
    if (knocks) {
        answer_door(i, b);
    }
    io_relays(i, b);            /* there is room again, and what found none is told now */
    write_lines(i);
}

uint64_t io_next(const io *i, uint64_t now)
{
    bool ends = i->pid > 0 && i->in < 0;
    return ends ? now + LOOK_AGAIN : i->command != NULL && i->pid == 0 ? i->next : UINT64_MAX;
}

void io_end(io *i)
{
    const struct timespec look_again = {.tv_nsec = LOOK_AGAIN * 1000000L};
    if (i->in >= 0) {
        shut(i);
    }
    if (i->pid > 0) {
        kill(-i->pid, SIGTERM);
    }
    for (int waited = 0; i->pid > 0 && waitpid(i->pid, NULL, WNOHANG) == 0; waited += LOOK_AGAIN) {
        if (waited >= PATIENCE) {
            kill(-i->pid, SIGKILL);
        }
        nanosleep(&look_again, NULL);
    }
    if (i->door >= 0) {
        close(i->door);
        unlink(i->path);
    }
}
