/* What the host says, without ever waiting for its reader, and never without an end. */
#define _POSIX_C_SOURCE 200809L

#include "say.h"

#include <errno.h>
#include <fcntl.h>
#include <poll.h>
#include <stdarg.h>
#include <stddef.h>
#include <stdio.h>
#include <string.h>
#include <sys/stat.h>
#include <time.h>
#include <unistd.h>

enum {
    KEPT = 1 << 17,         /* bytes that wait at most */
    LONGEST = 1024,         /* of a line; a longer one is cut */
    PART = 512,             /* bytes written at a time: what a pipe or terminal that is ready takes without waiting (_POSIX_PIPE_BUF) */
    PATIENCE = 1000,        /* ms at the end */
    AGAIN = 1000,           /* ms until the next try, where the disk took nothing */
    MINUTE = 60000,         /* ms */
    BOX_LINES = 1200,       /* lines a minute */
    DOOR_LINES = 240,
    LOGIN_LINES = 120,
    KNOWN_LINES = 300,      /* a panel takes 180 */
    STRANGER_LINES = 60
};

/* ---- What waits to be written */

static char kept[KEPT];
static size_t from, to;             /* what waits stands between them */
static unsigned long left_out;      /* lines that did not fit */
static int fault;                   /* why the last try wrote nothing; 0: it wrote, or nobody reads */
static uint64_t not_before;         /* ms: the next try */
static bool gone;                   /* nobody can read it any more */
static int file = STDOUT_FILENO;
static const char *file_path;       /* NULL: standard output */

static uint64_t now_ms(void)
{
    struct timespec t;
    clock_gettime(CLOCK_MONOTONIC, &t);
    return (uint64_t)t.tv_sec * 1000 + (uint64_t)t.tv_nsec / 1000000;
}

/* Room behind what waits. */
static size_t room(void)
{
    if (from > 0) {
        memmove(kept, kept + from, to - from);
        to -= from;
        from = 0;
    }
    return KEPT - to;
}

static void keep(const char *text, size_t n)
{
    memcpy(kept + to, text, n);
    to += n;
}

static size_t date_and_time(char *text, size_t size)
{
    time_t now = time(NULL);
    struct tm local;
    return localtime_r(&now, &local) == NULL ? 0 : strftime(text, size, "%Y-%m-%d %H:%M:%S ", &local);
}

/* Says how many lines are missing, in the place where they are. */
static void tell_left_out(void)
{
    char line[LONGEST];
    size_t n = date_and_time(line, sizeof line);
    const char *why = fault != 0 ? strerror(fault) : file_path != NULL ? "it took no more" : "standard output was not read";
    snprintf(line + n, sizeof line - n, "(%lu lines were left out here: %s)\n", left_out, why);
    keep(line, strlen(line));
    left_out = 0;
}

/* Keeps a line, if there is room for it and for the one that says what is missing. */
static void keep_line(const char *format, va_list args)
{
    char line[LONGEST];
    size_t n = date_and_time(line, sizeof line);
    if (vsnprintf(line + n, sizeof line - n - 1, format, args) < 0 || gone) {
        return;
    }
    if (KEPT - to < 2 * LONGEST && room() < 2 * LONGEST) {
        left_out++;
        return;
    }
    if (left_out > 0) {
        tell_left_out();
    }
    n = strlen(line);
    line[n++] = '\n';
    keep(line, n);
}

static void keep_words(const char *format, ...) SAY_FORMAT(1);

static void keep_words(const char *format, ...)
{
    va_list args;
    va_start(args, format);
    keep_line(format, args);
    va_end(args);
}

/* ---- How much each source may say */

typedef struct {
    unsigned most;              /* lines a minute; 0: as many as there are */
    unsigned said;              /* in this minute */
    unsigned long held_back;    /* in this minute */
} budget;

static budget budgets[SAY_SOURCES] = {
    [SAY_BOX] = {.most = BOX_LINES},
    [SAY_DOOR] = {.most = DOOR_LINES},
    [SAY_LOGINS] = {.most = LOGIN_LINES},
    [SAY_CONNECTION] = {.most = STRANGER_LINES},
    [SAY_CONNECTION + 1] = {.most = STRANGER_LINES},
    [SAY_CONNECTION + 2] = {.most = STRANGER_LINES},
    [SAY_CONNECTION + 3] = {.most = STRANGER_LINES},
};
static say_source speaker = SAY_PERSON;
static uint64_t minute_end;     /* ms */

static void tell_held_back(int source)
{
    static const char *const names[] = {"", "the box", "clients that come and go", "logins"};
    unsigned long n = budgets[source].held_back;
    if (source >= SAY_CONNECTION) {
        keep_words("connection %d: %lu more lines within a minute were left out here", source - SAY_CONNECTION, n);
    } else {
        keep_words("%s: %lu more lines within a minute were left out here", names[source], n);
    }
}

/* Begins the next minute, if it is over. */
static void turn_minute(void)
{
    uint64_t now = now_ms();
    if (now < minute_end) {
        return;
    }
    minute_end = now + MINUTE;
    for (int source = 0; source < SAY_SOURCES; source++) {
        if (budgets[source].held_back > 0) {
            tell_held_back(source);
        }
        budgets[source].said = 0;
        budgets[source].held_back = 0;
    }
}

static bool may_say(void)
{
    budget *b = &budgets[speaker];
    turn_minute();
    if (b->most > 0 && b->said >= b->most) {
        b->held_back++;
        return false;
    }
    b->said++;
    return true;
}

void say_left_out(uint8_t c)
{
    budget *b = &budgets[SAY_CONNECTION + c];
    if (b->held_back > 0 && may_say()) {
        tell_held_back(SAY_CONNECTION + c);
        b->held_back = 0;
    }
}

say_source say_as(say_source source)
{
    say_source before = speaker;
    speaker = source;
    return before;
}

void say_known(uint8_t c, bool known)
{
    budgets[SAY_CONNECTION + c].most = known ? KNOWN_LINES : STRANGER_LINES;
}

void say(const char *format, ...)
{
    va_list args;
    if (!may_say()) {
        return;
    }
    va_start(args, format);
    keep_line(format, args);
    va_end(args);
}

/* ---- The log file */

static int open_file(const char *path)
{
    return open(path, O_WRONLY | O_APPEND | O_CREAT | O_CLOEXEC, S_IRUSR | S_IWUSR | S_IRGRP);
}

bool say_open(const char *path)
{
    int opened = open_file(path);
    if (opened >= 0) {
        file = opened;
        file_path = path;
    }
    return opened >= 0;
}

void say_open_anew(void)
{
    int opened = file_path == NULL ? -1 : open_file(file_path);
    if (file_path == NULL) {
        return;
    }
    if (opened < 0) {
        say("the log %s cannot be opened anew: %s. It goes on in the file that is open", file_path, strerror(errno));
        return;
    }
    close(file);
    file = opened;
    not_before = 0;
}

/* ---- Writing */

static bool has_something(void)
{
    return !gone && (to > from || left_out > 0);
}

int say_waits(void)
{
    return has_something() && now_ms() >= not_before ? file : -1;
}

static bool ready(int timeout)
{
    struct pollfd out = {.fd = file, .events = POLLOUT};
    return poll(&out, 1, timeout) == 1;
}

/* A pipe that nobody reads any more stays so. Of everything else a later try may find it mended: a disk has room again. */
static void write_part(void)
{
    size_t n = to - from < PART ? to - from : PART;
    ssize_t done = write(file, kept + from, n);
    if (done >= 0) {
        from += (size_t)done;
    } else if (errno == EPIPE || errno == EBADF) {
        gone = true;
    } else if (errno != EINTR && errno != EAGAIN) {
        fault = errno;
        not_before = now_ms() + AGAIN;
    }
    if (from == to) {
        from = to = 0;
    }
}

/* Writes while it becomes ready within so many ms. */
static void write_within(int timeout)
{
    while (say_waits() >= 0 && ready(timeout)) {
        if (to == from) {
            tell_left_out();
        }
        write_part();
    }
    if (!has_something()) {
        fault = 0;
    }
}

void say_write(void)
{
    turn_minute();
    write_within(0);
}

uint64_t say_patience(void)
{
    uint64_t now = now_ms(), next = UINT64_MAX;
    for (int source = 0; source < SAY_SOURCES; source++) {
        next = budgets[source].held_back > 0 ? minute_end : next;
    }
    if (has_something() && not_before > now && not_before < next) {
        next = not_before;
    }
    return next == UINT64_MAX ? next : next > now ? next - now : 0;
}

void say_end(void)
{
    write_within(PATIENCE);
}
