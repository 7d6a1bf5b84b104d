/* Counts over a power failure: the file, the saver, the message that writes them back. */
#define _DEFAULT_SOURCE

#include "counts.h"

#include "numbers.h"
#include "say.h"

#include <errno.h>
#include <fcntl.h>
#include <inttypes.h>
#include <libgen.h>
#include <limits.h>
#include <poll.h>
#include <signal.h>
#include <stdio.h>
#include <stdlib.h>
#include <string.h>
#include <sys/stat.h>
#include <sys/wait.h>
#include <unistd.h>

enum {
    PAUSE = 1000,           /* ms from one saving to the next */
    PATIENCE = 5000,        /* ms for the last one */
    OPEN_FILES = 1024,      /* more than the host has */
    LINE = 128,
    WRITE_DEVICES = 23,
    WRITTEN = 24,
    WRITE_COUNT = 2,        /* the flag */
    ENTRY = 15              /* bytes: ID, length, flags, count */
};

/* ---- The file: a line `input K count N` for each input */

/* What is wrong with a line; NULL: nothing. */
static const char *read_line(const char *text, uint64_t values[WELLACORN_CHANNELS], bool found[WELLACORN_CHANNELS])
{
    char input[LINE], count[LINE], more[LINE];
    uint64_t k, n;
    if (text[0] == '#' || text[strspn(text, " \t\r\n")] == 0) {
        return NULL;
    }
    if (sscanf(text, " input %127s count %127s %127s", input, count, more) != 2) {
        return "a line is `input K count N`";
    }
    if (!number_read(input, WELLACORN_CHANNELS, &k) || k == 0) {
        return "inputs have the numbers 1 to 8";
    }
    if (!number_read(count, UINT32_MAX, &n)) {
        return "a count is a number up to 4294967295";
    }
    if (found[k - 1]) {
        return "this input stands in an earlier line too";
    }
    values[k - 1] = n;
    found[k - 1] = true;
    return NULL;
}

static bool read_lines(const char *path, FILE *file, uint64_t values[WELLACORN_CHANNELS])
{
    bool found[WELLACORN_CHANNELS] = {false};
    char text[LINE];
    const char *wrong = NULL;
    unsigned number = 0;
    while (wrong == NULL && fgets(text, sizeof text, file) != NULL) {
        number++;
        wrong = read_line(text, values, found);
    }
    if (wrong != NULL) {
        fprintf(stderr, "boxd: the counts file %s, line %u: %s. Mend it, or take it away to begin at 0\n", path, number, wrong);
        return false;
    }
    for (int k = 0; k < WELLACORN_CHANNELS; k++) {
        if (!found[k] || ferror(file)) {
            fprintf(stderr, "boxd: the counts file %s has no count of input %d. Mend it, or take it away to begin at 0\n", path, k + 1);
            return false;
        }
    }
    return true;
}

/* A file that is not there is the first start. */
static bool read_file(counts *k)
{
    FILE *file = fopen(k->path, "r");
    if (file == NULL && errno == ENOENT) {
        return true;
    }
    if (file == NULL) {
        fprintf(stderr, "boxd: the counts file %s cannot be read: %s. Name another after --counts\n", k->path, strerror(errno));
        return false;
    }
    bool good = read_lines(k->path, file, k->saved);
    fclose(file);
    return good;
}

/* ---- The saver */

/* Writes and brings to the disk. 0, or errno. */
static int write_whole(const char *path, const uint64_t values[WELLACORN_CHANNELS])
{
    int fd = open(path, O_WRONLY | O_CREAT | O_TRUNC, S_IRUSR | S_IWUSR | S_IRGRP);
    FILE *file = fd < 0 ? NULL : fdopen(fd, "w");
    if (file == NULL) {
        return errno;
    }
    fputs("# The counts of the box. boxd writes this file; change it only while boxd is stopped.\n", file);
    for (int k = 0; k < WELLACORN_CHANNELS; k++) {
        fprintf(file, "input %d count %" PRIu64 "\n", k + 1, values[k]);
    }
    bool good = fflush(file) == 0 && fsync(fd) == 0;
    int why = good ? 0 : errno;
    return fclose(file) == 0 || !good ? why : errno;
}

/* The new name of a file is on the disk when its folder is. */
static int sync_folder(const char *path)
{
    char folder[PATH_MAX];
    snprintf(folder, sizeof folder, "%s", path);
    int fd = open(dirname(folder), O_RDONLY | O_DIRECTORY);
    int why = fd < 0 || fsync(fd) != 0 ? errno : 0;
    close(fd);
    return why;
}

static int save(const char *path, const uint64_t values[WELLACORN_CHANNELS])
{
    char fresh[PATH_MAX];
    if (snprintf(fresh, sizeof fresh, "%s.new", path) >= (int)sizeof fresh) {
        return ENAMETOOLONG;
    }
    int why = write_whole(fresh, values);
    if (why != 0) {
        return why;
    }
    return rename(fresh, path) != 0 ? errno : sync_folder(path);
}

/* It ends when the host does. */
static void be_saver(const char *path, int in, int out)
{
    uint64_t values[WELLACORN_CHANNELS];
    for (int fd = 0; fd < OPEN_FILES; fd++) {
        if (fd != in && fd != out) {
            close(fd);
        }
    }
    while (read(in, values, sizeof values) == (ssize_t)sizeof values) {
        int why = save(path, values);
        if (write(out, &why, sizeof why) != (ssize_t)sizeof why) {
            break;
        }
    }
    _exit(0);
}

/* A saver, or -1. Signals that end the host are blocked in it from its first moment on: a service is ended by a signal to all of its processes, and
 * the host still has the last counts to give. */
static pid_t fork_saver(const char *path, int in, int out)
{
    sigset_t ending, before;
    sigemptyset(&ending);
    sigaddset(&ending, SIGTERM);
    sigaddset(&ending, SIGINT);
    sigaddset(&ending, SIGHUP);
    sigprocmask(SIG_BLOCK, &ending, &before);
    pid_t pid = fork();
    if (pid == 0) {
        be_saver(path, in, out);
    }
    sigprocmask(SIG_SETMASK, &before, NULL);
    return pid;
}

/* There is no saver any more. */
static void leave_saver(counts *k)
{
    close(k->to);
    close(k->back);
    k->to = k->back = -1;
    k->pid = 0;
}

static bool start_saver(counts *k)
{
    int to[2] = {-1, -1}, back[2] = {-1, -1};
    bool piped = pipe(to) == 0 && pipe(back) == 0;
    k->pid = piped ? fork_saver(k->path, to[0], back[1]) : -1;
    int why = errno;
    close(to[0]);
    close(back[1]);
    k->to = to[1];
    k->back = back[0];
    if (k->pid <= 0) {
        leave_saver(k);
        errno = why;
        return false;
    }
    return fcntl(k->to, F_SETFD, FD_CLOEXEC) == 0 && fcntl(k->back, F_SETFD, FD_CLOEXEC) == 0;
}

bool counts_begin(counts *k, const char *path)
{
    *k = (counts){.path = path, .to = -1, .back = -1};
    if (path == NULL) {
        return true;
    }
    if (!read_file(k)) {
        return false;
    }
    int why = save(path, k->saved);
    if (why != 0) {
        fprintf(stderr, "boxd: the counts file %s cannot be written: %s. Name another after --counts\n", path, strerror(why));
        return false;
    }
    if (!start_saver(k)) {
        fprintf(stderr, "boxd: the counts cannot be kept: %s. Raise `ulimit -n`, end other programs, or leave --counts out\n", strerror(errno));
        return false;
    }
    return true;
}

/* ---- Back to the box */

/* 001, WriteDevices: for each input its ID, the block's length, the flag and the count. Gives the content's length. */
static size_t write_devices(uint8_t *content, const uint64_t values[WELLACORN_CHANNELS])
{
    uint8_t *p = number_put(content, 1, WRITE_DEVICES);
    p = number_put(p, 2, WELLACORN_CHANNELS);
    for (uint64_t k = 1; k <= WELLACORN_CHANNELS; k++) {
        p = number_put(p, 8, 0x100 * k + 0xFF);
        p = number_put(p, 2, 5);
        p = number_put(p, 1, WRITE_COUNT);
        p = number_put(p, 4, values[k - 1]);
    }
    return (size_t)(p - content);
}

bool counts_restore(counts *k, box *b)
{
    enum { CONTENT = 3 + WELLACORN_CHANNELS * ENTRY };
    static const uint8_t all_written[] = {WRITTEN, 0, WELLACORN_CHANNELS};
    uint8_t content[CONTENT], frame[5 + CONTENT];
    if (k->path == NULL) {
        return true;
    }
    size_t n = frame_of(frame, content, write_devices(content, k->saved));
    box_connect(b, 0, 1, true);
    came it = box_bytes(b, 0, frame, n);
    box_close(b, 0);
    if (it.done.answer != WELLACORN_SERVED || it.done.len != 5 + sizeof all_written || memcmp(b->reply + 5, all_written, sizeof all_written) != 0) {
        fprintf(stderr, "boxd: the box did not take the counts of %s (%u). Mend the file, or leave --counts out\n", k->path, it.done.answer);
        return false;
    }
    say("the counts of %s: %" PRIu64 " %" PRIu64 " %" PRIu64 " %" PRIu64 " %" PRIu64 " %" PRIu64 " %" PRIu64 " %" PRIu64, k->path, k->saved[0],
        k->saved[1], k->saved[2], k->saved[3], k->saved[4], k->saved[5], k->saved[6], k->saved[7]);
    return true;
}

/* ---- Turns */

static bool has_changed(const counts *k, const box *b)
{
    for (int i = 0; i < WELLACORN_CHANNELS; i++) {
        if (b->lent.board.inputs[i].count != k->saved[i]) {
            return true;
        }
    }
    return false;
}

/* What is given fits into a pipe that is empty, so this does not wait. Where there was no room for a saver, there may be now. */
static void give(counts *k, const box *b, uint64_t now)
{
    k->not_before = now + PAUSE;
    if (k->pid == 0 && !start_saver(k)) {
        return;
    }
    for (int i = 0; i < WELLACORN_CHANNELS; i++) {
        k->given[i] = b->lent.board.inputs[i].count;
    }
    k->busy = write(k->to, k->given, sizeof k->given) == (ssize_t)sizeof k->given;
}

static void tell_how_it_went(counts *k, int why)
{
    if (why != 0 && !k->failing) {
        say("the counts cannot be saved to %s: %s. It is tried again each second; until then a power failure loses them", k->path, strerror(why));
    } else if (why == 0 && k->failing) {
        say("the counts are saved to %s again", k->path);
    }
    k->failing = why != 0;
}

/* The saver has ended by itself: somebody has ended it. Another is started in its place when there is something to give. */
static void lose_saver(counts *k)
{
    pid_t pid = k->pid;
    tell_how_it_went(k, EPIPE);
    leave_saver(k);
    waitpid(pid, NULL, 0);
}

static void hear_saver(counts *k)
{
    int why;
    ssize_t n = read(k->back, &why, sizeof why);
    k->busy = false;
    if (n != (ssize_t)sizeof why) {
        lose_saver(k);
        return;
    }
    tell_how_it_went(k, why);
    if (why == 0) {
        memcpy(k->saved, k->given, sizeof k->saved);
    }
}

void counts_turn(counts *k, const box *b, uint64_t now, bool ready)
{
    if (k->path == NULL) {
        return;
    }
    if (ready) {
        hear_saver(k);
    }
    if (!k->busy && now >= k->not_before && has_changed(k, b)) {
        give(k, b, now);
    }
}

uint64_t counts_next(const counts *k, const box *b)
{
    return k->path == NULL || k->busy || !has_changed(k, b) ? UINT64_MAX : k->not_before;
}

/* Waits for the saver's answer, if it owes one. Whether it came. */
static bool await_saver(counts *k)
{
    struct pollfd back = {.fd = k->back, .events = POLLIN};
    if (k->busy && poll(&back, 1, PATIENCE) == 1) {
        hear_saver(k);
    }
    return !k->busy;
}

void counts_end(counts *k, const box *b)
{
    if (k->path == NULL) {
        return;
    }
    if (await_saver(k) && has_changed(k, b)) {
        give(k, b, 0);
        await_saver(k);
    }
    if (has_changed(k, b)) {
        say("the last counts could not be saved to %s", k->path);
    }
    leave_saver(k);
}
