/* A client that keeps boxd busy over loopback, and says what that costs it.
 *
 *     load PID PORT BATCH MESSAGES
 *
 * Asks the boxd of that process, on that port of this machine, for the clock, BATCH requests a write, and waits for their replies before the
 * next write. Prints the processor time that boxd took a message, in microseconds, and how much of it in the system: "2.51 1.96".
 */
#define _POSIX_C_SOURCE 200809L

#include "wellacorn.h"

#include <arpa/inet.h>
#include <netinet/in.h>
#include <netinet/tcp.h>
#include <stdbool.h>
#include <stdio.h>
#include <stdlib.h>
#include <string.h>
#include <sys/socket.h>
#include <time.h>
#include <unistd.h>

enum { HEADER = 5, REQUEST = HEADER + 3, REPLY = HEADER + 9, MOST = 256, IN = 65536, CLOCK_TYPE = 6 };

static void fail(const char *what)
{
    perror(what);
    exit(EXIT_FAILURE);
}

/* ---- Processor time */

/* Of the other process, as the system counts it. */
static double busy(pid_t pid)
{
    clockid_t clock;
    struct timespec t;
    if (clock_getcpuclockid(pid, &clock) != 0 || clock_gettime(clock, &t) != 0) {
        fail("load: the time of that process");
    }
    return (double)t.tv_sec + 1e-9 * (double)t.tv_nsec;
}

/* The share of it in the system, by the process's own file: its 15th word, of ticks. The name, in brackets, may have spaces. */
static double busy_in_system(pid_t pid)
{
    char path[64], text[1024];
    snprintf(path, sizeof path, "/proc/%ld/stat", (long)pid);
    FILE *f = fopen(path, "r");
    if (f == NULL) {
        fail("load: the file of that process");
    }
    size_t n = fread(text, 1, sizeof text - 1, f);
    fclose(f);
    text[n] = 0;
    char *word = strrchr(text, ')');
    for (int i = 2; i < 15 && word != NULL; i++) {
        word = strchr(word + 1, ' ');
    }
    return word == NULL ? 0 : strtod(word, NULL) / (double)sysconf(_SC_CLK_TCK);
}

/* ---- Messages */

/* Message type 5: a request for the clock is 0, to turn Monitor off 4. */
static void request(uint8_t frame[REQUEST], uint8_t asked)
{
    frame[HEADER] = 5;
    frame[HEADER + 1] = 0;
    frame[HEADER + 2] = asked;
    wellacorn_frame(frame, frame + HEADER, REQUEST - HEADER);
}

static int connected(uint16_t port)
{
    struct sockaddr_in to = {.sin_family = AF_INET, .sin_port = htons(port), .sin_addr = {.s_addr = htonl(INADDR_LOOPBACK)}};
    int s = socket(AF_INET, SOCK_STREAM, 0);
    int on = 1;
    if (s < 0 || connect(s, (struct sockaddr *)&to, sizeof to) != 0 || setsockopt(s, IPPROTO_TCP, TCP_NODELAY, &on, sizeof on) != 0) {
        fail("load: connecting");
    }
    return s;
}

static void put_all(int s, const uint8_t *bytes, size_t n)
{
    for (size_t at = 0; at < n;) {
        ssize_t sent = send(s, bytes + at, n - at, 0);
        if (sent <= 0) {
            fail("load: sending");
        }
        at += (size_t)sent;
    }
}

static void take_all(int s, uint8_t *bytes, size_t n)
{
    for (size_t at = 0; at < n;) {
        ssize_t got = recv(s, bytes + at, n - at, 0);
        if (got <= 0) {
            fail("load: receiving");
        }
        at += (size_t)got;
    }
}

/* Monitor off, and all that was on its way read: up to the reply to a request for the clock. */
static void quiet(int s)
{
    uint8_t frame[HEADER + 65535];
    request(frame, 4);
    put_all(s, frame, REQUEST);
    request(frame, 0);
    put_all(s, frame, REQUEST);
    do {
        take_all(s, frame, HEADER);
        take_all(s, frame + HEADER, (size_t)frame[1] << 8 | frame[2]);
    } while (frame[HEADER] != CLOCK_TYPE);
}

static long number(const char *word, long most)
{
    char *end;
    long n = strtol(word, &end, 10);
    if (*end != 0 || end == word || n < 1 || n > most) {
        fprintf(stderr, "load: %s is no number from 1 to %ld\n", word, most);
        exit(2);
    }
    return n;
}

int main(int argc, char **argv)
{
    if (argc != 5) {
        fputs("usage: load PID PORT BATCH MESSAGES\n", stderr);
        return 2;
    }
    pid_t pid = (pid_t)number(argv[1], 0x7FFFFFFF);
    int s = connected((uint16_t)number(argv[2], 65535));
    size_t batch = (size_t)number(argv[3], MOST);
    long messages = number(argv[4], 1000000000);
    static uint8_t out[MOST * REQUEST], in[IN];
    for (size_t i = 0; i < batch; i++) {
        request(out + REQUEST * i, 0);
    }
    quiet(s);
    double start = busy(pid), start_in_system = busy_in_system(pid);
    long done = 0;
    for (; done < messages; done += (long)batch) {
        put_all(s, out, REQUEST * batch);
        take_all(s, in, REPLY * batch);
    }
    double each = 1e6 / (double)done;
    printf("%.3f %.3f\n", (busy(pid) - start) * each, (busy_in_system(pid) - start_in_system) * each);
    close(s);
    return EXIT_SUCCESS;
}
