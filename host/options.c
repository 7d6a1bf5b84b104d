/* The arguments of boxd. */
#define _POSIX_C_SOURCE 200809L

#include "options.h"

#include "numbers.h"
#include "settings.h"

#include <arpa/inet.h>
#include <netinet/in.h>
#include <stdio.h>
#include <string.h>
#include <time.h>
#include <unistd.h>

enum {
    ADDRESS = 64,
    LONGEST_TIME = 86400        /* s */
};

static const char help[] =
    "boxd: the box on the network. An ordinary JNIOR client can talk to it.\n"
    "\n"
    "    --listen ADDRESS:PORT   where to listen; without it 127.0.0.1:9200, this machine alone. Port 0: any that is free\n"
    "    --users FILE            clients have to log in; host/adduser.py makes the file's lines. Without it each is an administrator\n"
    "    --open                  others than this machine may come without a login. Without it and --users, only this machine is listened to\n"
    "    --strict                every connection is strict: 0xFFFF does not pass unchecked. For links that garble bytes, such as radio.\n"
    "                            Without it a connection is strict where the users file says so of its user\n"
    "    --idle SECONDS          closes a connection after so long without a served message or keep-alive; 900 without it\n"
    "    --login-time SECONDS    closes a connection on which nobody has logged in for so long; 60 without it. With --users alone\n"
    "    --link-time SECONDS     closes a connection whose client acknowledges nothing for so long; 120 without it\n"
    "\n"
    "    --settings FILE         setpoints and alarm switches, in lines such as `input 3 setpoint-one 100` (docs/HOST.md), or the 40 numbers\n"
    "                            of `power` in docs/REPLAY.md. What the file does not name is 0 or off. Without it the count alarms of\n"
    "                            every input stand at 20 and 50, and input 8 has its alarm switch set\n"
    "    --check-settings FILE   prints what such a file means, or what is wrong in it, and starts nothing\n"
    "    --io COMMAND            runs COMMAND, whose lines `level K V` tell the inputs, and which is told `relay K V`\n"
    "    --io-socket PATH        the same for a program that connects to the Unix socket PATH\n"
    "    --counts FILE           keeps the counts in FILE, and goes on with them after a power failure. Without it they begin at 0\n"
    "    --simulate              a simulated morning: fish rise at random. Not with --io, --io-socket or --counts\n"
    "    --seed N                the same simulated morning again\n"
    "\n"
    "    --log FILE              writes its lines to FILE, opened anew at SIGHUP; without it to standard output\n"
    "    --trace FILE            writes each call of the box to FILE, as lines of docs/REPLAY.md. Not with --users\n"
    "    -h, --help              this\n"
    "    --version               which version this is\n"
    "\n"
    "Commands on standard input: `level K V` (input K, 1 to 8, on 1 or off 0), `filled P` and `emptied P` (a relay module was plugged in at\n"
    "place P of the second deck, or pulled: 1 has relays 9 to 12, 2 relays 13 to 16), `state`, `quit`.\n";

static void complain(const char *what, const char *which, const char *advice)
{
    fprintf(stderr, "boxd: %s%s%s. %s\n", what, which[0] == 0 ? "" : " ", which, advice);
}

/* ---- The address */

static bool four(options *o, const char *host, uint16_t port)
{
    struct sockaddr_in to = {.sin_family = AF_INET, .sin_port = htons(port)};
    if (inet_pton(AF_INET, host, &to.sin_addr) != 1) {
        return false;
    }
    memcpy(&o->address, &to, sizeof to);
    o->address_len = sizeof to;
    o->loopback = (ntohl(to.sin_addr.s_addr) >> 24) == 127;
    return true;
}

static bool six(options *o, const char *host, uint16_t port)
{
    struct sockaddr_in6 to = {.sin6_family = AF_INET6, .sin6_port = htons(port)};
    if (inet_pton(AF_INET6, host, &to.sin6_addr) != 1) {
        return false;
    }
    memcpy(&o->address, &to, sizeof to);
    o->address_len = sizeof to;
    o->loopback = memcmp(&to.sin6_addr, &in6addr_loopback, sizeof to.sin6_addr) == 0;
    return true;
}

/* ADDRESS:PORT, an address of version 6 in square brackets. */
static bool read_address(options *o, const char *word)
{
    char host[ADDRESS];
    uint64_t port;
    const char *colon = strrchr(word, ':');
    if (colon == NULL || (size_t)(colon - word) >= sizeof host || !number_read(colon + 1, 65535, &port)) {
        return false;
    }
    size_t n = (size_t)(colon - word);
    memcpy(host, word, n);
    host[n] = 0;
    if (n > 2 && host[0] == '[' && host[n - 1] == ']') {
        host[n - 1] = 0;
        return six(o, host + 1, (uint16_t)port);
    }
    return four(o, host, (uint16_t)port);
}

void address_words(const struct sockaddr_storage *address, char *text, size_t size)
{
    char host[INET6_ADDRSTRLEN] = "?";
    if (address->ss_family == AF_INET) {
        struct sockaddr_in from;
        memcpy(&from, address, sizeof from);
        inet_ntop(AF_INET, &from.sin_addr, host, sizeof host);
        snprintf(text, size, "%s:%u", host, (unsigned)ntohs(from.sin_port));
    } else {
        struct sockaddr_in6 from;
        memcpy(&from, address, sizeof from);
        inet_ntop(AF_INET6, &from.sin6_addr, host, sizeof host);
        snprintf(text, size, "[%s]:%u", host, (unsigned)ntohs(from.sin6_port));
    }
}

/* ---- The arguments */

/* An argument, and where its value stands in the options. */
typedef struct {
    const char *name;
    size_t place;
} argument;

static const argument flags[] = {
    {"--open", offsetof(options, open)},
    {"--strict", offsetof(options, strict)},
    {"--simulate", offsetof(options, simulate)},
};

/* Those with a word behind them that is kept as it is. */
static const argument words[] = {
    {"--users", offsetof(options, users)},
    {"--check-settings", offsetof(options, check_settings)},
    {"--io", offsetof(options, io_command)},
    {"--io-socket", offsetof(options, io_socket)},
    {"--counts", offsetof(options, counts)},
    {"--log", offsetof(options, log)},
    {"--trace", offsetof(options, trace)},
    {"--seed", offsetof(options, seed_word)},
};

static const argument times[] = {
    {"--idle", offsetof(options, idle)},
    {"--login-time", offsetof(options, login_time)},
    {"--link-time", offsetof(options, link_time)},
};

#define COUNT(list) (sizeof(list) / sizeof(list)[0])

/* Where the value of a named argument stands; NULL where it is none of the list. */
static void *find(options *o, const argument *list, size_t n, const char *name)
{
    for (size_t i = 0; i < n; i++) {
        if (strcmp(name, list[i].name) == 0) {
            return (char *)o + list[i].place;
        }
    }
    return NULL;
}

static bool read_seconds(uint64_t *to, const char *name, const char *value)
{
    if (!number_read(value, LONGEST_TIME, to) || *to == 0) {
        fprintf(stderr, "boxd: %s needs seconds from 1 to 86400, not %s. Write for example %s 60\n", name, value, name);
        return false;
    }
    return true;
}

static bool read_listen(options *o, const char *value)
{
    if (!read_address(o, value)) {
        complain("--listen needs ADDRESS:PORT in numbers, not", value, "Write for example --listen 127.0.0.1:9200, or [::1]:9200");
        return false;
    }
    return true;
}

static bool has_value(options *o, const char *name)
{
    return strcmp(name, "--listen") == 0 || strcmp(name, "--settings") == 0 || find(o, words, COUNT(words), name) != NULL ||
           find(o, times, COUNT(times), name) != NULL;
}

/* An argument that has a value. */
static bool read_value(options *o, const char *name, const char *value)
{
    const char **word = find(o, words, COUNT(words), name);
    uint64_t *seconds = find(o, times, COUNT(times), name);
    if (word != NULL) {
        *word = value;
        return true;
    }
    if (seconds != NULL) {
        return read_seconds(seconds, name, value);
    }
    return strcmp(name, "--settings") == 0 ? settings_read(&o->settings, value) : read_listen(o, value);
}

static bool read_arguments(options *o, int argc, char **argv)
{
    for (int i = 1; i < argc; i++) {
        bool *flag = find(o, flags, COUNT(flags), argv[i]);
        if (flag != NULL) {
            *flag = true;
        } else if (!has_value(o, argv[i])) {
            complain("there is no argument", argv[i], "--help lists them");
            return false;
        } else if (i + 1 == argc) {
            complain("something is missing after", argv[i], "--help says what");
            return false;
        } else if (!read_value(o, argv[i], argv[i + 1])) {
            return false;
        } else {
            i++;
        }
    }
    return true;
}

/* ---- What does not go together */

static bool read_seed(options *o)
{
    if (o->seed_word == NULL) {
        o->seed = (uint64_t)time(NULL) ^ (uint64_t)getpid() << 32;
        return true;
    }
    if (!number_read(o->seed_word, UINT64_MAX, &o->seed)) {
        complain("--seed needs a number, not", o->seed_word, "Write for example --seed 7");
        return false;
    }
    if (!o->simulate) {
        complain("--seed is of a simulated morning", "", "Write --simulate too, or leave it out");
    }
    return o->simulate;
}

/* Invented fish do not mix with real ones. */
static bool keeps_apart(const options *o)
{
    if (o->users != NULL && o->trace != NULL) {
        complain("--trace and --users do not go together", "", "The trace would hold the passwords: leave one of them out");
        return false;
    }
    if (o->simulate && (o->io_command != NULL || o->io_socket != NULL || o->counts != NULL)) {
        complain("--simulate does not go with --io, --io-socket or --counts", "", "Invented fish would stand among real ones: leave it out");
        return false;
    }
    if (o->io_command != NULL && o->io_socket != NULL) {
        complain("--io and --io-socket do not go together", "", "The inputs have one source: leave one of them out");
        return false;
    }
    return true;
}

/* Each client is an administrator without a login: not everybody who reaches the machine, unless that is meant. */
static bool is_guarded(const options *o)
{
    if (o->users != NULL || o->open || o->loopback) {
        return true;
    }
    char at[ADDRESS];
    address_words(&o->address, at, sizeof at);
    fprintf(stderr, "boxd: others than this machine reach %s, and without --users each of them is an administrator. Write --users FILE for a login, or "
            "--open if that is meant\n", at);
    return false;
}

/* What is printed instead of starting. Whether there was something. */
static bool only_prints(int argc, char **argv)
{
    for (int i = 1; i < argc; i++) {
        if (strcmp(argv[i], "--help") == 0 || strcmp(argv[i], "-h") == 0) {
            fputs(help, stdout);
            return true;
        }
        if (strcmp(argv[i], "--version") == 0) {
            puts("boxd " WELLACORN_VERSION);
            return true;
        }
    }
    return false;
}

options_came options_read(options *o, int argc, char **argv)
{
    *o = (options){.idle = 900, .login_time = 60, .link_time = 120};
    if (only_prints(argc, argv)) {
        return OPTIONS_DONE;
    }
    settings_usual(&o->settings);
    read_address(o, "127.0.0.1:9200");
    if (!read_arguments(o, argc, argv)) {
        return OPTIONS_BAD;
    }
    if (o->check_settings != NULL) {
        return settings_check(o->check_settings) ? OPTIONS_DONE : OPTIONS_BAD;
    }
    return read_seed(o) && keeps_apart(o) && is_guarded(o) ? OPTIONS_GOOD : OPTIONS_BAD;
}
