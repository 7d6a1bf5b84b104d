/* The arguments of boxd. */
#ifndef OPTIONS_H
#define OPTIONS_H

#include "wellacorn.h"

#include <sys/socket.h>

typedef struct {
    struct sockaddr_storage address;    /* where to listen */
    socklen_t address_len;
    bool loopback;                      /* whether only this machine reaches it */
    const char *users;                  /* the users file; NULL: no login */
    bool open;                          /* others than this machine may come without a login: it is meant */
    bool strict;                        /* every connection is strict, whoever's it is */
    wellacorn_settings settings;        /* set at power-up */
    const char *check_settings;         /* a settings file to be looked at, nothing else; NULL: none */
    const char *io_command;             /* tells the levels and is told the relays; NULL: none */
    const char *io_socket;              /* where such a program connects; NULL: nowhere */
    const char *counts;                 /* where the counts are kept over a power failure; NULL: nowhere */
    const char *log;                    /* the log file; NULL: standard output */
    const char *trace;                  /* NULL: none */
    uint64_t idle;                      /* s without a served message or keep-alive after which a connection is closed */
    uint64_t login_time;                /* s that a client has for its login */
    uint64_t link_time;                 /* s after which a link that acknowledges nothing is dead */
    bool simulate;                      /* a simulated morning */
    const char *seed_word;              /* as it was written; NULL: none */
    uint64_t seed;                      /* of the morning */
} options;

typedef enum { OPTIONS_GOOD, OPTIONS_DONE, OPTIONS_BAD } options_came;

/* OPTIONS_DONE: what was asked has been printed, and nothing is to be started. OPTIONS_BAD: it says what is wrong and what to do, to standard
 * error. */
options_came options_read(options *o, int argc, char **argv);

/* An address in words: 127.0.0.1:9200 or [::1]:9200. */
void address_words(const struct sockaddr_storage *address, char *text, size_t size);

#endif
