/* What the benchmark has a box do. workloads.c is compiled for the library and for the peer, and gives one `workload_side` for each. */
#ifndef WORKLOADS_H
#define WORKLOADS_H

#include "wellacorn.h"

/* Sums over all calls, so that no answer goes unread and the two sides can be compared. */
typedef struct {
    uint64_t answers;
    uint64_t taken;
    uint64_t places;
    uint64_t len;
} workload_tally;

/* Does it `times` times over, on connection 0. */
typedef workload_tally workload(const uint8_t *bytes, size_t n, size_t step, size_t times);

enum {
    PIECES,     /* offers the n bytes in pieces of `step`; each is taken whole */
    DRAIN,      /* offers the n bytes, then again what is left of them, until all are taken */
    PASS,       /* n times: 1 ms passes */
    COLLECT,    /* n times: a level changes, 1 ms passes, Monitor is collected */
    PULSED,     /* offers the n bytes, which ask for a pulse; then `step` times: 1 ms passes */
    QUEUED,     /* offers the n bytes in pieces of `step`, which ask for a pulse each; then as many ms pass in one call */
    WORKLOADS
};

typedef struct {
    void (*fresh)(void);                /* powers up and opens connection 0 at rank 2, not strict, half of the inputs on and of the relays closed */
    workload *does[WORKLOADS];
    wellacorn_board (*board)(void);     /* what the box holds */
    wellacorn_half (*half)(int c);      /* how far a message of connection c has been read */
    wellacorn_pulse (*pulse)(int place);    /* a record of the row */
    const uint8_t *reply;               /* its reply buffer, WELLACORN_REPLY bytes */
} workload_side;

extern const workload_side library_side;
extern const workload_side peer_side;

#endif
