/* Counts over a power failure. At power-up they are 0 (01); a host that is asked to keeps them in a file and writes them back at its start, by an
 * ordinary WriteDevices message of its own, so that nothing goes round the library.
 *
 * The file is saved behind each change, at most once a second: written anew, brought to the disk, and put in the old one's place. That may take long on
 * a memory card, and nobody is to wait for it: a process of its own, the saver, does it.
 */
#ifndef COUNTS_H
#define COUNTS_H

#include "box.h"

#include <sys/types.h>

typedef struct {
    const char *path;           /* NULL: counts are not kept */
    pid_t pid;                  /* of the saver */
    int to, back;               /* the saver's: counts go to it, and how it went comes back */
    bool busy;                  /* it has not come back yet */
    bool failing;               /* the last try did not save them */
    uint64_t given[WELLACORN_CHANNELS];     /* the counts that it was given last */
    uint64_t saved[WELLACORN_CHANNELS];     /* those that the file has */
    uint64_t not_before;        /* ms: the next time that it is given some */
} counts;

/* Reads the file, which may be missing, and starts the saver. False where it cannot be used: it says why, to standard error. With NULL it does nothing. */
bool counts_begin(counts *k, const char *path);

/* Writes the counts of the file to the box, which has been powered up and has no connection open. False where the box does not take them. */
bool counts_restore(counts *k, box *b);

/* Gives the saver what has changed; `ready`: it has something to tell. */
void counts_turn(counts *k, const box *b, uint64_t now, bool ready);

/* When there is something to do though nothing comes; ms. */
uint64_t counts_next(const counts *k, const box *b);

/* Saves what is not saved yet, and ends the saver. It waits for that, some seconds at most. */
void counts_end(counts *k, const box *b);

#endif
