/* The login: what a LoginRequest (type 126) asks, whether the password is right, and the answer (type 125) of document 001.
 *
 * A login is judged in turns, so that working out the hash delays no other connection. Wrong passwords are slowed down by timers: on a
 * connection its refusal comes later each time, and for a name, whether a user has it or not, the next trial begins later each time.
 */
#ifndef LOGIN_H
#define LOGIN_H

#include "users.h"

enum {
    LOGIN_TYPE = 126,
    LOGIN_STRING = 255,         /* bytes of a name or a password at most: one length byte */
    LOGIN_REPLY = 7,            /* bytes of the answer's frame */
    LOGIN_NAMES = 64            /* names that are slowed down apart */
};

/* How long a name is slowed down. */
typedef struct {
    unsigned wrong;             /* wrong passwords, one behind the other */
    uint64_t until;             /* no trial begins before; ms */
    uint64_t last;              /* when the last wrong one came; ms */
} slow;

typedef struct {
    const users *users;         /* NULL: login is not asked for, and every connection is an administrator's */
    slow names[LOGIN_NAMES];
} door;

typedef enum {
    LOGIN_NONE,                 /* no login under way */
    LOGIN_WAITS,                /* slowed down: the trial has not begun */
    LOGIN_WORKS,                /* the hash is being worked out */
    LOGIN_HELD,                 /* wrong, and the refusal is held back */
    LOGIN_RIGHT,                /* right: to be answered now */
    LOGIN_WRONG                 /* wrong: to be answered now */
} login_stage;

/* The login of one connection. */
typedef struct {
    login_stage stage;
    uint64_t until;             /* ms; in LOGIN_WAITS and LOGIN_HELD */
    uint64_t begun;             /* when the trial began; ms */
    const user *who;            /* NULL: no user has that name */
    slow *name;
    unsigned wrong;             /* wrong passwords on this connection, one behind the other */
    uint8_t password[LOGIN_STRING];
    size_t password_len;
    hashing work;
} login;

/* A fresh connection: none under way, none wrong. */
void login_fresh(login *l);

/* A login has come: content is that of the whole message. A layout that is not 001's is wrong at once. */
void login_begin(login *l, door *d, uint64_t now, const uint8_t *content, size_t n);

/* Goes on with it for a while. In LOGIN_RIGHT and LOGIN_WRONG the host answers and calls login_done. */
void login_turn(login *l, door *d, uint64_t now);
void login_done(login *l);

/* Whether a login is under way: the connection's later messages wait until it is answered. */
bool login_is_on(const login *l);

/* When there is something to do, in ms: `now` where it is at once, UINT64_MAX where nothing is. */
uint64_t login_next(const login *l, uint64_t now);

/* The content of the answer: type 125 and the permissions of a rank (0x80 administrator, 0x02 user, which may control), or 0xFF. */
void login_answer(uint8_t content[2], uint8_t rank);

#endif
