/* The users file: who may log in, at which rank. host/adduser.py makes its lines.
 *
 *     NAME RANK ITERATIONS SALT HASH [strict]
 *
 * with one blank between. The hash is PBKDF2 with HMAC and SHA-256 of the password with that salt and so many iterations; salt and hash are
 * hexadecimal. Where `strict` stands behind them the user's connections are strict: no message passes there unchecked. A line that is empty or
 * begins with # says nothing.
 */
#ifndef USERS_H
#define USERS_H

#include "passwords.h"

enum {
    USERS = 64,                         /* users at most */
    USER_NAME = 32,                     /* characters of a name at most */
    USER_LEAST = 1000,                  /* iterations */
    USER_MOST = 10000000
};

typedef struct {
    char name[USER_NAME + 1];
    uint8_t rank;                       /* 1 user, 2 administrator */
    bool strict;
    uint32_t iterations;
    uint8_t salt[PASSWORD_SALT];
    size_t salt_len;
    uint8_t hash[PASSWORD_HASH];
} user;

typedef struct {
    user list[USERS];
    size_t n;
} users;

/* Reads the file. Where it cannot be used, prints every bad line with its number and what to do, to standard error, and gives false. */
bool users_read(users *all, const char *path);

/* The user of that name, or NULL. */
const user *users_find(const users *all, const char *name, size_t len);

#endif
