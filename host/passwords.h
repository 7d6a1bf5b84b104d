/* The hash of a password: PBKDF2 (RFC 8018) over HMAC and SHA-256, for the users file. HMAC and the comparison are nettle's.
 *
 * PBKDF2 is made to take long. It is worked out in turns, so that whoever waits for it can do other things in between: nettle's own does all
 * iterations in one call, so the loop over them is here.
 */
#ifndef PASSWORDS_H
#define PASSWORDS_H

#include <nettle/hmac.h>
#include <stdbool.h>
#include <stddef.h>
#include <stdint.h>

enum {
    PASSWORD_HASH = SHA256_DIGEST_SIZE,     /* bytes of a hash */
    PASSWORD_SALT = 64                      /* bytes of salt at most */
};

typedef struct {
    struct hmac_sha256_ctx key;     /* the password, once for all iterations */
    uint8_t last[PASSWORD_HASH];
    uint8_t sum[PASSWORD_HASH];     /* the result once nothing is left */
    uint32_t left;                  /* iterations still to do */
} hashing;

/* At least one iteration; a salt longer than PASSWORD_SALT is cut. The password is not needed behind it. */
void hashing_begin(hashing *h, const uint8_t *password, size_t password_len, const uint8_t *salt, size_t salt_len, uint32_t iterations);

/* Does at most `most` iterations. Whether it is finished. */
bool hashing_turn(hashing *h, uint32_t most);

/* Whether two hashes are the same, in a time that does not depend on where they differ. */
bool same_hash(const uint8_t one[PASSWORD_HASH], const uint8_t other[PASSWORD_HASH]);

/* Overwrites what must not be found in memory later; no compiler leaves it out. */
void wipe(void *bytes, size_t n);

#endif
