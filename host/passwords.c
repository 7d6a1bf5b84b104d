/* The hash of a password, in turns. */
#define _DEFAULT_SOURCE         /* explicit_bzero */

#include "passwords.h"

#include <nettle/memops.h>
#include <nettle/memxor.h>
#include <string.h>

enum { LEFT_BEHIND = 4096 };    /* bytes of the stack that a call of nettle may have written to, with room to spare */

void wipe(void *bytes, size_t n)
{
    explicit_bzero(bytes, n);
}

bool same_hash(const uint8_t one[PASSWORD_HASH], const uint8_t other[PASSWORD_HASH])
{
    return memeql_sec(one, other, PASSWORD_HASH) == 1;
}

/* nettle makes the two keys of HMAC out of the password on its stack, and leaves them there. Called where nettle was called, this has the same
 * part of the stack. */
__attribute__((noinline)) static void wipe_stack(void)
{
    uint8_t left_behind[LEFT_BEHIND];
    wipe(left_behind, sizeof left_behind);
}

/* The next of PBKDF2's chain is the HMAC of the last; nettle's digest begins the next HMAC with the same key. */
static void add_next(hashing *h)
{
    hmac_sha256_digest(&h->key, PASSWORD_HASH, h->last);
    memxor(h->sum, h->last, PASSWORD_HASH);
}

void hashing_begin(hashing *h, const uint8_t *password, size_t password_len, const uint8_t *salt, size_t salt_len, uint32_t iterations)
{
    static const uint8_t first_block[] = {0, 0, 0, 1};
    memset(h, 0, sizeof *h);
    hmac_sha256_set_key(&h->key, password_len, password);
    wipe_stack();
    hmac_sha256_update(&h->key, salt_len < PASSWORD_SALT ? salt_len : PASSWORD_SALT, salt);
    hmac_sha256_update(&h->key, sizeof first_block, first_block);
    add_next(h);
    h->left = iterations < 1 ? 0 : iterations - 1;
}

bool hashing_turn(hashing *h, uint32_t most)
{
    for (; h->left > 0 && most > 0; h->left--, most--) {
        hmac_sha256_update(&h->key, PASSWORD_HASH, h->last);
        add_next(h);
    }
    return h->left == 0;
}
