/* The login: layout, trial, slowing down. */
#include "login.h"

#include <nettle/base64.h>
#include <string.h>

enum {
    ANSWER_TYPE = 125,
    ADMINISTRATOR = 0x80,       /* bit 7, as in 001's example */
    CONTROL = 0x02,             /* bit 1 */
    REFUSED = 0xFF,
    TURN = 500,                 /* iterations between two looks at the other connections */
    SLOW_FIRST = 1000,          /* ms after the first wrong password; each further one doubles it */
    SLOW_MOST = 30000,
    FORGIVEN = 900000           /* ms after which the wrong passwords of a name are forgotten */
};

/* ---- The layout: type, name, password, each of the two with its length before it, and nothing left over */

typedef struct {
    const uint8_t *bytes;
    size_t n;
} string;

/* Takes a string off the front. False where it does not end within the content. */
static bool take(string *content, string *to)
{
    if (content->n == 0 || content->bytes[0] > content->n - 1) {
        return false;
    }
    to->bytes = content->bytes + 1;
    to->n = content->bytes[0];
    content->bytes += 1 + to->n;
    content->n -= 1 + to->n;
    return true;
}

static bool read_layout(string content, string *name, string *password)
{
    if (content.n == 0 || content.bytes[0] != LOGIN_TYPE) {
        return false;
    }
    content.bytes++;
    content.n--;
    return take(&content, name) && take(&content, password) && content.n == 0;
}

/* ---- The encoded form: a blank name, and `name:password` in Base64 for the password */

/* Gives the number of bytes, or 0 where it is not Base64 with its padding. nettle passes over blanks within; one of them would leave fewer bytes
 * than so many characters make, and is refused here. */
static size_t decode(string from, uint8_t to[BASE64_DECODE_LENGTH(LOGIN_STRING)])
{
    struct base64_decode_ctx state;
    size_t n = 0;
    base64_decode_init(&state);
    bool good = from.n % 4 == 0 && base64_decode_update(&state, &n, to, from.n, (const char *)from.bytes) == 1 && base64_decode_final(&state) == 1;
    return good && n == from.n / 4 * 3 - state.padding ? n : 0;
}

/* Name and password out of the decoded bytes. False where there is no colon between. */
static bool divide(const uint8_t *bytes, size_t n, string *name, string *password)
{
    const uint8_t *colon = n == 0 ? NULL : memchr(bytes, ':', n);
    if (colon == NULL) {
        return false;
    }
    *name = (string){bytes, (size_t)(colon - bytes)};
    *password = (string){colon + 1, n - name->n - 1};
    return true;
}

/* ---- Slowing down */

static uint64_t pause_after(unsigned wrong)
{
    uint64_t ms = SLOW_FIRST;
    for (unsigned i = 1; i < wrong && ms < SLOW_MOST; i++) {
        ms *= 2;
    }
    return ms < SLOW_MOST ? ms : SLOW_MOST;
}

/* Names that no user has are slowed down as well, or the time would tell them apart. Two names may share a place: then both are slower. */
static slow *slow_of(door *d, string name)
{
    uint32_t sum = 2166136261u;
    for (size_t i = 0; i < name.n; i++) {
        sum = (sum ^ name.bytes[i]) * 16777619u;
    }
    return &d->names[sum % LOGIN_NAMES];
}

/* The refusal is held back from the beginning of the trial on, so that its time does not tell how much work there was. */
static void was_wrong(login *l, uint64_t now)
{
    l->wrong++;
    l->name->wrong++;
    l->name->last = now;
    l->name->until = now + pause_after(l->name->wrong);
    l->until = l->begun + pause_after(l->wrong);
    l->stage = LOGIN_HELD;
}

/* ---- The trial. A name that no user has costs the work of a wrong password. */

static const user *costliest(const users *all)
{
    const user *most = &all->list[0];
    for (size_t i = 1; i < all->n; i++) {
        if (all->list[i].iterations > most->iterations) {
            most = &all->list[i];
        }
    }
    return most;
}

static void start_work(login *l, const door *d, uint64_t now)
{
    const user *like = l->who == NULL ? costliest(d->users) : l->who;
    hashing_begin(&l->work, l->password, l->password_len, like->salt, like->salt_len, like->iterations);
    wipe(l->password, sizeof l->password);
    l->begun = now;
    l->stage = LOGIN_WORKS;
}

static void finish_work(login *l, const door *d, uint64_t now)
{
    const user *like = l->who == NULL ? costliest(d->users) : l->who;
    bool same = same_hash(l->work.sum, like->hash);
    wipe(&l->work, sizeof l->work);
    if (!same || l->who == NULL) {
        was_wrong(l, now);
        return;
    }
    l->wrong = 0;
    l->name->wrong = 0;
    l->name->until = 0;
    l->stage = LOGIN_RIGHT;
}

static void prepare(login *l, door *d, uint64_t now, string name, string password)
{
    l->who = users_find(d->users, (const char *)name.bytes, name.n);
    l->name = slow_of(d, name);
    if (now - l->name->last > FORGIVEN) {
        l->name->wrong = 0;
    }
    memcpy(l->password, password.bytes, password.n);
    l->password_len = password.n;
    l->until = l->name->until;
    l->stage = LOGIN_WAITS;
}

/* ---- What the host calls */

void login_fresh(login *l)
{
    wipe(l, sizeof *l);
    l->stage = LOGIN_NONE;
}

void login_begin(login *l, door *d, uint64_t now, const uint8_t *content, size_t n)
{
    uint8_t decoded[BASE64_DECODE_LENGTH(LOGIN_STRING)];
    string name, password;
    l->who = NULL;
    l->stage = LOGIN_WRONG;
    if (!read_layout((string){content, n}, &name, &password)) {
        return;
    }
    if (d->users == NULL) {
        l->stage = LOGIN_RIGHT;
        return;
    }
    if (name.n > 0 || divide(decoded, decode(password, decoded), &name, &password)) {
        prepare(l, d, now, name, password);
    }
    wipe(decoded, sizeof decoded);
}

void login_turn(login *l, door *d, uint64_t now)
{
    switch (l->stage) {
    case LOGIN_WAITS:
        /* another connection may have got the same name wrong meanwhile */
        l->until = l->name->until;
        if (now >= l->until) {
            start_work(l, d, now);
        }
        break;
    case LOGIN_WORKS:
        if (hashing_turn(&l->work, TURN)) {
            finish_work(l, d, now);
        }
        break;
    case LOGIN_HELD:
        if (now >= l->until) {
            l->stage = LOGIN_WRONG;
        }
        break;
    default:
        break;
    }
}

void login_done(login *l)
{
    l->stage = LOGIN_NONE;
}

bool login_is_on(const login *l)
{
    return l->stage != LOGIN_NONE;
}

uint64_t login_next(const login *l, uint64_t now)
{
    if (l->stage == LOGIN_NONE) {
        return UINT64_MAX;
    }
    return l->stage == LOGIN_WAITS || l->stage == LOGIN_HELD ? l->until : now;
}

void login_answer(uint8_t content[2], uint8_t rank)
{
    content[0] = ANSWER_TYPE;
    content[1] = rank == 2 ? ADMINISTRATOR : rank == 1 ? CONTROL : REFUSED;
}
