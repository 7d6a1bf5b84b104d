/* The users file. Every bad line is named, so that one look mends them all. */
#define _POSIX_C_SOURCE 200809L

#include "users.h"

#include <errno.h>
#include <stdio.h>
#include <stdlib.h>
#include <string.h>
#include <sys/stat.h>

enum {
    WORDS = 5,              /* of every line */
    WORDS_STRICT = 6,       /* of a strict user's */
    LINE = 512,             /* characters of a line, its end included */
    SALT_LEAST = 8          /* bytes of salt */
};

/* ---- The words of a line. Each gives NULL, or what is wrong. */

static const char *read_name(const users *all, const char *word, user *u)
{
    size_t n = strlen(word);
    if (n == 0 || n > USER_NAME) {
        return "the name must have 1 to 32 characters";
    }
    for (size_t i = 0; i < n; i++) {
        if (word[i] <= ' ' || word[i] > '~' || word[i] == ':') {
            return "the name may hold printed characters alone, and no colon";
        }
    }
    if (users_find(all, word, n) != NULL) {
        return "the name stands in an earlier line too; keep one of them";
    }
    memcpy(u->name, word, n + 1);
    return NULL;
}

static const char *read_rank(const char *word, user *u)
{
    if (strcmp(word, "1") != 0 && strcmp(word, "2") != 0) {
        return "the rank must be 1 (user) or 2 (administrator)";
    }
    u->rank = (uint8_t)(word[0] - '0');
    return NULL;
}

static const char *read_iterations(const char *word, user *u)
{
    size_t n = strlen(word);
    if (n == 0 || n > 8 || strspn(word, "0123456789") != n) {
        return "the iterations must be a number from 1000 to 10000000";
    }
    u->iterations = (uint32_t)strtoul(word, NULL, 10);
    if (u->iterations < USER_LEAST || u->iterations > USER_MOST) {
        return "the iterations must be a number from 1000 to 10000000";
    }
    return NULL;
}

static int digit(char ch)
{
    if (ch >= '0' && ch <= '9') {
        return ch - '0';
    }
    if (ch >= 'a' && ch <= 'f') {
        return ch - 'a' + 10;
    }
    return ch >= 'A' && ch <= 'F' ? ch - 'A' + 10 : -1;
}

/* Gives the number of bytes; 0 where the word is not hexadecimal, odd or too long. */
static size_t read_hex(const char *word, uint8_t *bytes, size_t most)
{
    size_t n = strlen(word);
    if (n % 2 != 0 || n / 2 > most) {
        return 0;
    }
    for (size_t i = 0; i < n / 2; i++) {
        int high = digit(word[2 * i]), low = digit(word[2 * i + 1]);
        if (high < 0 || low < 0) {
            return 0;
        }
        bytes[i] = (uint8_t)(16 * high + low);
    }
    return n / 2;
}

static const char *read_digests(const char *salt, const char *hash, user *u)
{
    u->salt_len = read_hex(salt, u->salt, sizeof u->salt);
    if (u->salt_len < SALT_LEAST) {
        return "the salt must be hexadecimal, 16 to 128 digits";
    }
    if (read_hex(hash, u->hash, sizeof u->hash) != sizeof u->hash) {
        return "the hash must be hexadecimal, 64 digits";
    }
    return NULL;
}

static const char *read_strict(const char *word, user *u)
{
    u->strict = strcmp(word, "strict") == 0;
    return u->strict ? NULL : "the sixth word can only be strict; leave it out for a user who is not";
}

/* ---- A line */

static size_t split(char *text, char *words[WORDS_STRICT])
{
    size_t n = 0;
    for (char *word = text; word != NULL; n++) {
        char *blank = strchr(word, ' ');
        if (blank != NULL) {
            *blank = 0;
        }
        if (n < WORDS_STRICT) {
            words[n] = word;
        }
        word = blank == NULL ? NULL : blank + 1;
    }
    return n;
}

static const char *read_user(users *all, char *text)
{
    char *words[WORDS_STRICT];
    user u = {0};
    size_t n = split(text, words);
    if (n != WORDS && n != WORDS_STRICT) {
        return "a line has five words with one blank between: name, rank, iterations, salt, hash; and a sixth, strict, where the user is so";
    }
    const char *wrong = read_name(all, words[0], &u);
    wrong = wrong == NULL ? read_rank(words[1], &u) : wrong;
    wrong = wrong == NULL ? read_iterations(words[2], &u) : wrong;
    wrong = wrong == NULL ? read_digests(words[3], words[4], &u) : wrong;
    wrong = wrong == NULL && n == WORDS_STRICT ? read_strict(words[5], &u) : wrong;
    if (wrong == NULL && all->n == USERS) {
        wrong = "there is room for 64 users; take some out";
    }
    if (wrong == NULL) {
        all->list[all->n++] = u;
    }
    return wrong;
}

/* The rest of a line that did not fit. */
static void skip_line(FILE *file)
{
    for (int ch = fgetc(file); ch != EOF && ch != '\n';) {
        ch = fgetc(file);
    }
}

static const char *read_line(users *all, FILE *file, char text[LINE])
{
    size_t n = strlen(text);
    if (n > 0 && text[n - 1] == '\n') {
        text[--n] = 0;
    } else if (n == LINE - 1) {
        skip_line(file);
        return "the line is too long";
    }
    if (n > 0 && text[n - 1] == '\r') {
        text[--n] = 0;
    }
    return n == 0 || text[0] == '#' ? NULL : read_user(all, text);
}

/* ---- The file */

static unsigned read_all(users *all, FILE *file, const char *path)
{
    unsigned bad = 0;
    char text[LINE] = {0};
    for (unsigned number = 1; fgets(text, sizeof text, file) != NULL; number++) {
        const char *wrong = read_line(all, file, text);
        if (wrong != NULL) {
            fprintf(stderr, "boxd: %s, line %u: %s\n", path, number, wrong);
            bad++;
        }
        wipe(text, sizeof text);
    }
    return bad;
}

static void warn_of_readers(FILE *file, const char *path)
{
    struct stat about;
    if (fstat(fileno(file), &about) == 0 && (about.st_mode & (S_IRWXG | S_IRWXO)) != 0) {
        fprintf(stderr, "boxd: others than the owner may use %s: `chmod 600 %s` ends that\n", path, path);
    }
}

bool users_read(users *all, const char *path)
{
    all->n = 0;
    FILE *file = fopen(path, "r");
    if (file == NULL) {
        fprintf(stderr, "boxd: the users file %s cannot be read: %s. Name another after --users, or make one with host/adduser.py\n", path,
                strerror(errno));
        return false;
    }
    warn_of_readers(file, path);
    unsigned bad = read_all(all, file, path);
    bool broken = ferror(file) != 0;
    fclose(file);
    if (broken) {
        fprintf(stderr, "boxd: reading %s failed: name a plain file after --users\n", path);
    } else if (bad > 0) {
        fprintf(stderr, "boxd: %u bad line%s in %s, nothing was started: mend or remove them (host/adduser.py makes a line anew)\n", bad,
                bad == 1 ? "" : "s", path);
    } else if (all->n == 0) {
        fprintf(stderr, "boxd: there is no user in %s, so nobody could log in: add one with host/adduser.py\n", path);
    }
    return !broken && bad == 0 && all->n > 0;
}

const user *users_find(const users *all, const char *name, size_t len)
{
    for (size_t i = 0; i < all->n; i++) {
        if (strlen(all->list[i].name) == len && memcmp(all->list[i].name, name, len) == 0) {
            return &all->list[i];
        }
    }
    return NULL;
}
