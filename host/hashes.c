/* Works out hashes for tests/test_host.py, which compares them with Python's. Reads lines from standard input, prints one line for each.
 *
 *     pbkdf2 HEX-PASSWORD HEX-SALT N      the hash after N iterations, done a few at a time; in lower case
 *     same HEX HEX                        1 where two hashes are the same, else 0
 *
 * `-` stands for no bytes. Any other line: `?`.
 */
#include "passwords.h"

#include <stdio.h>
#include <stdlib.h>
#include <string.h>

enum {
    WORDS = 4,
    MOST = 4096,            /* bytes of a word at most */
    LINE = 4 * MOST + 64
};

typedef struct {
    uint8_t bytes[MOST];
    size_t n;
} octets;

static int digit(char ch)
{
    const char *digits = "0123456789abcdef", *at = strchr(digits, ch);
    return ch == 0 || at == NULL ? -1 : (int)(at - digits);
}

static bool read_hex(const char *word, octets *to)
{
    size_t len = strcmp(word, "-") == 0 ? 0 : strlen(word);
    to->n = len / 2;
    if (len % 2 != 0 || to->n > MOST) {
        return false;
    }
    for (size_t i = 0; i < to->n; i++) {
        int high = digit(word[2 * i]), low = digit(word[2 * i + 1]);
        if (high < 0 || low < 0) {
            return false;
        }
        to->bytes[i] = (uint8_t)(16 * high + low);
    }
    return true;
}

static size_t split(char *line, char *words[WORDS])
{
    size_t n = 0;
    for (char *word = strtok(line, " \n"); word != NULL && n < WORDS; word = strtok(NULL, " \n")) {
        words[n++] = word;
    }
    return n;
}

static bool print_hash(const octets *password, const octets *salt, const char *iterations)
{
    hashing h;
    hashing_begin(&h, password->bytes, password->n, salt->bytes, salt->n, (uint32_t)strtoul(iterations, NULL, 10));
    while (!hashing_turn(&h, 7)) {
    }
    for (int i = 0; i < PASSWORD_HASH; i++) {
        printf("%02x", h.sum[i]);
    }
    return putchar('\n') != EOF;
}

static bool print_same(const octets *one, const octets *other)
{
    return one->n == PASSWORD_HASH && other->n == PASSWORD_HASH && puts(same_hash(one->bytes, other->bytes) ? "1" : "0") != EOF;
}

/* Whether the line was one that there is. */
static bool work_out(char *words[WORDS], size_t n)
{
    static octets one, two;
    if (n < 3 || !read_hex(words[1], &one) || !read_hex(words[2], &two)) {
        return false;
    }
    if (n == 4 && strcmp(words[0], "pbkdf2") == 0) {
        return print_hash(&one, &two, words[3]);
    }
    return n == 3 && strcmp(words[0], "same") == 0 && print_same(&one, &two);
}

int main(void)
{
    static char line[LINE];
    while (fgets(line, sizeof line, stdin) != NULL) {
        char *words[WORDS];
        if (!work_out(words, split(line, words))) {
            puts("?");
        }
    }
    return EXIT_SUCCESS;
}
