/* Numbers that people write, and those of messages. */
#include "numbers.h"

#include <errno.h>
#include <stdlib.h>
#include <string.h>

bool number_read(const char *word, uint64_t most, uint64_t *to)
{
    size_t n = strlen(word);
    if (n == 0 || n > 20 || strspn(word, "0123456789") != n) {
        return false;
    }
    errno = 0;
    *to = strtoull(word, NULL, 10);
    return errno == 0 && *to <= most;
}

uint8_t *number_put(uint8_t *p, int size, uint64_t number)
{
    for (int i = size - 1; i >= 0; i--, number >>= 8) {
        p[i] = (uint8_t)number;
    }
    return p + size;
}
