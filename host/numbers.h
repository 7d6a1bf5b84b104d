/* Numbers: those that people write, in arguments and in files, and those of messages. */
#ifndef NUMBERS_H
#define NUMBERS_H

#include <stdbool.h>
#include <stdint.h>

/* Decimal digits alone, at most `most`. */
bool number_read(const char *word, uint64_t most, uint64_t *to);

/* Into `size` bytes, the highest first. Gives the place behind them. */
uint8_t *number_put(uint8_t *p, int size, uint64_t number);

#endif
