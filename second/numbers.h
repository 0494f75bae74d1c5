/* Numbers of a command line. */
#ifndef SECOND_NUMBERS_H
#define SECOND_NUMBERS_H

#include <stdbool.h>
#include <stdint.h>

/*
 * The number that the whole word is: digits without spare zeros, from `least` to `most`.  Anything else is false,
 * and leaves *out as it is.
 */
bool number_of(const char *word, uint64_t least, uint64_t most, uint64_t *out);

/* The same for a number that an unsigned holds. */
bool small_number_of(const char *word, unsigned least, unsigned most, unsigned *out);

#endif
