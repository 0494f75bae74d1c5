/* Numbers in lines. */
#ifndef HOST_NUMBER_H
#define HOST_NUMBER_H

#include <stdbool.h>
#include <stdint.h>

/* Takes a number that begins at *at, and moves *at past it; false if there is none, or one with spare zeros or above 32 bits. */
bool take_number(const char **at, const char *end, uint32_t *out);

#endif
