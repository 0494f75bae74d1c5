/* The lines of a script: a verb, then numbers, each behind one tab. */
#ifndef HOST_SCRIPT_H
#define HOST_SCRIPT_H

#include <stdbool.h>
#include <stdint.h>

#include "input.h"

enum { NUMBERS_MAX = 4 };

struct script_line {
    char verb;
    unsigned numbers;
    uint32_t number[NUMBERS_MAX];
};

/* Takes a line apart; false if it is not a verb with up to four numbers, each without spare zeros and of 32 bits. */
bool take_apart(const struct input_line *line, struct script_line *out);

#endif
