/* Standard input: the rig, then the script line by line. Lines may have any length and any bytes. */
#ifndef HOST_INPUT_H
#define HOST_INPUT_H

#include <stdbool.h>
#include <stddef.h>
#include <stdint.h>

#include "algolmallet.h"

enum {
    RIG_FILE_MAX = ALGOLMALLET_FILE_BYTES,
    RUN_LINE = 4,                      /* RUN and its LF */
    RIG_ROOM = RIG_FILE_MAX + RUN_LINE /* enough to see that a rig is too long, whatever follows it */
};

struct rig_part {
    size_t length;   /* above RIG_FILE_MAX: too long, for the library to refuse */
    bool has_script; /* the line RUN followed, and was taken */
};

/* Reads up to the line RUN, to the end of the input, or until the rig is too long. */
struct rig_part read_rig(uint8_t text[RIG_ROOM]);

enum { LINE_ROOM = 64 }; /* no right script line is as long */

struct input_line {
    char text[LINE_ROOM]; /* without its LF */
    size_t length;
    bool whole; /* it ended in LF and there was room for all of it */
};

/* Reads the next line; false at the end of the input. */
bool read_line(struct input_line *line);

#endif
