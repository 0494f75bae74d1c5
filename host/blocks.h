/*
 * The calls that no line of the bench runner's script reaches: compool blocks, and a tick with a buffer of any length.
 *
 *   W row area words first   block write; lends the first `area` words of the host's compool area,
 *                            and `words` words of data: first, first + 1, ...
 *   D row area words         block read into a buffer of `words` words
 *   J room                   a tick lent a buffer of `room` words
 *
 * The area has 4,096 words, word i is 7 i + 1 at the start; `words` is at most 64, `room` at most 256. A buffer lent
 * to D or J holds 9 i + 2 at word i before the call. Each prints what the other calls print, the flags that were served,
 * and then a sum, refused or not: over the whole area for W, over the whole lent buffer for D and J. So words that must stay are seen to stay.
 * The sum starts as 0, and with each word it becomes (31 sum + word) modulo 65,521.
 */
#ifndef HOST_BLOCKS_H
#define HOST_BLOCKS_H

#include <stdbool.h>

#include "algolmallet.h"
#include "script.h"

/* To be called once, before the first line. */
void fill_area(void);

/* Runs a line with the verb W, D or J and prints its answer; false, with nothing done, if it is none. */
bool run_block_call(algolmallet_record *record, const struct script_line *line);

#endif
