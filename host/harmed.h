/*
 * What the library makes of memory that is no sound record: the panel's questions, asked of a copy of the record that was harmed.
 *
 *   H harm         the next waking; harm is 0 for the copy as it is, 1 after a refused start, 2 all its bytes 0, 3 all 255,
 *                  4 the first half of them 255, 5 the second half
 *   P harm task    the task's overruns
 *   I harm task d  "Why won't it start?" within d links
 *
 * Prints verb, answer, flags served, words, value, woken and activated as the reply has them (of H a value of 0 for none, of I one of 16 for a task that can start), and then answer
 * and value once more, asked of the copy when the harmed bytes have been put back: the question has left the others as they were. Count and
 * running task are not printed: a harmed record may have any.
 */
#ifndef HOST_HARMED_H
#define HOST_HARMED_H

#include <stdbool.h>

#include "algolmallet.h"
#include "script.h"

/* Runs a line with the verb H, P or I and prints its answer; false, with nothing done, if it is none. */
bool run_harmed_call(const algolmallet_record *record, const struct script_line *line);

#endif
