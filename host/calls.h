/* The script's calls on the record, and what each prints. */
#ifndef HOST_CALLS_H
#define HOST_CALLS_H

#include <stdbool.h>

#include "algolmallet.h"
#include "script.h"

/* Prints verb, answer, count, running task, woken and activated, with no LF yet. */
void print_reply(const char *verb, const algolmallet_reply *reply);

/* Runs a line with one of the verbs S X Z F K U R L N G Q and prints its answer; false, with nothing done, if it is none. */
bool run_call(algolmallet_record *record, const struct script_line *line);

#endif
