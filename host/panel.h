/*
 * The panel's lines, for what was asked for after the bench runner's script:
 *
 *   V         "When does the bench next wake someone?" (request L4)
 *   O task    how many starts of the task came too soon (request L6)
 *   Y task d  "Why won't it start?" within d links (request L13)
 *
 * Each prints what the other calls print. Then V prints, if a task waits on time, the lowest waking count of those that do; O prints,
 * if it is accepted, the task's number of overruns; Y prints, if it is accepted and the task cannot start, the position of the lowest condition that
 * blocks.
 */
#ifndef HOST_PANEL_H
#define HOST_PANEL_H

#include <stdbool.h>

#include "algolmallet.h"
#include "script.h"

/* Runs a line with the verb V, O or Y and prints its answer; false, with nothing done, if it is none. */
bool run_panel_call(algolmallet_record *record, const struct script_line *line);

#endif
