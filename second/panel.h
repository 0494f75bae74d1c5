/*
 * The panel: the bench runner with more verbs, those of requests that came
 * after the build paper.
 *
 * Input, output and streaming are the runner's, and all its lines mean the
 * same here and print the same.  There is also
 *
 *   V         "When does the bench next wake someone?" (request L4)
 *   O task    how many starts of the task came too soon (request L6)
 *   Y task d  "Why won't it start?" (request L13)
 *
 * each alone on its line, with a tab between the fields.  All print verb,
 * answer, count, running task, woken and activated (both 0: nothing is served).
 * Then V prints the lowest waking count among tasks waiting on time, nothing
 * more if no task so waits; O, if accepted, the task's number of overruns, also
 * if it is 0; Y, if accepted, the position of the lowest condition that blocks,
 * nothing more if the task can start within d links.  The record stays as it is.
 */
#ifndef SECOND_PANEL_H
#define SECOND_PANEL_H

#include <stdbool.h>
#include <stddef.h>
#include <stdint.h>

#include "exec.h"

typedef struct {
    char verb;      /* V, O or Y */
    uint32_t task;  /* O, Y */
    uint32_t links; /* Y */
} panel_call;

/* Whether a line without its LF is one of the panel's own. */
bool panel_judge(const uint8_t *line, size_t length, panel_call *out);

/* The question that the line asks. */
answer panel_ask(const exec *e, const panel_call *call);

/* Makes the call and prints its line; answers the line's length. */
size_t panel_run(const exec *e, const panel_call *call, answer *a, char *out);

#endif
