/*
 * Runs an input in memory, gives the output it must have, and counts what it
 * hit: the reference side of the comparison.
 */
#ifndef SECOND_TALLY_H
#define SECOND_TALLY_H

#include <stdbool.h>
#include <stdint.h>
#include <stdio.h>

#include "chance.h"
#include "paper.h"
#include "rig.h"
#include "tally_again.h"
#include "tally_heard.h"
#include "tally_overruns.h"
#include "tally_panel.h"
#include "tally_stream.h"
#include "tally_why.h"
#include "tally_wiring.h"

enum { REFUSALS = NOT_SOUND + 1 };

typedef struct {
    uint64_t inputs;
    uint64_t lines;
    uint64_t call[128][REFUSALS];  /* by verb and answer; ? is refused by 1 */
    uint64_t start[REFUSALS];
    uint64_t rule[RIG_RULE_COUNT];
    uint64_t cascades;             /* calls that served more than they queued themselves */
    uint64_t deepest;              /* most activations in one call */
    uint64_t most_served;
    uint64_t served_most;          /* calls that served 79 */
    uint64_t no_waits;             /* waits satisfied at once */
    uint64_t woken[128];           /* waits by verb that ended by waking */
    uint64_t cancelled[128];       /* by X, by the verb that began the wait */
    uint64_t terminated[128];      /* by Z */
    stream_tally stream;
    panel_tally panel;
    heard_tally heard;
    again_tally again;
    overruns_tally overruns;
    why_tally why;
    wiring_tally wiring;
} tally;

/* Which lines a program takes: the runner's alone, or those of entries.h or panel.h besides. */
typedef enum { RUNNER_LINES, ENTRIES_LINES, PANEL_LINES } line_set;

/* Appends the right output of an input, for a program that takes these lines. */
void tally_run(tally *t, const text *input, line_set taken, text *output);

void tally_print(const tally *t, FILE *to);

/* 1, and a line on it, if this was hit fewer than `least` times; else 0. */
unsigned tally_seldom(uint64_t hit, uint64_t least, FILE *to, const char *what, const char *which);

/* Prints what was hit fewer than `least` times; answers how many such there are. */
unsigned tally_missing(const tally *t, uint64_t least, FILE *to);

/* The same of the calls with one of the verbs `of` alone: accepted, and by each refusal that a run can give. */
unsigned tally_missing_calls(const tally *t, const char *of, uint64_t least, FILE *to);

#endif
