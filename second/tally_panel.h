/* What inputs hit of the panel's question when the bench next wakes someone. */
#ifndef SECOND_TALLY_PANEL_H
#define SECOND_TALLY_PANEL_H

#include <stdbool.h>
#include <stdint.h>
#include <stdio.h>

#include "entries.h"
#include "exec.h"

typedef struct {
    uint64_t counts;      /* V answered with a waking count */
    uint64_t nones;       /* V answered with none */
    uint64_t nobody_runs; /* V accepted while no task is running */
    uint64_t several;     /* answers with a count where two or more wait on time */
    uint64_t overtaken;   /* answers with a count that is not of the task that began to wait first */
    uint64_t struck;      /* answers next after the earliest to wake was cancelled or terminated */
    uint64_t fields;      /* V lines with something behind the verb, which are no lines */
    uint64_t off;         /* V lines for a program without the panel's verbs */
    uint64_t harmed[HARMS]; /* lines H that are answered as they must be: by 12 for all harms but none */
} panel_tally;

/* What one input's tasks did: in what order they began to wait on time, and whether the earliest of them was struck. */
typedef struct {
    uint32_t begun; /* waits so far */
    uint32_t began[TASKS_MAX + 1];
    bool struck; /* since the last question */
} panel_waits;

/* After an accepted call by `caller`, which may have begun to wait; `strikes` for a cancel or terminate. */
void tally_panel_waits(panel_waits *w, const exec *before, const exec *after, unsigned caller, bool strikes);

/* The answer to V on this record, which is sound. */
void tally_panel_answer(panel_tally *t, panel_waits *w, const exec *e, const answer *a);

void tally_panel_harmed(panel_tally *t, const entries_call *call, const answer *a);

void tally_panel_print(const panel_tally *t, FILE *to);

/* Each prints what was hit fewer than `least` times and answers how many such there are: of V, of V for the runner, of H. */
unsigned tally_panel_missing(const panel_tally *t, uint64_t least, FILE *to);
unsigned tally_panel_missing_off(const panel_tally *t, uint64_t least, FILE *to);
unsigned tally_panel_missing_harmed(const panel_tally *t, uint64_t least, FILE *to);

#endif
