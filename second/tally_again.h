/* What inputs hit of tasks that run again: the test behind finish and terminate (request L3). */
#ifndef SECOND_TALLY_AGAIN_H
#define SECOND_TALLY_AGAIN_H

#include <stdbool.h>
#include <stdint.h>
#include <stdio.h>

#include "exec.h"

enum { TEST_OUTCOMES = TEST_AGAIN + 1 };

typedef struct {
    uint64_t finished[TEST_OUTCOMES];   /* finishes, by what the test found */
    uint64_t terminated[TEST_OUTCOMES]; /* the same of terminates */
    uint64_t active_desired;            /* active already, and all its conditions stand as desired */
    uint64_t undone;                    /* conditions as desired before the call, and not at the test, behind several services */
    /* Of tasks that the test made active again: */
    uint64_t conditioned;               /* all conditions stand as desired, and there are some */
    uint64_t too_soon;                  /* one of them unlatched: a start came while the task was active */
    uint64_t on_woke, on_activated;     /* the services behind the test woke somebody, activated somebody */
    uint64_t off_and_on_woke;           /* services before the test and behind it woke somebody */
    uint64_t others_activated;          /* services before the test activated somebody */
    uint64_t told_zero;                 /* neither number shows it */
    uint64_t gave_way_to_rank;          /* it finished, and another of higher rank runs */
    uint64_t gave_way_to_number;        /* it finished, and another of its rank and a lower number runs */
    uint64_t ahead_of_equals;           /* it finished and runs, ahead of another of its rank */
    uint64_t left;                      /* calls behind which an inactive task has all conditions as desired: never */
} again_tally;

/* An accepted call, with the task that it ended, 0 for none. */
void tally_again_call(again_tally *t, unsigned ended, const exec *before, const exec *after, const answer *a);

void tally_again_print(const again_tally *t, FILE *to);

/* Prints what was hit fewer than `least` times, and what never may be hit and was; answers how many such there are. */
unsigned tally_again_missing(const again_tally *t, uint64_t least, FILE *to);

#endif
