/* What inputs hit of the panel's question why a task won't start (request L13). */
#ifndef SECOND_TALLY_WHY_H
#define SECOND_TALLY_WHY_H

#include <stdbool.h>
#include <stdint.h>
#include <stdio.h>

#include "entries.h"
#include "exec.h"
#include "panel.h"
#include "why.h"

/* By what a flag brings a condition about, or that it does not. */
typedef enum { ON_BY_MINOR, ON_BY_PLAIN, ON_BY_LINK, OFF_BY_PLAIN, OFF_BY_ACTIVE, BROUGHT_WAYS, NOT_BROUGHT = BROUGHT_WAYS } brought_way;

typedef struct {
    uint64_t yes[LINKS_MAX + 1], no[LINKS_MAX + 1]; /* Y answered so, by d */
    uint64_t needed[LINKS_MAX + 1];   /* yes at d, and no at one less; [0] is not used */
    uint64_t at_0, above_0;           /* no, by a condition at position 0 and at one above it */
    uint64_t behind_brought;          /* no, by a condition behind one that does not stand and can be brought there */
    uint64_t behind_standing;         /* no, by a condition behind one that stands */
    uint64_t of_several;              /* no, by the lowest of several that block */
    uint64_t brought[BROUGHT_WAYS];   /* yes, with a condition that is brought about so */
    uint64_t one_helps;               /* yes, with a condition of several flags of which one alone brings it about */
    uint64_t stands_fast;             /* yes, with a condition that stands and could not be brought there */
    /* No, by a condition that has the activation flag of such a task: */
    uint64_t on_by_active, on_by_uninvoked; /* and desires on */
    uint64_t off_by_inactive;         /* and desires off */
    uint64_t circles;                 /* no at d of 3, of a task that waits for itself, over one link or two */
    uint64_t task_0, too_high;        /* refused by 6 */
    uint64_t uninvoked, waiting, dispatchable; /* refused by 8 */
    uint64_t links_4, links_above;    /* refused by 11 */
    uint64_t no_such_first;           /* refused by 6 with a d above 3 */
    uint64_t state_first;             /* refused by 8 with a d above 3 */
    uint64_t nobody_runs;             /* accepted while no task is running */
    uint64_t fields, off;             /* Y lines with wrong fields, and for a program without the panel's verbs: no lines */
    uint64_t harmed[HARMS];           /* lines I of an inactive task with a right d, answered as they must be */
    uint64_t harmed_first;            /* lines I with no such task, another state or a d above 3, refused by 12 all the same */
    uint64_t sound_yes, sound_no;     /* answered so on a sound copy */
    uint64_t sound_refused[NOT_SOUND]; /* refused by 6, 8 and 11 on a sound copy */
} why_tally;

/* The answer to Y on this record, which is sound. */
void tally_why_answer(why_tally *t, const panel_call *call, const exec *e, const answer *a);

/* The answer to I, asked of a copy of this record. */
void tally_why_harmed(why_tally *t, const entries_call *call, const exec *e, const answer *a);

void tally_why_print(const why_tally *t, FILE *to);

/* Each prints what was hit fewer than `least` times and answers how many such there are: of Y, of Y for the runner, of I. */
unsigned tally_why_missing(const why_tally *t, uint64_t least, FILE *to);
unsigned tally_why_missing_off(const why_tally *t, uint64_t least, FILE *to);
unsigned tally_why_missing_harmed(const why_tally *t, uint64_t least, FILE *to);

#endif
