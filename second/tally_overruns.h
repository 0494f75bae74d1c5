/* What inputs hit of starts that came too soon: the panel's question for a task's overruns (request L6). */
#ifndef SECOND_TALLY_OVERRUNS_H
#define SECOND_TALLY_OVERRUNS_H

#include <stdbool.h>
#include <stdint.h>
#include <stdio.h>

#include "entries.h"
#include "exec.h"
#include "panel.h"
#include "script.h"

typedef struct {
    uint64_t zero, above_zero, above_one; /* O answered with such a number */
    uint64_t stopped;                     /* answered with 65,535 */
    uint64_t task_0, too_high;            /* refused by 6, for task 0 and for a task that the rig does not have */
    uint64_t nobody_runs;                 /* accepted while no task is running */
    uint64_t inactive, uninvoked;         /* a number above 0 of a task that is not active: finish, terminate and cancel keep it */
    uint64_t reset;                       /* of a task whose number a schedule set to 0 from above it */
    /* Answers to whose number such a service added, since the task's schedule: */
    uint64_t waiting;                     /* while the task was waiting */
    uint64_t doubled;                     /* of a flag that two or more of the task's conditions name */
    uint64_t same_call;                   /* behind one of the same call that activated the task */
    uint64_t fields, off;                 /* O lines with wrong fields, and for a program without the panel's verbs: no lines */
    uint64_t harmed[HARMS];               /* lines P with a task, answered as they must be: by 12 for all harms but none */
    uint64_t harmed_no_task;              /* lines P with no such task, refused by 12 all the same */
    uint64_t sound_no_task;               /* refused by 6 on a sound copy */
    uint64_t sound_above_zero;            /* answered with a number above 0 on a sound copy */
} overruns_tally;

/* What one input did to its tasks since each was scheduled. */
typedef struct {
    bool reset[TASKS_MAX + 1];
    bool waiting[TASKS_MAX + 1], doubled[TASKS_MAX + 1], same_call[TASKS_MAX + 1];
} overruns_history;

/* An accepted call of a script. */
void tally_overruns_call(overruns_history *h, const script_call *call, const exec *before, const exec *after);

/* The answer to O on this record, which is sound. */
void tally_overruns_answer(overruns_tally *t, const overruns_history *h, uint32_t task, const exec *e, const answer *a);

/* The answer to P, asked of a copy of this record. */
void tally_overruns_harmed(overruns_tally *t, const entries_call *call, const exec *e, const answer *a);

void tally_overruns_print(const overruns_tally *t, FILE *to);

/* Each prints what was hit fewer than `least` times and answers how many such there are: of O, of O for the runner, of P. */
unsigned tally_overruns_missing(const overruns_tally *t, uint64_t least, FILE *to);
unsigned tally_overruns_missing_off(const overruns_tally *t, uint64_t least, FILE *to);
unsigned tally_overruns_missing_harmed(const overruns_tally *t, uint64_t least, FILE *to);

#endif
