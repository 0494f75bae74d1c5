/* What inputs hit of the two numbers of a call: whom its services woke and whom they activated (request L2). */
#ifndef SECOND_TALLY_HEARD_H
#define SECOND_TALLY_HEARD_H

#include <stdbool.h>
#include <stdint.h>
#include <stdio.h>

#include "exec.h"
#include "script.h"

typedef struct {
    uint64_t woken, several_woken;         /* lines with one woken or more, with two or more */
    uint64_t activated, several_activated; /* the same of activated */
    uint64_t both;                         /* lines with neither number 0 */
    uint64_t sums;                         /* lines to whose numbers two or more services added */
    uint64_t unheard;                      /* signals that nobody heard */
    uint64_t other_value;                  /* signals while somebody waits for the flag's other value, and goes on waiting */
    uint64_t scheduled;                    /* schedules that activated their task and tell 0 activated */
    uint64_t schedule_heard;               /* schedules that activated their task, whose flag others heard */
    uint64_t due;                          /* ticks that woke somebody by their count and tell 0 woken */
    uint64_t due_and_heard;                /* ticks that woke somebody by their count, and whose flags others heard */
    uint64_t refused_next;                 /* refused calls next to a call with a number not 0 */
    uint64_t asked_next;                   /* lines V next to such a call */
    uint64_t blocks_next;                  /* lines W and D next to such a call */
    uint64_t any_room;                     /* ticks of any room (J) with a number not 0 */
} heard_tally;

/* A line that tells both numbers; *told is whether the line before it that does told one that is not 0. */
void tally_heard_line(heard_tally *t, bool *told, char verb, const answer *a);

/* An accepted call of a script, or a tick of any room as one. */
void tally_heard_call(heard_tally *t, const script_call *call, const exec *before, const exec *after, const answer *a);

void tally_heard_print(const heard_tally *t, FILE *to);

/* Each prints what was hit fewer than `least` times and answers how many such there are: of all lines, of V, of entries. */
unsigned tally_heard_missing(const heard_tally *t, uint64_t least, FILE *to);
unsigned tally_heard_missing_asked(const heard_tally *t, uint64_t least, FILE *to);
unsigned tally_heard_missing_entries(const heard_tally *t, uint64_t least, FILE *to);

#endif
