/* What inputs hit of the wiring sheet (request L11), and the sheets that they must have. */
#ifndef SECOND_TALLY_WIRING_H
#define SECOND_TALLY_WIRING_H

#include <stdint.h>
#include <stdio.h>

#include "chance.h"
#include "rig.h"
#include "wiring.h"

enum { PERIODS = 7 };

typedef struct {
    uint64_t period[PERIODS];                  /* rows of period 1, 2, 4 and so on up to 64 */
    uint64_t phase_0, phase_above;             /* rows of phase 0, and of another */
    uint64_t from_master, to_master, between;  /* rows by their ends */
    uint64_t one_command, more_commands;       /* terminals with so many in a cycle, over all cycles */
    uint64_t one_a_frame;                      /* terminals with one command in the whole frame */
    uint64_t address_0, address_31;            /* rigs in which that is spoken to */
    uint64_t no_rows, all_rows;                /* rigs with none, and with 64 */
    uint64_t refused[BAD_RIG + 1];
    uint64_t with_run;                         /* inputs with a line RUN */
} wiring_tally;

void tally_wiring_input(wiring_tally *t, const text *input);

/* Appends what the program must print for an input. */
void tally_wiring_output(const text *input, wiring_form form, text *output);

void tally_wiring_print(const wiring_tally *t, FILE *to);

/* Prints what was hit fewer than `least` times and answers how many such there are. */
unsigned tally_wiring_missing(const wiring_tally *t, uint64_t least, FILE *to);

#endif
