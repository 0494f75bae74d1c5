/*
 * The wiring sheet: how often in a major frame each row is due, and how often
 * each terminal is spoken to (request L11).
 *
 * As lines, with a tab between the fields:
 *
 *   ROW row times phase period    for each row, from 1
 *   TERMINAL address commands     for each address that is spoken to, rising
 *
 * A rig with no rows has no such line.  As a table the first line is KIND,
 * NUMBER, TIMES and the numbers of the cycles, 0 to 63, also if there are no
 * rows.  Then each row and each terminal that is spoken to has a line: kind,
 * number, times or commands, and a field for each cycle.  In a row's line that
 * is 1 where the row is due, in a terminal's how many commands go to it; it is
 * empty where there is none.
 */
#ifndef SECOND_WIRING_H
#define SECOND_WIRING_H

#include <stddef.h>

#include "rig.h"

typedef enum { WIRING_LINES, WIRING_TABLE } wiring_form;

/* The longest sheet needs less: a header, 64 rows and 32 terminals of up to 209 bytes each. */
enum { WIRING_ROOM = 24576 };

/* Writes the whole sheet of a right rig and answers its length. */
size_t wiring_print(char out[WIRING_ROOM], const rig *r, wiring_form form);

#endif
