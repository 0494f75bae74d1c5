/* What inputs hit of the stream: lines and outputs about the length of a room, late faults, ways of feeding. */
#ifndef SECOND_TALLY_STREAM_H
#define SECOND_TALLY_STREAM_H

#include <stdbool.h>
#include <stdint.h>
#include <stdio.h>

#include "gen.h"

typedef struct {
    uint64_t tails;      /* over-long lines that are a right line behind a full room */
    uint64_t below;      /* lines that, with their LF, just go into a room */
    uint64_t above;      /* and that just do not */
    uint64_t unfinished; /* over-long last lines without LF */
    uint64_t far_faults; /* rigs refused past line 4,096 */
    uint64_t places;     /* of a room: those at which an answer began */
    bool began[USUAL_ROOM];
    uint64_t fed[FEEDINGS];
} stream_tally;

/* A script line without its LF, if it has one, and where in the output its answer begins. */
void tally_stream_line(stream_tally *t, const uint8_t *line, size_t length, bool has_lf, size_t place);
void tally_stream_verdict(stream_tally *t, const rig_verdict *v);

void tally_stream_print(const stream_tally *t, FILE *to);

/* Prints what was hit fewer than `least` times, inputs fewer than half of that; answers how many such there are. */
unsigned tally_stream_missing(const stream_tally *t, uint64_t least, FILE *to);

#endif
