/*
 * The entries that no line of the bench runner's script reaches: block write
 * and block read of the compool area, a tick with a buffer of any length, and
 * the panel's questions asked of records that are not sound.
 *
 * Input is as the runner's: a rig, the line RUN, script lines.  All lines of
 * the runner mean the same here and print the same.  There are also
 *
 *   W row area words first   block write.  The area lent is the first `area`
 *                            words of the program's own; the data lent is
 *                            `words` words: first, first + 1, ... modulo 65,536
 *   D row area words         block read into a buffer of `words` words
 *   J room                   a tick lent a buffer of `room` words
 *   H harm                   the next waking, asked of a copy of the record
 *                            that was harmed: 0 not at all, 1 by a refused
 *                            start, 2 all its bytes 0, 3 all 255, 4 the first
 *                            half of them 255, 5 the second half
 *   P harm task              the task's overruns, asked of such a copy
 *   I harm task d            "Why won't it start?" within d links, asked of such
 *                            a copy
 *
 * with tabs between the fields, `area` up to 4,096, `words` up to 64, `room`
 * up to 256, `harm` up to 5; larger numbers are of wrong shape (? alone).  The
 * program's area has 4,096 words, at the start word i (from 0) is (7 i + 1)
 * modulo 65,536; a buffer lent to D or J holds before the call, at word i,
 * 9 i + 2.
 *
 * W, D and J print verb, answer, count, running task, woken, activated, the
 * number of flags served (0 if refused) and then, also if refused, one check
 * number: of the whole area for W, of the whole lent buffer (all `words` or
 * `room` of it) for D and J.  So what a refused call writes, and what an accepted one writes past
 * its own words, is seen.  The check number of words w0, w1, ... starts as 0
 * and with each becomes (31 check + word) modulo 65,521.
 *
 * H, P and I print verb, answer, flags served, words, value, woken and activated, as
 * they are told (of H a value of 0 for none, of I one of 16 for a task that can
 * start), and then answer and value once more, asked of the copy when the harmed
 * bytes have been put back: the question has left the others as they were.  Count and running task are not printed: a
 * harmed record may have any.
 */
#ifndef SECOND_ENTRIES_H
#define SECOND_ENTRIES_H

#include <stdbool.h>
#include <stddef.h>
#include <stdint.h>

#include "exec.h"

enum { ENTRIES_AREA_WORDS = 4096, ENTRIES_DATA_MAX = 64, ENTRIES_ROOM_MAX = 256 };

/* The program's own compool area. */
typedef struct {
    uint16_t word[ENTRIES_AREA_WORDS];
} entries_area;

void entries_fill_area(entries_area *area);

/* What H, P and I do to their copy of the record. */
enum harm { HARM_NONE, HARM_REFUSED_START, HARM_ZEROS, HARM_ALL, HARM_FIRST_HALF, HARM_SECOND_HALF, HARMS };

typedef struct {
    char verb;      /* W, D, J, H, P or I */
    uint32_t row;   /* W, D */
    uint32_t area;  /* W, D */
    uint32_t words; /* W, D: data words; J: room */
    uint32_t first; /* W */
    uint32_t harm;  /* H, P, I */
    uint32_t task;  /* P, I */
    uint32_t links; /* I */
} entries_call;

/* Whether a line without its LF is one of these. */
bool entries_judge(const uint8_t *line, size_t length, entries_call *out);

/* Makes the call and prints its line; answers the line's length. */
size_t entries_run(exec *e, entries_area *area, const entries_call *call, answer *a, char *out);

#endif
