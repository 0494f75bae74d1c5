/*
 * The bench runner over two file descriptors: a rig, the line RUN, a script.
 *
 * The rig ends before the first line that is exactly RUN and LF; without one
 * the whole input is the rig.  The script streams through one buffer: lines
 * may have any length and any bytes.  All lines that were read are answered
 * before more is read; many lines that come together are answered by one write.
 */
#ifndef SECOND_RUNNER_H
#define SECOND_RUNNER_H

#include <stdbool.h>
#include <stddef.h>
#include <stdint.h>

/* Where the rig ends in an input, seen from its first bytes. */
typedef struct {
    size_t rig_length;
    bool has_script; /* a RUN line follows; the script starts 4 bytes on */
} input_parts;

/* Bytes of an input that decide its parts: past them a rig is too long anyway. */
enum { RUN_LINE_LENGTH = 4, HEAD_MAX = 40960 + RUN_LINE_LENGTH };

/*
 * The parts of an input whose first bytes are `head`: all of it if shorter
 * than HEAD_MAX.  A rig without RUN within HEAD_MAX bytes is longer than a
 * rig may be.
 */
input_parts find_parts(const uint8_t *head, size_t length);

/* Answers 0, or -1 if reading or writing failed. */
int runner_run(int in, int out);

/* The same with the lines of entries.h, or of panel.h, besides. */
int runner_run_entries(int in, int out);
int runner_run_panel(int in, int out);

/* Reads a rig (the whole input, or up to RUN) and writes it back. */
int runner_echo_rig(int in, int out);

/*
 * Reads a rig likewise and writes its wiring sheet (wiring.h).  A refused rig is told as RIG, number, line.  `words`,
 * ended by NULL, are none for the sheet as lines, --table for the table; any others are answered by how it is used.
 */
int runner_wiring(int in, int out, char *const *words);

#endif
