/* Another program, run once for each input: how the input comes to it, and what it prints. */
#ifndef SECOND_OTHER_H
#define SECOND_OTHER_H

#include <stdbool.h>

#include "chance.h"
#include "gen.h"

enum { COMMAND_WORDS = 32, PATH_ROOM = 512 };

typedef struct {
    char *word[COMMAND_WORDS + 1];
} command;

/* Splits a command line at spaces; the line's memory is used. */
command command_of(char *line);
bool is_given(const command *c);

/* The same command with one more word; none stays none. */
command command_with(const command *c, char *word);

/* Where inputs and outputs of runs are kept. */
typedef struct {
    char folder[PATH_ROOM];
    char input_path[PATH_ROOM + 8];
    char output_path[PATH_ROOM + 8];
} workplace;

void open_workplace(workplace *w);
void close_workplace(const workplace *w);

/* Ends this program, telling what failed. */
void die(const char *what);

void save_file(const char *path, const uint8_t *bytes, size_t length);

/*
 * Runs the command on the input and takes its output; false, with a message, if it ended badly.  In pieces, the input
 * comes through a pipe, and a piece comes when the one before has been read; `sizes` gives their lengths.
 */
bool run_other(const workplace *w, const command *c, const text *input, feeding how, chance sizes, text *output);

#endif
