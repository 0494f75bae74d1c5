/*
 * Prints an input:
 *   gen SEED INDEX           as the comparison makes it
 *   gen SEED INDEX entries   the same of the inputs with lines of entries.h
 *   gen SEED INDEX stream    the same of the inputs that try the stream
 *   gen SEED INDEX panel     the same of the inputs for the panel
 *   gen SEED INDEX wiring    the same of the inputs for the wiring sheet
 *   gen SEED N ticks         a full-size rig with N ticks
 *   gen SEED N mixed         a small rig with about N lines of all verbs
 *   gen SEED N growth TASKS A ROWS   a rig of that size with about N lines, nearly all of which do the same work
 */
#include <limits.h>
#include <stdio.h>
#include <string.h>

#include "gen.h"
#include "numbers.h"

static bool print_input(const char *what, uint64_t seed, uint64_t index, text *out)
{
    if (strcmp(what, "input") == 0)
        gen_input(seed, index, out);
    else if (strcmp(what, "entries") == 0)
        gen_entries_input(seed, index, out);
    else if (strcmp(what, "stream") == 0)
        gen_stream_input(seed, index, out);
    else if (strcmp(what, "panel") == 0)
        gen_panel_input(seed, index, out);
    else if (strcmp(what, "wiring") == 0)
        gen_wiring_input(seed, index, out);
    else
        return false;
    return true;
}

static bool print_load(const char *what, uint64_t seed, uint64_t number, text *out)
{
    if (number > UINT_MAX)
        return false;
    if (strcmp(what, "ticks") == 0)
        gen_ticks_load(seed, (unsigned)number, out);
    else if (strcmp(what, "mixed") == 0)
        gen_mixed_load(seed, (unsigned)number, out);
    else
        return false;
    return true;
}

static bool print_growth(char *const size[3], uint64_t seed, uint64_t number, text *out)
{
    growth g;
    if (number > UINT_MAX || !small_number_of(size[0], 2, TASKS_MAX, &g.tasks) ||
        !small_number_of(size[1], 0, A_LINES_MAX, &g.a_lines) || !small_number_of(size[2], 0, ROWS_MAX, &g.rows))
        return false;
    gen_growth_load(seed, (unsigned)number, &g, out);
    return true;
}

static bool print_asked(int argc, char **argv, text *out)
{
    uint64_t seed, number;
    if (argc < 3 || !number_of(argv[1], 0, UINT64_MAX, &seed) || !number_of(argv[2], 0, UINT64_MAX, &number))
        return false;
    if (argc == 7 && strcmp(argv[3], "growth") == 0)
        return print_growth(argv + 4, seed, number, out);
    if (argc > 4)
        return false;
    const char *what = argc == 4 ? argv[3] : "input";
    return print_input(what, seed, number, out) || print_load(what, seed, number, out);
}

static const char usage[] = "usage: gen SEED INDEX [entries|stream|panel|wiring]\n"
                            "       gen SEED N ticks|mixed\n"
                            "       gen SEED N growth TASKS A ROWS\n"
                            "Numbers are decimal, without spare zeros; TASKS is 2 to 64, A 0 to 1024, ROWS 0 to 64.\n";

int main(int argc, char **argv)
{
    text out = {NULL, 0, 0};
    if (argc == 2 && strcmp(argv[1], "--help") == 0) {
        fputs(usage, stdout);
        return 0;
    }
    if (!print_asked(argc, argv, &out)) {
        fputs(usage, stderr);
        return 2;
    }
    bool written = (out.length == 0 || fwrite(out.bytes, 1, out.length, stdout) == out.length) && fflush(stdout) == 0;
    text_free(&out);
    if (!written)
        perror("gen");
    return written ? 0 : 1;
}
