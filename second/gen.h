/*
 * Random inputs for the bench runner: a rig, RUN and a script, the same for
 * the same seed and index.  The kind of an input follows from its index, so
 * that a run of some length has each kind often enough.
 */
#ifndef SECOND_GEN_H
#define SECOND_GEN_H

#include "chance.h"
#include "exec.h"
#include "rig.h"

/* Appends input `index` of `seed`. */
void gen_input(uint64_t seed, uint64_t index, text *out);

/* What kind of input it is. */
const char *gen_kind_name(uint64_t index);

/* Inputs of one round, after which the kinds come again. */
unsigned gen_round(void);

/* The same for the lines of entries.h. */
void gen_entries_input(uint64_t seed, uint64_t index, text *out);

/* The same for the panel. */
void gen_panel_input(uint64_t seed, uint64_t index, text *out);
const char *gen_panel_name(uint64_t index);

/* ---- Lines put between those of a script (gen_weave.c) ---- */

/* Appends a line that leaves the record as it is; `tasks` is how many tasks the input's rig says that it has. */
typedef void line_adder(chance *c, unsigned tasks, text *out);

/* The panel's V, O and Y, now and then with wrong fields; H, P and I of entries.h. */
line_adder add_question, add_overruns_question, add_why_question;
line_adder add_harmed_question, add_harmed_overruns_question, add_harmed_why_question;

/* The d of a question why: mostly 0 to 3, else 4 or above. */
unsigned gen_links_asked(chance *c);

/*
 * Adds such a line before so many of a hundred lines of the script of the input that begins at `start` of `out`.  The
 * script's own lines mean what they meant.
 */
void gen_weave(chance *c, unsigned percent, line_adder *add, size_t start, text *out);

/* ---- Inputs for the stream (gen_stream.c) ---- */

enum {
    USUAL_ROOM = 65536, /* bytes that a runner is likely to have room for, of input and of output */
    NEAR_ROOM = 16,     /* lengths so many bytes below and above it are of interest */
    FAR_LINE = 4096,    /* a fault past it is far */
    SHORT_INPUT = 6000  /* bytes: short enough to be fed one by one */
};

/* How an input comes to the program. */
typedef enum { FED_AS_FILE, FED_IN_PIECES, FED_BYTE_BY_BYTE, FEEDINGS } feeding;

void gen_stream_input(uint64_t seed, uint64_t index, text *out);
const char *gen_stream_name(uint64_t index);
feeding gen_stream_feeding(uint64_t index);

/* ---- Inputs for the wiring sheet (gen_wiring.c) ---- */

void gen_wiring_input(uint64_t seed, uint64_t index, text *out);
const char *gen_wiring_name(uint64_t index);
feeding gen_wiring_feeding(uint64_t index);

/* Loads for measuring: a full-size rig with so many ticks; a small rig with about so many mixed lines. */
void gen_ticks_load(uint64_t seed, unsigned ticks, text *out);
void gen_mixed_load(uint64_t seed, unsigned lines, text *out);

/* The same for a rig of that size (2 tasks at least): so many lines, nearly all of which do the same work whatever the size. */
typedef struct {
    unsigned tasks, a_lines, rows;
} growth;

void gen_growth_load(uint64_t seed, unsigned lines, const growth *size, text *out);

/* ---- Right rigs (gen_rig.c) ---- */

typedef enum { SIZE_SMALL, SIZE_MEDIUM, SIZE_FULL } rig_size;

void gen_rig(chance *c, rig_size size, rig *out);

/* Tasks that their own flag's off activates again. */
void gen_restarting_rig(chance *c, rig *out);

/* Families whose cancelled flags start watchers outside, in an order that shows. */
void gen_family_rig(chance *c, rig *out);

/* Watchers that start or not by which of two flags is served first. */
void gen_race_rig(chance *c, rig *out);

/* Tasks that start when they are scheduled, so that many wait at once; task 1 acts when the others rest. */
void gen_sleepers_rig(chance *c, rig *out);

/* Tasks that wait for flags, and tasks that flags start in chains, so that one signal is heard by several in several ways. */
void gen_listeners_rig(chance *c, rig *out);

/* Tasks that run again when they finish or are terminated, or wait for what another's end undoes. */
void gen_again_rig(chance *c, rig *out);

/* Tasks that minor-cycle flags start: one or several, in conditions of their own or in two; and other conditions beside them. */
void gen_overruns_rig(chance *c, rig *out);

/*
 * Tasks that wait for each other's activation flags, to go on or off, in chains and in circles; for minor-cycle and plain
 * flags at a chain's end; and for several flags of which one may help.
 */
void gen_links_rig(chance *c, rig *out);

/* Two tasks with nearly all of 15 minor-cycle flags each, and all of these in every cycle: the soonest way to a number's stop. */
void gen_stop_rig(chance *c, rig *out);

/* 64 tasks and a cycle of 15 flags, whose tick can serve 79. */
void gen_full_serving_rig(chance *c, rig *out);

/*
 * A rig of just that size.  Of the tasks under task 1 every third stays
 * inactive; the others start when they are scheduled.
 */
void gen_growth_rig(chance *c, const growth *size, rig *out);

enum { SIGNALLED_MAX = 40, NEVER_SIGNALLED = FLAGS_MAX }; /* flags of a growth rig's conditions */

bool growth_stays(unsigned task);

void gen_print_rig(const rig *r, text *out);

/* The line RUN. */
void gen_add_run(text *out);

/* ---- Scripts (gen_script.c) ---- */

typedef struct {
    unsigned lines;   /* at most */
    unsigned wild;    /* percent of calls with any numbers */
    unsigned damaged; /* percent of lines of wrong shape */
} script_form;

/* Plays a script on a right rig, choosing by who runs and who waits. */
void gen_script(chance *c, const rig *r, const script_form *form, text *out);

/* Plays the script that makes a full serving rig serve 79, more than once. */
void gen_full_serving_script(chance *c, const rig *r, text *out);

/* Plays a race rig: keeps its tasks ready, starts runners together, cancels them together. */
void gen_race_script(chance *c, const rig *r, unsigned lines, text *out);

/* Plays a sleepers rig: many wait on time, some are cancelled or terminated, most often the earliest; or nobody runs. */
void gen_sleepers_script(chance *c, const rig *r, unsigned lines, text *out);

/* Plays a listeners rig: its tasks wait for flags or finish, and whoever runs signals. */
void gen_listeners_script(chance *c, const rig *r, unsigned lines, text *out);

/* Plays such a rig: its tasks finish, or wait for each other's activation flags to go off or on; task 1 terminates. */
void gen_again_script(chance *c, const rig *r, unsigned lines, text *out);

/* Plays an overruns rig: its tasks stay active over some ticks, or end, are cancelled and scheduled anew; O lines ask in between. */
void gen_overruns_script(chance *c, const rig *r, unsigned lines, text *out);

/* Plays a links rig: its tasks are made ready in any order, start, end and wait; Y lines ask in between, mostly of an inactive one. */
void gen_links_script(chance *c, const rig *r, unsigned lines, text *out);

/* Ticks a stop rig past both numbers' stops, and asks around them; then ends, cancels and schedules those tasks. */
void gen_stop_script(chance *c, const rig *r, text *out);

/* Plays a growth rig: puts its tasks to waits of both kinds, then ticks, signals and reads by turns. */
void gen_growth_script(chance *c, const rig *r, unsigned lines, text *out);

/* The lines of entries.h among the runner's. */
void gen_entries_script(chance *c, const rig *r, unsigned lines, text *out);

/* ---- Damaged rigs (gen_damage.c) ---- */

/* A rig file with a line that is refused by 1, 2 or 3. */
void gen_bad_line_rig(chance *c, enum refusal refusal, text *out);

/* A rig file that breaks the named rule. */
void gen_bad_rule_rig(chance *c, rig_rule rule, text *out);

/* A rig file with several damages, of lines and of bytes. */
void gen_fuzzed_rig(chance *c, text *out);

/* A file at the edge of 40,960 bytes or past it. */
void gen_long_rig(chance *c, text *out);

#endif
