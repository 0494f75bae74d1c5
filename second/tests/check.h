/* A small test frame: a test passes if all its checks hold. */
#ifndef SECOND_TESTS_CHECK_H
#define SECOND_TESTS_CHECK_H

#include <stdbool.h>

#include "chance.h"
#include "exec.h"
#include "rig.h"

void check_that(bool holds, const char *what, const char *file, int line);
void check_number(long long got, long long want, const char *what, const char *file, int line);
void check_text(const text *got, const char *want, const char *what, const char *file, int line);

#define CHECK(condition) check_that((condition), #condition, __FILE__, __LINE__)
#define CHECK_IS(got, want) check_number((long long)(got), (long long)(want), #got, __FILE__, __LINE__)

/* Runs one test and counts it. */
void run_test(const char *name, void (*test)(void));
#define RUN(test) run_test(#test, test)

/* ---- Inputs: texts are written with spaces where the file has tabs ---- */

void tabbed(const char *spaced, text *out);

/* Reads a rig that must be right. */
void read_right_rig(const char *spaced, rig *out);

/* A record started with such a rig. */
void start_with(const char *spaced, exec *out);

/* The output of the runner, or of another mode of the program, for an input given as bytes. */
enum run_mode {
    MODE_RUN,
    MODE_PANEL,
    MODE_ENTRIES,
    MODE_ECHO,
    MODE_WIRING,
    MODE_WIRING_TABLE,
    MODE_WIRING_OTHER, /* with a word that it does not take */
    MODE_WIRING_MORE,  /* with a word behind --table */
    MODE_WORDS,
    MODE_TERMINAL_ALL,
    MODE_MONITOR_ALL
};
void run_bytes(enum run_mode mode, const void *bytes, size_t length, text *output);

/* Runs the program on an input and checks its whole output. */
void check_run(enum run_mode mode, const char *input, const char *output, const char *file, int line);
#define CHECK_RUN(input, output) check_run(MODE_RUN, (input), (output), __FILE__, __LINE__)
#define CHECK_PANEL(input, output) check_run(MODE_PANEL, (input), (output), __FILE__, __LINE__)
#define CHECK_ENTRIES(input, output) check_run(MODE_ENTRIES, (input), (output), __FILE__, __LINE__)

/* Where the example rigs are. */
extern const char *rigs_folder;

/* ---- The tests, by file ---- */

void words_tests(void);
void rig_tests(void);
void exec_tests(void);
void serving_tests(void);
void heard_tests(void);
void again_tests(void);
void sound_tests(void);
void panel_tests(void);
void overruns_tests(void);
void why_tests(void);
void wiring_tests(void);
void runner_tests(void);
void gen_tests(void);

#endif
