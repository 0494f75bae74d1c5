/*
 * The executive of one processor: tasks, flags, waits, minor cycles and
 * dispatch ("Tasks and flags", "Tick").
 *
 * The record is plain data.  Waiting tasks stand in two arrays in the order
 * the paper gives its chains; there are no links.  A call judges first and
 * then changes the record, so a refused call leaves it unchanged.
 */
#ifndef SECOND_EXEC_H
#define SECOND_EXEC_H

#include <stdbool.h>
#include <stddef.h>
#include <stdint.h>

#include "paper.h"
#include "rig.h"

enum flag_kind { FLAG_PLAIN = 0, FLAG_ACTIVATION = 1, FLAG_MINOR = 2 };

/* What follows from the rig alone, set up once at the start. */
typedef struct {
    uint8_t kind[FLAGS_MAX + 1];
    /* The A lines of flag f are by_flag[first[f]] up to by_flag[first[f + 1]], in file order. */
    uint16_t first[FLAGS_MAX + 2];
    uint16_t by_flag[A_LINES_MAX];
} exec_plan;

enum wait_kind { WAIT_NONE = 0, WAIT_TIME = 1, WAIT_FLAG = 2 };

/* Unused members are 0; a task that does not wait has all 0. */
typedef struct {
    uint8_t kind;
    uint8_t flag;
    uint8_t value;
    uint32_t wake;
} exec_wait;

typedef struct {
    uint8_t tasks;
    uint8_t task[TASKS_MAX];
} exec_line;

typedef struct {
    rig rig;
    exec_plan plan;
    uint32_t count;
    uint8_t running;                        /* 0 for none */
    uint8_t state[TASKS_MAX + 1];           /* enum task_state */
    uint8_t value[FLAGS_MAX + 1];           /* of each flag */
    uint16_t condition[TASKS_MAX + 1];      /* values of a task's conditions by position */
    uint16_t overruns[TASKS_MAX + 1];       /* since its last schedule; stops at OVERRUNS_MAX */
    exec_wait wait[TASKS_MAX + 1];
    exec_line timed;   /* waiting on time: by waking count, then who began earlier */
    exec_line flagged; /* waiting on a flag, in order of beginning */
} exec;

/* What finish or terminate found when it tested its task again (request L3); none for other calls. */
enum test_outcome { TEST_NONE = 0, TEST_ACTIVE = 1, TEST_UNDESIRED = 2, TEST_AGAIN = 3 };

/* The test, and the two numbers of the services before it; not printed, the comparison counts by it. */
typedef struct {
    enum test_outcome outcome;
    uint8_t woken, activated;
} exec_test;

/* A refused call answers the refusal alone; all else is then 0. */
typedef struct {
    enum refusal refusal;
    uint8_t served;    /* flags served by this call */
    uint16_t words;    /* exec_tick: bus words written */
    uint32_t value;    /* exec_read_flag: the flag's; exec_next_waking: the waking count, 0 for none; exec_overruns: the number; exec_why_not: why.h */
    uint8_t woken;     /* "how many waiting tasks" the services of this call "made dispatchable" (request L2) */
    uint8_t activated; /* "and how many" they "activated"; a schedule's own activation is no service's, nor is a test's */
    uint8_t heard;     /* services that added to either; not printed, the comparison counts sums by it */
    exec_test test;
} answer;

/* A refused start (4) leaves a record of all zeros. */
answer exec_start(exec *e, const rig *r);

answer exec_schedule(exec *e, uint32_t task);
answer exec_cancel(exec *e, uint32_t task);
answer exec_terminate(exec *e, uint32_t task);
answer exec_finish(exec *e);
answer exec_wait_until(exec *e, uint32_t count);
answer exec_wait_cycles(exec *e, uint32_t cycles);
answer exec_wait_latched(exec *e, uint32_t flag, bool value);
answer exec_wait_unlatched(exec *e, uint32_t flag, bool value);
answer exec_signal(exec *e, uint32_t flag, bool value);
answer exec_read_flag(exec *e, uint32_t flag);

/*
 * "the lowest waking count among tasks waiting on time", or none.  No running
 * task is needed; refused by 12 alone, for which both builds test the record.
 */
answer exec_next_waking(const exec *e);

/*
 * "a number of overruns: services of a minor-cycle flag in one of its
 * conditions with the task already active before", since the task's last
 * schedule, up to OVERRUNS_MAX.  No running task is needed; refused by 12, then
 * 6, and both builds test the record.
 */
answer exec_overruns(const exec *e, uint32_t task);

/* `words` has room for `room` words, at least 128; words past those written stay. */
answer exec_tick(exec *e, uint16_t *words, size_t room);

/* The area has exactly 33 words a row, `data` exactly the row's words. */
answer exec_write_block(exec *e, uint32_t row, uint16_t *area, size_t area_words,
                        const uint16_t *data, size_t data_words);
answer exec_read_block(exec *e, uint32_t row, const uint16_t *area, size_t area_words,
                       uint16_t *data, size_t data_words);

/* Whether the record is sound, as the paper's list says (sound.c). */
bool exec_sound(const exec *e);

/* The plan that belongs to a rig that keeps the rules. */
void exec_make_plan(const rig *r, exec_plan *plan);

/* Rank for dispatch: privileged tasks above all others, then by priority. */
unsigned exec_rank(const exec *e, unsigned task);

/* Whether each condition of the task has the desired value. */
bool exec_as_desired(const exec *e, unsigned task);

#endif
