/* Why a task won't start: within how many links it can, and which condition blocks. */
#include <string.h>

#include "check.h"
#include "gen.h"
#include "why.h"

static exec e, before;
static uint16_t words[TICK_WORDS];

#define ACCEPTS(call) CHECK_IS((call).refusal, ACCEPTED)

/* The answer is told, nothing is served or written, and the record stays as it was. */
static void is_answered(uint32_t task, uint32_t links, enum refusal refusal, uint32_t value)
{
    before = e;
    answer a = exec_why_not(&e, task, links);
    CHECK_IS(a.refusal, refusal);
    CHECK_IS(a.value, value);
    CHECK(a.served == 0 && a.words == 0 && a.woken == 0 && a.activated == 0);
    CHECK(memcmp(&e, &before, sizeof e) == 0);
}

static void blocks_at(uint32_t task, uint32_t links, uint32_t position)
{
    is_answered(task, links, ACCEPTED, position);
}

static void can_start(uint32_t task, uint32_t links)
{
    is_answered(task, links, ACCEPTED, CAN_START);
}

static void is_refused(uint32_t task, uint32_t links, enum refusal refusal)
{
    is_answered(task, links, refusal, 0);
}

/* It can start within so many links and not within fewer; the condition at position 0 blocks there. */
static void needs(uint32_t task, uint32_t least)
{
    for (uint32_t links = 0; links <= LINKS_MAX; links++) {
        if (links < least)
            blocks_at(task, links, 0);
        else
            can_start(task, links);
    }
}

static void schedule_from(unsigned first, unsigned last)
{
    for (unsigned t = first; t <= last; t++)
        ACCEPTS(exec_schedule(&e, t));
}

/* Flag t is task t's, for 2 to 6; flags 1 and 8 are plain, flag 7 comes in cycle 1.  Task 1 has no conditions and rests below the others. */
#define SIX_TASKS "RIG 1 6 8 0\nT 1 0 5 0 0\nT 2 1 6 0 2\nT 3 1 6 0 3\nT 4 1 6 0 4\nT 5 1 6 0 5\nT 6 1 6 0 6\n"
#define CYCLE_1 "M 1 7\n"

/* Each waits for the one before, and task 2 for plain flag 1. */
#define CHAIN SIX_TASKS "C 2 0 0 1\nC 3 0 0 1\nC 4 0 0 1\nC 5 0 0 1\nC 6 0 0 1\nA 2 0 1\nA 3 0 2\nA 4 0 3\nA 5 0 4\nA 6 0 5\n" CYCLE_1

/* "Tasks ask about conditions and conditions about tasks, and each link lowers d." */
static void each_link_lowers_d(void)
{
    start_with(CHAIN, &e);
    schedule_from(2, 6);
    needs(2, 0);
    needs(3, 1);
    needs(4, 2);
    needs(5, 3);
    needs(6, LINKS_MAX + 1); /* four links are too many */
}

/* A link leads to an inactive task alone: not to one that is uninvoked, and not to one that is active. */
static void a_link_leads_to_the_inactive(void)
{
    start_with(CHAIN, &e);
    ACCEPTS(exec_schedule(&e, 3));
    needs(3, LINKS_MAX + 1); /* task 2 is uninvoked */
    ACCEPTS(exec_schedule(&e, 2));
    needs(3, 1);
    ACCEPTS(exec_signal(&e, 1, true));
    CHECK(e.state[2] == DISPATCHABLE && e.state[3] == DISPATCHABLE);
    ACCEPTS(exec_wait_until(&e, 9)); /* task 2 */
    ACCEPTS(exec_finish(&e));        /* task 3: its condition is off, and task 2's flag is on already */
    CHECK(e.state[2] == WAITING && e.state[3] == INACTIVE);
    needs(3, LINKS_MAX + 1);
    ACCEPTS(exec_terminate(&e, 2));
    needs(3, 1);
}

/* The task's own flag, and two that wait for each other. */
static void circles_block(void)
{
    start_with(SIX_TASKS "C 2 0 0 1\nC 3 0 0 1\nC 4 0 0 1\nC 5 0 0 1\nA 2 0 2\nA 3 0 4\nA 4 0 3\nA 5 0 3\nA 5 0 8\n" CYCLE_1, &e);
    schedule_from(2, 5);
    needs(2, LINKS_MAX + 1);
    needs(3, LINKS_MAX + 1);
    needs(4, LINKS_MAX + 1);
    needs(5, 0); /* one of its flags is plain */
}

/* "if one of its flags is a minor-cycle flag, a plain flag" */
static void brought_on(void)
{
    start_with(SIX_TASKS "C 2 0 0 1\nC 3 0 1 1\nC 4 0 0 1\nC 5 0 0 1\nA 2 0 7\nA 3 0 8\nA 4 0 5\nA 4 0 6\nA 5 0 6\nA 5 0 8\n" CYCLE_1, &e);
    schedule_from(2, 5);
    needs(2, 0);
    needs(3, 0);
    needs(4, 1); /* task 6 is uninvoked, task 5 can start by its plain flag */
    needs(5, 0);
}

/* "One that desires off: if one of its flags is plain, or is the activation flag of an active task." */
static void brought_off(void)
{
    start_with(SIX_TASKS "C 2 0 0 0\nC 3 0 0 0\nC 4 0 0 1\nC 5 0 0 0\nA 2 0 8\nA 3 0 4\nA 4 0 1\nA 5 0 4\nA 5 0 6\n" CYCLE_1, &e);
    schedule_from(2, 5);
    needs(2, 0);             /* its condition was put on by the schedule */
    needs(3, LINKS_MAX + 1); /* task 4 is inactive: nobody ends, whatever d */
    needs(5, LINKS_MAX + 1); /* and task 6 is uninvoked */
    ACCEPTS(exec_schedule(&e, 6));
    CHECK_IS(e.running, 6);
    needs(5, 0); /* active, dispatchable */
    ACCEPTS(exec_wait_until(&e, 9));
    CHECK_IS(e.state[6], WAITING);
    needs(5, 0); /* active, waiting */
    needs(3, LINKS_MAX + 1);
}

/* "the activation flag of an inactive task" that desires on says nothing of one that desires off, which no link brings about. */
static void no_link_for_off(void)
{
    start_with(SIX_TASKS "C 2 0 0 0\nC 3 0 0 1\nA 2 0 3\nA 3 0 8\n" CYCLE_1, &e);
    schedule_from(2, 3);
    can_start(3, 0);
    needs(2, LINKS_MAX + 1);
}

/* Position 1 of task 2 stands, 3 can be brought there, 5 needs a link, 9 and 11 block. */
#define MANY SIX_TASKS "C 2 1 1 0\nC 2 3 0 1\nC 2 5 0 1\nC 2 9 0 1\nC 2 11 0 1\nC 3 0 0 1\n" \
    "A 2 1 4\nA 2 3 8\nA 2 5 3\nA 2 9 4\nA 2 11 5\nA 3 0 7\n" CYCLE_1

/* "The answer is yes, or the lowest condition that blocks." */
static void the_lowest_that_blocks(void)
{
    start_with(MANY, &e);
    schedule_from(2, 3);
    blocks_at(2, 0, 5);
    blocks_at(2, 1, 9);
    blocks_at(2, 3, 9);
    e.condition[2] |= 1u << 9; /* it stands: looked at no more */
    blocks_at(2, 1, 11);
    e.condition[2] |= 1u << 11;
    blocks_at(2, 0, 5);
    can_start(2, 1);
    e.condition[2] |= 1u << 1; /* desires off, and nobody active has its flag */
    blocks_at(2, 1, 1);
    blocks_at(2, 0, 1);
}

/* The last position that there is. */
static void position_15(void)
{
    start_with(SIX_TASKS "C 2 15 0 1\nA 2 15 3\n" CYCLE_1, &e);
    ACCEPTS(exec_schedule(&e, 2));
    blocks_at(2, 3, 15);
}

/* No call leaves a task so, but the record is sound: with no conditions, or with all as desired, it can start. */
static void nothing_to_wait_for(void)
{
    start_with(CHAIN, &e);
    ACCEPTS(exec_schedule(&e, 6));
    e.condition[6] = 1;
    can_start(6, 0);
    start_with(SIX_TASKS CYCLE_1, &e);
    e.state[6] = INACTIVE;
    needs(6, 0);
}

/* What no right rig has: "one of its flags" of none is none, and a minor-cycle flag is not among those that bring off. */
static void beyond_right_rigs(void)
{
    start_with(SIX_TASKS "C 2 4 0 1\nA 2 4 8\n" CYCLE_1, &e);
    ACCEPTS(exec_schedule(&e, 2));
    e.rig.a_lines = 0;
    CHECK_IS(lowest_blocking(&e, 2, 3), 4);
    e.condition[2] = 1u << 4;
    CHECK_IS(lowest_blocking(&e, 2, 0), CAN_START);
    start_with(SIX_TASKS "C 2 4 0 1\nA 2 4 7\n" CYCLE_1, &e);
    ACCEPTS(exec_schedule(&e, 2));
    can_start(2, 0);
    e.rig.conditions[2].desired = 0;
    e.condition[2] = 1u << 4;
    CHECK_IS(lowest_blocking(&e, 2, 3), 4);
}

/* The start of one task, by the tick, starts those that wait for it: the answer was right. */
static void what_was_told_happens(void)
{
    start_with(SIX_TASKS "C 2 0 0 1\nC 3 0 0 1\nC 3 1 0 0\nA 2 0 7\nA 3 0 2\nA 3 1 8\n" CYCLE_1, &e);
    schedule_from(2, 3);
    needs(2, 0);
    needs(3, 1);
    ACCEPTS(exec_signal(&e, 8, false));
    ACCEPTS(exec_tick(&e, words, TICK_WORDS));
    CHECK(e.state[2] == DISPATCHABLE && e.state[3] == DISPATCHABLE);
}

static void no_running_task_is_needed(void)
{
    start_with(CHAIN, &e);
    schedule_from(2, 3);
    ACCEPTS(exec_wait_until(&e, 9));
    CHECK_IS(e.running, 0);
    needs(3, 1);
    is_refused(1, 0, WRONG_STATE);
    is_refused(7, 0, NO_SUCH);
}

/* "Refusals: 12, then 6, then 8 if the task isn't inactive, then 11 for d above 3." */
static void its_refusals(void)
{
    start_with(CHAIN, &e);
    schedule_from(2, 3);
    is_refused(0, 0, NO_SUCH);
    is_refused(7, 3, NO_SUCH);
    is_refused(65, 0, NO_SUCH);
    is_refused(UINT32_MAX, 0, NO_SUCH);
    is_refused(0, 4, NO_SUCH); /* 6 before 11 */
    is_refused(4, 0, WRONG_STATE);
    is_refused(4, 4, WRONG_STATE); /* 8 before 11 */
    is_refused(1, 0, WRONG_STATE);
    is_refused(1, UINT32_MAX, WRONG_STATE);
    is_refused(2, 4, BAD_FIELD);
    is_refused(2, 5, BAD_FIELD);
    is_refused(2, 256, BAD_FIELD);
    is_refused(2, UINT32_MAX, BAD_FIELD);
    can_start(2, 3);
    ACCEPTS(exec_wait_until(&e, 9));
    is_refused(1, 0, WRONG_STATE); /* waiting */
    e.overruns[0] = 1;
    is_refused(2, 0, NOT_SOUND);
    is_refused(0, 0, NOT_SOUND);
    is_refused(1, 0, NOT_SOUND);
    is_refused(2, 4, NOT_SOUND);
    memset(&e, 0, sizeof e);
    is_refused(1, 0, NOT_SOUND);
}

/* ---- Any records ---- */

/* Who can start within d links, by tables over all tasks, one for each d: another way to the same. */
typedef struct {
    bool can[LINKS_MAX + 1][TASKS_MAX + 1];
} tables;

static bool flag_helps(const tables *t, const rig_line_a *a, unsigned links)
{
    bool on = e.rig.conditions[a->task].desired >> a->position & 1;
    for (unsigned owner = 1; owner <= e.rig.tasks; owner++) {
        if (e.rig.task[owner].activation != a->flag)
            continue;
        return on ? links > 0 && e.state[owner] == INACTIVE && t->can[links - 1][owner] : e.state[owner] >= WAITING;
    }
    return on || e.plan.kind[a->flag] == FLAG_PLAIN;
}

static unsigned blocking_by_tables(const tables *t, unsigned task, unsigned links)
{
    unsigned settled = (unsigned)(uint16_t)~(e.condition[task] ^ e.rig.conditions[task].desired);
    for (unsigned i = 0; i < e.rig.a_lines; i++)
        if (e.rig.a[i].task == task && flag_helps(t, &e.rig.a[i], links))
            settled |= 1u << e.rig.a[i].position;
    unsigned blocking = e.rig.conditions[task].present & ~settled;
    return blocking == 0 ? CAN_START : (unsigned)__builtin_ctz(blocking);
}

/* The answers for each task and d are those of the tables; a yes stays one at each larger d, and the position never falls. */
static void check_all_answers(void)
{
    static tables t;
    for (unsigned links = 0; links <= LINKS_MAX; links++) {
        for (unsigned task = 1; task <= e.rig.tasks; task++) {
            unsigned told = lowest_blocking(&e, task, links);
            CHECK_IS(told, blocking_by_tables(&t, task, links));
            CHECK(links == 0 || told >= lowest_blocking(&e, task, links - 1));
            t.can[links][task] = told == CAN_START;
        }
    }
}

/* "A larger d never turns a yes into a no." */
static void a_larger_d_keeps_a_yes(void)
{
    static rig r;
    for (unsigned i = 0; i < 600; i++) {
        chance c = chance_of(13, i);
        if (i % 4 == 0)
            gen_rig(&c, (rig_size)(i % 3), &r);
        else
            gen_links_rig(&c, &r);
        ACCEPTS(exec_start(&e, &r));
        for (unsigned t = 1; t <= r.tasks; t++) {
            e.state[t] = (uint8_t)(likely(&c, 70) ? INACTIVE : pick(&c, UNINVOKED, DISPATCHABLE));
            e.condition[t] = (uint16_t)(pick(&c, 0, 65535) & r.conditions[t].present);
        }
        before = e;
        check_all_answers();
        CHECK(memcmp(&e, &before, sizeof e) == 0);
    }
}

/* ---- Lines ---- */

static void panel_lines(void)
{
    static const char input[] = CHAIN
        "RUN\nY 2 0\nS 2\nS 3\nS 4\nY 2 0\nY 3 0\nY 3 1\nY 4 1\nY 4 2\nY 0 0\nY 7 4\nY 1 0\nY 5 9\nY 2 4\nY 2 4294967295\nY 4294967295 0\n"
        "Y\nY \nY 2\nY 2 \nY 2 1 \nY 2 1 1\nY 02 1\nY 2 01\nY 2 -1\nY x 1\nY2 1\nYY\ny 2 1\n Y 2 1\nY 2 4294967296\nY 4294967296 1\n"
        "G 1 1\nR 1\nY 3 0\nY 3 1";
    static const char with_panel[] =
        "START 0 0 1 0 0\nY 8 0 1 0 0\nS 0 0 1 0 0\nS 0 0 1 0 0\nS 0 0 1 0 0\nY 0 0 1 0 0\nY 0 0 1 0 0 0\nY 0 0 1 0 0\nY 0 0 1 0 0 0\n"
        "Y 0 0 1 0 0\nY 6 0 1 0 0\nY 6 0 1 0 0\nY 8 0 1 0 0\nY 8 0 1 0 0\nY 11 0 1 0 0\nY 11 0 1 0 0\nY 6 0 1 0 0\n"
        "?\n?\n?\n?\n?\n?\n?\n?\n?\n?\n?\n?\n?\n?\n?\n?\nG 0 0 2 0 3\nR 0 0 3 0 0\nY 8 0 3 0 0\n?\n";
    static const char without[] =
        "START 0 0 1 0 0\n?\nS 0 0 1 0 0\nS 0 0 1 0 0\nS 0 0 1 0 0\n?\n?\n?\n?\n?\n?\n?\n?\n?\n?\n?\n?\n"
        "?\n?\n?\n?\n?\n?\n?\n?\n?\n?\n?\n?\n?\n?\n?\n?\nG 0 0 2 0 3\nR 0 0 3 0 0\n?\n?\n";
    CHECK_PANEL(input, with_panel);
    CHECK_RUN(input, without);
}

/* I of entries.h: whatever was harmed is refused by 12, also where 6, 8 or 11 would follow; the rest of the copy is as it was. */
static void harmed_copies(void)
{
    CHECK_ENTRIES(CHAIN "RUN\nS 2\nS 3\nI 0 2 0\nI 0 3 0\nI 0 3 1\nI 0 0 0\nI 0 4 0\nI 0 2 4\nI 1 3 1\nI 2 3 0\nI 3 3 1\nI 4 3 1\nI 5 3 1\n"
                  "I 3 0 0\nI 2 4 0\nI 1 2 4\nI 6 2 0\nI 0 2\nI 0\nI\nI 0 2 0 0\nY 2 0\n",
                  "START 0 0 1 0 0\nS 0 0 1 0 0\nS 0 0 1 0 0\nI 0 0 0 16 0 0 0 16\nI 0 0 0 0 0 0 0 0\nI 0 0 0 16 0 0 0 16\n"
                  "I 6 0 0 0 0 0 6 0\nI 8 0 0 0 0 0 8 0\nI 11 0 0 0 0 0 11 0\nI 12 0 0 0 0 0 0 16\nI 12 0 0 0 0 0 0 0\n"
                  "I 12 0 0 0 0 0 0 16\nI 12 0 0 0 0 0 0 16\nI 12 0 0 0 0 0 0 16\nI 12 0 0 0 0 0 6 0\nI 12 0 0 0 0 0 8 0\n"
                  "I 12 0 0 0 0 0 11 0\n?\n?\n?\n?\n?\n?\n");
}

void why_tests(void)
{
    RUN(each_link_lowers_d);
    RUN(a_link_leads_to_the_inactive);
    RUN(circles_block);
    RUN(brought_on);
    RUN(brought_off);
    RUN(no_link_for_off);
    RUN(the_lowest_that_blocks);
    RUN(position_15);
    RUN(nothing_to_wait_for);
    RUN(beyond_right_rigs);
    RUN(what_was_told_happens);
    RUN(no_running_task_is_needed);
    RUN(its_refusals);
    RUN(a_larger_d_keeps_a_yes);
    RUN(panel_lines);
    RUN(harmed_copies);
}
