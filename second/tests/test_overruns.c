/* Starts that came too soon: a task's number of overruns. */
#include <string.h>

#include "check.h"

static exec e, before;
static uint16_t words[TICK_WORDS];

#define ACCEPTS(call) CHECK_IS((call).refusal, ACCEPTED)

static void ticks(unsigned n)
{
    while (n-- > 0)
        ACCEPTS(exec_tick(&e, words, TICK_WORDS));
}

/* The number is told, nothing is served or written, and the record stays as it was. */
static void has_overruns(uint32_t task, uint32_t number)
{
    before = e;
    answer a = exec_overruns(&e, task);
    CHECK_IS(a.refusal, ACCEPTED);
    CHECK_IS(a.value, number);
    CHECK(a.served == 0 && a.words == 0 && a.woken == 0 && a.activated == 0);
    CHECK(memcmp(&e, &before, sizeof e) == 0);
}

static void is_refused(uint32_t task, enum refusal refusal)
{
    before = e;
    answer a = exec_overruns(&e, task);
    CHECK_IS(a.refusal, refusal);
    CHECK(a.value == 0 && a.served == 0 && a.words == 0 && a.woken == 0 && a.activated == 0);
    CHECK(memcmp(&e, &before, sizeof e) == 0);
}

/* Minor cycles 1 to 4 have flag 1, which starts task 2, of higher rank than task 1.  Task 3 is task 2's, with no conditions. */
#define FOUR_CYCLES "M 1 1\nM 2 1\nM 3 1\nM 4 1\n"
#define ONE_STARTED "RIG 1 3 3 0\nT 1 0 5 0 0\nT 2 1 6 0 2\nT 3 2 6 0 0\nC 2 0 0 1\nA 2 0 1\n" FOUR_CYCLES

/* Task 2 is started by the first tick and then overrun so many times. */
static void overrun(unsigned times)
{
    start_with(ONE_STARTED, &e);
    ACCEPTS(exec_schedule(&e, 2));
    ticks(1 + times);
    CHECK_IS(e.running, 2);
}

/* "with the task already active before": the service that starts it does not count, those that follow do. */
static void counted_while_active(void)
{
    overrun(0);
    has_overruns(2, 0);
    ticks(1);
    has_overruns(2, 1);
    ticks(2);
    has_overruns(2, 3);
    ticks(1); /* cycle 5 has no flags */
    has_overruns(2, 3);
    has_overruns(1, 0);
    has_overruns(3, 0);
}

/* Waiting is active, on time or for a flag. */
static void counted_while_waiting(void)
{
    overrun(0);
    ACCEPTS(exec_wait_until(&e, 9));
    ticks(1);
    CHECK_IS(e.state[2], WAITING);
    has_overruns(2, 1);
    overrun(1);
    ACCEPTS(exec_wait_unlatched(&e, 3, true));
    ticks(1);
    CHECK_IS(e.state[2], WAITING);
    has_overruns(2, 2);
}

/* The count of a tick wakes before the flags are served; who wakes by it was active before too. */
static void counted_when_woken_by_the_count(void)
{
    overrun(0);
    ACCEPTS(exec_wait_until(&e, 2));
    ticks(1);
    CHECK(e.count == 2 && e.state[2] == DISPATCHABLE);
    has_overruns(2, 1);
}

/* Flag 1 starts task 2 and overruns task 3, which was started by flag 2 before. */
static void each_task_by_its_own_flags(void)
{
    start_with("RIG 1 3 2 0\nT 1 0 5 0 0\nT 2 1 6 0 0\nT 3 1 6 0 0\nC 2 0 0 1\nC 3 0 0 1\nA 2 0 1\nA 3 0 2\n"
               "M 1 2\nM 2 1\nM 3 2\nM 4 1\nM 4 2\n", &e);
    ACCEPTS(exec_schedule(&e, 2));
    ACCEPTS(exec_schedule(&e, 3));
    ticks(2);
    has_overruns(2, 0);
    has_overruns(3, 0); /* active when flag 1 came, but that is in none of its conditions */
    ticks(1);
    has_overruns(2, 0);
    has_overruns(3, 1);
    ticks(1);
    has_overruns(2, 1);
    has_overruns(3, 2);
}

static void once_for_two_conditions(void)
{
    start_with("RIG 1 2 1 0\nT 1 0 5 0 0\nT 2 1 6 0 0\nC 2 0 0 1\nC 2 7 0 1\nA 2 0 1\nA 2 7 1\n" FOUR_CYCLES, &e);
    ACCEPTS(exec_schedule(&e, 2));
    ticks(1);
    CHECK_IS(e.running, 2);
    has_overruns(2, 0);
    ticks(1);
    has_overruns(2, 1);
    ticks(1);
    has_overruns(2, 2);
}

/* Flag 2 is served before flag 1, for it was queued last. */
#define TWO_STARTERS "RIG 1 2 2 0\nT 1 0 5 0 0\nT 2 1 6 0 0\nC 2 0 0 1\nC 2 1 0 1\nA 2 0 1\nA 2 1 2\nM 1 1\nM 2 1\nM 2 2\nM 3 1\nM 3 2\n"

/* "already active before" is before that very service: an earlier one of the same tick activated the task. */
static void counted_behind_its_start_in_one_tick(void)
{
    start_with(TWO_STARTERS, &e);
    ACCEPTS(exec_schedule(&e, 2));
    ticks(1); /* flag 1 alone: a condition is as desired, the other not */
    CHECK_IS(e.state[2], INACTIVE);
    has_overruns(2, 0);
    ticks(1); /* flag 2 starts it, and flag 1 comes too soon */
    CHECK_IS(e.state[2], DISPATCHABLE);
    has_overruns(2, 1);
    ticks(1); /* both come too soon */
    has_overruns(2, 3);
}

/* Where the last service of a tick starts the task, none of them comes too soon. */
static void not_counted_before_its_start_in_one_tick(void)
{
    start_with(TWO_STARTERS, &e);
    ticks(1);
    ACCEPTS(exec_schedule(&e, 2)); /* the condition of flag 1 is off again */
    ticks(1);
    CHECK_IS(e.state[2], DISPATCHABLE);
    has_overruns(2, 0);
}

/* Plain flag 2, and task 3's activation flag 3, are in conditions of task 2 too, which is active. */
static void other_flags_do_not_count(void)
{
    start_with("RIG 1 3 3 0\nT 1 0 5 0 0\nT 2 1 4 0 0\nT 3 1 4 0 3\nC 2 0 1 0\nC 2 1 1 0\nA 2 0 2\nA 2 1 3\nM 1 1\n", &e);
    ACCEPTS(exec_schedule(&e, 2));
    CHECK_IS(e.state[2], DISPATCHABLE);
    ACCEPTS(exec_signal(&e, 2, true));
    ACCEPTS(exec_signal(&e, 2, false));
    has_overruns(2, 0);
    answer a = exec_schedule(&e, 3);
    CHECK_IS(a.served, 1); /* its flag, on */
    has_overruns(2, 0);
    a = exec_cancel(&e, 3);
    CHECK_IS(a.served, 1); /* and off */
    has_overruns(2, 0);
}

static void the_inactive_and_the_uninvoked_do_not_count(void)
{
    start_with(ONE_STARTED, &e);
    ticks(2); /* task 2 is uninvoked */
    has_overruns(2, 0);
    start_with(TWO_STARTERS, &e);
    ACCEPTS(exec_schedule(&e, 2));
    ticks(1);
    e.count = 0; /* cycle 1 once more: the task stays inactive */
    ticks(1);
    CHECK_IS(e.state[2], INACTIVE);
    has_overruns(2, 0);
}

/* "It stops at 65,535." */
static void it_stops(void)
{
    overrun(0);
    e.overruns[2] = 65534;
    ticks(1);
    has_overruns(2, 65535);
    ticks(1);
    has_overruns(2, 65535);
    ticks(1);
    has_overruns(2, 65535);
}

/* It stops for a task with two flags in a cycle too, which goes past the stop within one tick. */
static void it_stops_within_a_tick(void)
{
    start_with(TWO_STARTERS, &e);
    ACCEPTS(exec_schedule(&e, 2));
    ticks(2);
    e.overruns[2] = 65534;
    ticks(1);
    has_overruns(2, 65535);
}

/* "cancel, terminate and finish keep it": a task that ended is read as before, and goes on from there when a flag starts it. */
static void finish_and_terminate_keep_it(void)
{
    overrun(2); /* counts 2 and 3: the task is to start once more */
    ACCEPTS(exec_finish(&e));
    CHECK_IS(e.state[2], DISPATCHABLE);
    has_overruns(2, 2);
    ACCEPTS(exec_finish(&e));
    CHECK_IS(e.state[2], INACTIVE);
    has_overruns(2, 2);
    ticks(1); /* starts it: not counted, not set to 0 */
    CHECK_IS(e.state[2], DISPATCHABLE);
    has_overruns(2, 2);
    ACCEPTS(exec_wait_until(&e, 9));
    ACCEPTS(exec_terminate(&e, 2));
    CHECK_IS(e.state[2], INACTIVE);
    has_overruns(2, 2);
}

static void cancel_keeps_it(void)
{
    overrun(3);
    ACCEPTS(exec_wait_until(&e, 9));
    ACCEPTS(exec_cancel(&e, 2));
    CHECK_IS(e.state[2], UNINVOKED);
    has_overruns(2, 3); /* it can still be read */
    ticks(2);
    has_overruns(2, 3);
}

/* "Schedule sets it to 0"; a refused one does not. */
static void schedule_sets_it_to_0(void)
{
    overrun(2);
    ACCEPTS(exec_wait_until(&e, 9));
    CHECK_IS(exec_schedule(&e, 2).refusal, WRONG_STATE);
    has_overruns(2, 2);
    ACCEPTS(exec_cancel(&e, 2));
    has_overruns(2, 2);
    ACCEPTS(exec_schedule(&e, 2));
    has_overruns(2, 0);
    e.overruns[3] = 7; /* of an uninvoked task: a schedule of another leaves it */
    ACCEPTS(exec_cancel(&e, 2));
    ACCEPTS(exec_schedule(&e, 2));
    has_overruns(3, 7);
}

static void a_start_sets_them_to_0(void)
{
    overrun(3);
    overrun(0);
    has_overruns(1, 0);
    has_overruns(2, 0);
    has_overruns(3, 0);
}

/* Task 1 is started by a flag as others are: it is scheduled by the start. */
static void of_the_first_task(void)
{
    start_with("RIG 1 1 1 0\nT 1 0 5 0 0\nC 1 0 0 1\nA 1 0 1\nM 1 1\nM 2 1\n", &e);
    CHECK_IS(e.running, 0);
    ticks(1);
    CHECK_IS(e.running, 1);
    has_overruns(1, 0);
    ticks(1);
    has_overruns(1, 1);
}

static void no_running_task_is_needed(void)
{
    overrun(1);
    ACCEPTS(exec_wait_until(&e, 9));
    ACCEPTS(exec_wait_until(&e, 9));
    CHECK_IS(e.running, 0);
    has_overruns(2, 1);
    has_overruns(3, 0);
    is_refused(0, NO_SUCH);
}

/* "Refusals: 12, then 6." */
static void its_refusals(void)
{
    overrun(1);
    is_refused(0, NO_SUCH);
    is_refused(4, NO_SUCH);
    is_refused(64, NO_SUCH);
    is_refused(65, NO_SUCH);
    is_refused(UINT32_MAX, NO_SUCH);
    e.overruns[0] = 1;
    is_refused(2, NOT_SOUND);
    is_refused(0, NOT_SOUND);
    is_refused(UINT32_MAX, NOT_SOUND);
    e.overruns[0] = 0;
    e.overruns[4] = 1; /* the rig has three tasks */
    is_refused(4, NOT_SOUND);
    CHECK_IS(exec_finish(&e).refusal, NOT_SOUND);
    CHECK_IS(exec_tick(&e, words, TICK_WORDS).refusal, NOT_SOUND);
    e.overruns[4] = 0;
    e.overruns[64] = 1;
    is_refused(2, NOT_SOUND);
    e.overruns[64] = 0;
    e.overruns[3] = 65535; /* any 16 bits of a task are sound */
    has_overruns(3, 65535);
    memset(&e, 0, sizeof e);
    is_refused(1, NOT_SOUND);
}

static void panel_lines(void)
{
    static const char input[] = ONE_STARTED
        "RUN\nO 2\nS 2\nK\nO 2\nK\nO 2\nK\nO 2\nO\nO \nO 2 \nO 2 1\nO 02\nO -1\nO x\nO2\nOO\no 2\n O 2\nO 4294967296\nO 0\nO 4\nO 65\n"
        "O 4294967295\nU 9\nX 2\nO 2\nS 2\nO 2\nR 1\nO 2\nO 2";
    static const char with_panel[] =
        "START 0 0 1 0 0\nO 0 0 1 0 0 0\nS 0 0 1 0 0\nK 0 1 2 0 1\nO 0 1 2 0 0 0\nK 0 2 2 0 0\nO 0 2 2 0 0 1\nK 0 3 2 0 0\n"
        "O 0 3 2 0 0 2\n?\n?\n?\n?\n?\n?\n?\n?\n?\n?\n?\n?\nO 6 3 2 0 0\nO 6 3 2 0 0\nO 6 3 2 0 0\nO 6 3 2 0 0\nU 0 3 1 0 0\n"
        "X 0 3 1 0 0\nO 0 3 1 0 0 2\nS 0 3 1 0 0\nO 0 3 1 0 0 0\nR 0 3 0 0 0\nO 0 3 0 0 0 0\n?\n";
    static const char without[] =
        "START 0 0 1 0 0\n?\nS 0 0 1 0 0\nK 0 1 2 0 1\n?\nK 0 2 2 0 0\n?\nK 0 3 2 0 0\n"
        "?\n?\n?\n?\n?\n?\n?\n?\n?\n?\n?\n?\n?\n?\n?\n?\n?\nU 0 3 1 0 0\n"
        "X 0 3 1 0 0\n?\nS 0 3 1 0 0\n?\nR 0 3 0 0 0\n?\n?\n";
    CHECK_PANEL(input, with_panel);
    CHECK_RUN(input, without);
}

/* P of entries.h: whatever was harmed is refused by 12, also where the task is no task; the rest of the copy is as it was. */
static void harmed_copies(void)
{
    CHECK_ENTRIES(ONE_STARTED "RUN\nS 2\nK\nK\nP 0 2\nP 0 3\nP 0 0\nP 0 4\nP 1 2\nP 2 2\nP 3 2\nP 4 2\nP 5 2\nP 3 0\nP 2 65\n"
                  "P 6 2\nP 0\nP\nP 0 2 1\nO 2\n",
                  "START 0 0 1 0 0\nS 0 0 1 0 0\nK 0 1 2 0 1\nK 0 2 2 0 0\nP 0 0 0 1 0 0 0 1\nP 0 0 0 0 0 0 0 0\n"
                  "P 6 0 0 0 0 0 6 0\nP 6 0 0 0 0 0 6 0\nP 12 0 0 0 0 0 0 1\nP 12 0 0 0 0 0 0 1\nP 12 0 0 0 0 0 0 1\n"
                  "P 12 0 0 0 0 0 0 1\nP 12 0 0 0 0 0 0 1\nP 12 0 0 0 0 0 6 0\nP 12 0 0 0 0 0 6 0\n?\n?\n?\n?\n?\n");
}

void overruns_tests(void)
{
    RUN(counted_while_active);
    RUN(counted_while_waiting);
    RUN(counted_when_woken_by_the_count);
    RUN(each_task_by_its_own_flags);
    RUN(once_for_two_conditions);
    RUN(counted_behind_its_start_in_one_tick);
    RUN(not_counted_before_its_start_in_one_tick);
    RUN(other_flags_do_not_count);
    RUN(the_inactive_and_the_uninvoked_do_not_count);
    RUN(it_stops);
    RUN(it_stops_within_a_tick);
    RUN(finish_and_terminate_keep_it);
    RUN(cancel_keeps_it);
    RUN(schedule_sets_it_to_0);
    RUN(a_start_sets_them_to_0);
    RUN(of_the_first_task);
    RUN(no_running_task_is_needed);
    RUN(its_refusals);
    RUN(panel_lines);
    RUN(harmed_copies);
}
