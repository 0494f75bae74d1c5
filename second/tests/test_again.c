/* Tasks that run again: the test of the task that finished or was terminated. */
#include "check.h"

static exec e;
static uint16_t words[TICK_WORDS];

#define ACCEPTS(call) CHECK_IS((call).refusal, ACCEPTED)

/* The call is accepted, its test found this, and it tells these two numbers. */
static void ends(answer a, enum test_outcome outcome, unsigned woken, unsigned activated)
{
    CHECK_IS(a.refusal, ACCEPTED);
    CHECK_IS(a.test.outcome, outcome);
    CHECK_IS(a.woken, woken);
    CHECK_IS(a.activated, activated);
}

static void tick(void)
{
    ACCEPTS(exec_tick(&e, words, TICK_WORDS));
}

/* "a task with no conditions is inactive only for a moment" */
static void without_conditions(void)
{
    start_with("RIG 1 2 2 0\nT 1 0 5 0 0\nT 2 1 6 0 1\n", &e);
    answer a = exec_finish(&e);
    ends(a, TEST_AGAIN, 0, 0);
    CHECK_IS(a.served, 0); /* task 1 has no flag */
    CHECK_IS(e.running, 1);
    ACCEPTS(exec_schedule(&e, 2));
    for (unsigned times = 0; times < 3; times++) {
        CHECK_IS(e.running, 2);
        a = exec_finish(&e);
        ends(a, TEST_AGAIN, 0, 0);
        CHECK_IS(a.served, 2); /* off, then on */
        CHECK(e.state[2] == DISPATCHABLE && e.value[1] == 1);
    }
}

/* It leaves its wait, is active again and does not wait again. */
static void after_terminate(void)
{
    start_with("RIG 1 3 2 0\nT 1 0 5 0 0\nT 2 1 6 0 1\nT 3 1 6 0 0\n", &e);
    ACCEPTS(exec_schedule(&e, 2));
    ACCEPTS(exec_wait_unlatched(&e, 2, true));
    ACCEPTS(exec_schedule(&e, 3));
    ACCEPTS(exec_wait_until(&e, 9));
    answer a = exec_terminate(&e, 3);
    ends(a, TEST_AGAIN, 0, 0);
    CHECK_IS(a.served, 0);
    CHECK(e.running == 3 && e.timed.tasks == 0);
    ACCEPTS(exec_wait_until(&e, 9));
    a = exec_terminate(&e, 2);
    ends(a, TEST_AGAIN, 0, 0);
    CHECK_IS(a.served, 2);
    CHECK(e.running == 2 && e.flagged.tasks == 0 && e.value[1] == 1);
}

/* Cancel tests nobody. */
static void not_after_cancel(void)
{
    start_with("RIG 1 2 2 0\nT 1 0 5 0 0\nT 2 1 4 0 1\n", &e);
    ACCEPTS(exec_schedule(&e, 2));
    answer a = exec_cancel(&e, 2);
    ends(a, TEST_NONE, 0, 0);
    CHECK(a.served == 1 && e.state[2] == UNINVOKED && e.value[1] == 0);
}

/* A latched condition that stands as desired starts the task again, until a service undoes it. */
static void latched_conditions_stand(void)
{
    start_with("RIG 1 2 2 0\nT 1 0 5 0 0\nT 2 1 6 0 1\nC 2 0 1 1\nA 2 0 2\n", &e);
    ACCEPTS(exec_schedule(&e, 2));
    ACCEPTS(exec_signal(&e, 2, true));
    CHECK_IS(e.running, 2);
    ends(exec_finish(&e), TEST_AGAIN, 0, 0);
    CHECK_IS(e.running, 2);
    ACCEPTS(exec_signal(&e, 2, false));
    answer a = exec_finish(&e);
    ends(a, TEST_UNDESIRED, 0, 0);
    CHECK(a.served == 1 && e.state[2] == INACTIVE && e.running == 1);
}

/* A start that came while the task was active is not lost: it runs once more, and then waits for the next. */
static void a_start_too_soon(void)
{
    start_with("RIG 1 2 1 0\nT 1 0 5 0 0\nT 2 1 6 0 0\nC 2 0 0 1\nA 2 0 1\nM 1 1\nM 2 1\n", &e);
    ACCEPTS(exec_schedule(&e, 2));
    tick();
    CHECK(e.running == 2 && e.condition[2] == 0);
    tick();
    CHECK_IS(e.condition[2], 1);
    ends(exec_finish(&e), TEST_AGAIN, 0, 0);
    CHECK(e.running == 2 && e.condition[2] == 0); /* unlatched conditions undesired again */
    ends(exec_finish(&e), TEST_UNDESIRED, 0, 0);
    CHECK_IS(e.running, 1);
}

/* Its own flag in its own condition: off starts it before the test can; on is undone by the off. */
static void its_own_flag(void)
{
    start_with("RIG 1 2 2 0\nT 1 0 5 0 0\nT 2 1 6 0 1\nC 2 0 1 0\nA 2 0 1\n", &e);
    ACCEPTS(exec_schedule(&e, 2));
    answer a = exec_finish(&e);
    ends(a, TEST_ACTIVE, 0, 1); /* by a service: counted */
    CHECK_IS(a.served, 2);
    start_with("RIG 1 2 2 0\nT 1 0 5 0 0\nT 2 1 6 0 1\nC 2 0 1 1\nA 2 0 1\nA 2 0 2\n", &e);
    ACCEPTS(exec_schedule(&e, 2));
    ACCEPTS(exec_signal(&e, 2, true));
    CHECK_IS(e.running, 2);
    a = exec_finish(&e);
    ends(a, TEST_UNDESIRED, 0, 0);
    CHECK(a.served == 1 && e.state[2] == INACTIVE);
}

/*
 * Task 2's off starts task 3, whose flag 2 undoes a condition of task 2.  Its
 * conditions are as desired after the first service, and no longer when the
 * queue is empty.
 */
static void tested_once_the_queue_is_empty(void)
{
    start_with("RIG 1 3 2 0\nT 1 0 5 0 0\nT 2 1 6 0 1\nT 3 1 4 0 2\nC 2 0 1 0\nC 3 0 1 0\nA 2 0 2\nA 3 0 1\n", &e);
    ACCEPTS(exec_schedule(&e, 2));
    ACCEPTS(exec_wait_cycles(&e, 1));
    ACCEPTS(exec_schedule(&e, 3));
    CHECK_IS(e.state[3], INACTIVE);
    answer a = exec_terminate(&e, 2);
    ends(a, TEST_UNDESIRED, 0, 1);
    CHECK(a.served == 2 && e.state[2] == INACTIVE && e.state[3] == DISPATCHABLE);
}

/* Task 2's off starts task 3, whose flag starts task 2: the test finds it active and serves nothing more. */
static void started_before_the_test(void)
{
    start_with("RIG 1 3 2 0\nT 1 0 5 0 0\nT 2 1 6 0 1\nT 3 1 4 0 2\nC 2 0 1 1\nC 3 0 1 0\nA 2 0 2\nA 3 0 1\n", &e);
    ACCEPTS(exec_schedule(&e, 2));
    ACCEPTS(exec_schedule(&e, 3)); /* flag 1 is off: it starts, and starts task 2 */
    CHECK_IS(e.running, 2);
    ACCEPTS(exec_wait_cycles(&e, 1));
    ends(exec_terminate(&e, 3), TEST_UNDESIRED, 0, 0);
    CHECK_IS(e.state[3], INACTIVE);
    tick();
    answer a = exec_finish(&e);
    ends(a, TEST_ACTIVE, 0, 2);
    CHECK(a.served == 3 && e.running == 2);
}

/* "A task that finishes has not stayed dispatchable, even if it is active again." */
static void has_not_stayed(void)
{
    start_with("RIG 1 4 2 0\nT 1 0 9 0 0\nT 2 1 9 0 0\nT 3 1 9 0 0\nT 4 1 5 0 0\n", &e);
    for (unsigned t = 2; t <= 4; t++)
        ACCEPTS(exec_schedule(&e, t));
    ACCEPTS(exec_finish(&e));
    CHECK_IS(e.running, 1); /* the lowest number of its rank */
    ACCEPTS(exec_wait_cycles(&e, 1));
    CHECK_IS(e.running, 2);
    tick();
    CHECK_IS(e.running, 2); /* stayed: who wakes does not take over */
    ACCEPTS(exec_finish(&e));
    CHECK(e.running == 1 && e.state[2] == DISPATCHABLE);
}

/* It takes part in the choice like any other: it goes before lower ranks and gives way to higher ones. */
static void chosen_by_rank(void)
{
    start_with("RIG 1 3 3 0\nT 1 0 5 0 1\nT 2 1 4 0 0\nT 3 1 6 0 0\nC 3 0 1 0\nA 3 0 1\n", &e);
    ACCEPTS(exec_schedule(&e, 2));
    ACCEPTS(exec_schedule(&e, 3));
    CHECK_IS(e.state[3], INACTIVE); /* flag 1 is on */
    answer a = exec_finish(&e);
    ends(a, TEST_AGAIN, 0, 1);
    CHECK(a.served == 2 && e.running == 3 && e.state[1] == DISPATCHABLE);
    ends(exec_finish(&e), TEST_UNDESIRED, 0, 0); /* flag 1 is on again */
    CHECK_IS(e.running, 1); /* and not task 2 */
}

/*
 * Tasks 3 and 4 wait for task 2's flag off and on; its on starts task 5.  The
 * services of both servings count, the test's own activation does not.
 */
static void off_and_on_are_heard(void)
{
    start_with("RIG 1 5 2 0\nT 1 0 5 0 0\nT 2 1 6 0 1\nT 3 1 6 0 0\nT 4 1 6 0 0\nT 5 1 4 0 2\nC 5 0 0 1\nA 5 0 1\n", &e);
    ACCEPTS(exec_schedule(&e, 3));
    ACCEPTS(exec_wait_unlatched(&e, 1, false));
    ACCEPTS(exec_schedule(&e, 2));
    ACCEPTS(exec_wait_cycles(&e, 1));
    ACCEPTS(exec_schedule(&e, 4));
    ACCEPTS(exec_wait_unlatched(&e, 1, true));
    ACCEPTS(exec_schedule(&e, 5));
    answer a = exec_terminate(&e, 2);
    ends(a, TEST_AGAIN, 2, 1);
    CHECK_IS(a.served, 3); /* off, on, task 5's on */
    CHECK(a.test.woken == 1 && a.test.activated == 0);
    for (unsigned t = 2; t <= 5; t++)
        CHECK_IS(e.state[t], DISPATCHABLE);
}

/* A finish serves its off, up to 63 others' flags and its own on: 65, below the 79. */
static void most_that_a_finish_serves(void)
{
    text t = {NULL, 0, 0};
    text_print(&t, "RIG 1 64 64 0\n");
    for (unsigned task = 1; task <= 64; task++)
        text_print(&t, "T %u %u 9 0 %u\n", task, task > 1, task);
    for (unsigned task = 2; task <= 64; task++)
        text_print(&t, "C %u 0 0 0\n", task);
    for (unsigned task = 2; task <= 64; task++)
        text_print(&t, "A %u 0 1\n", task);
    text_add(&t, "", 1);
    start_with((const char *)t.bytes, &e);
    for (unsigned task = 2; task <= 64; task++)
        ACCEPTS(exec_schedule(&e, task));
    answer a = exec_finish(&e);
    ends(a, TEST_AGAIN, 0, 63);
    CHECK(a.served == 65 && e.running == 1);
    CHECK(exec_sound(&e));
    text_free(&t);
}

void again_tests(void)
{
    RUN(without_conditions);
    RUN(after_terminate);
    RUN(not_after_cancel);
    RUN(latched_conditions_stand);
    RUN(a_start_too_soon);
    RUN(its_own_flag);
    RUN(tested_once_the_queue_is_empty);
    RUN(started_before_the_test);
    RUN(has_not_stayed);
    RUN(chosen_by_rank);
    RUN(off_and_on_are_heard);
    RUN(most_that_a_finish_serves);
}
