/* Serving: conditions, cascades, their order, restarts, and the 79. */
#include "check.h"
#include "gen.h"

static exec e;
static uint16_t words[TICK_WORDS];

#define ACCEPTS(call) CHECK_IS((call).refusal, ACCEPTED)

static answer tick(void)
{
    return exec_tick(&e, words, TICK_WORDS);
}

/* Latched conditions remember services from before the schedule, unlatched ones do not. */
static void latched_conditions_remember(void)
{
    start_with("RIG 1 3 2 0\nT 1 0 1 0 0\nT 2 1 1 0 0\nT 3 1 1 0 0\nC 2 0 1 1\nC 3 0 0 1\nA 2 0 1\nA 3 0 1\n", &e);
    ACCEPTS(exec_signal(&e, 1, true));
    CHECK_IS(e.condition[2], 1); /* whatever its task's state */
    ACCEPTS(exec_schedule(&e, 2));
    CHECK_IS(e.state[2], DISPATCHABLE);
    ACCEPTS(exec_schedule(&e, 3));
    CHECK_IS(e.state[3], INACTIVE);
    ACCEPTS(exec_signal(&e, 1, true)); /* changes nothing and still tests */
    CHECK_IS(e.state[3], DISPATCHABLE);
    CHECK_IS(e.condition[3], 0); /* unlatched conditions undesired again */
    CHECK_IS(e.condition[2], 1);
}

/* Off is desired and conditions start off: latched is satisfied at once, unlatched is put on. */
static void desiring_off(void)
{
    start_with("RIG 1 3 2 0\nT 1 0 1 0 0\nT 2 1 1 0 0\nT 3 1 1 0 0\nC 2 0 1 0\nC 3 0 0 0\nA 2 0 1\nA 3 0 1\n", &e);
    ACCEPTS(exec_schedule(&e, 2));
    CHECK_IS(e.state[2], DISPATCHABLE);
    ACCEPTS(exec_schedule(&e, 3));
    CHECK_IS(e.state[3], INACTIVE);
    CHECK_IS(e.condition[3], 1);
    ACCEPTS(exec_signal(&e, 1, false));
    CHECK_IS(e.state[3], DISPATCHABLE);
}

/* A condition of several flags has the value last served to any of them. */
static void several_flags_last_served(void)
{
    start_with("RIG 1 2 3 0\nT 1 0 1 0 0\nT 2 1 1 0 0\nC 2 0 1 1\nC 2 5 1 1\nA 2 0 1\nA 2 0 2\nA 2 5 3\n", &e);
    ACCEPTS(exec_schedule(&e, 2));
    ACCEPTS(exec_signal(&e, 1, true));
    ACCEPTS(exec_signal(&e, 2, false));
    ACCEPTS(exec_signal(&e, 3, true));
    CHECK_IS(e.state[2], INACTIVE);
    ACCEPTS(exec_signal(&e, 2, true));
    CHECK_IS(e.state[2], DISPATCHABLE);
}

/* Each task's activation starts the next: one signal goes through all. */
static void a_cascade(void)
{
    start_with("RIG 1 4 5 0\nT 1 0 9 0 0\nT 2 1 1 0 2\nT 3 1 1 0 3\nT 4 1 1 0 4\n"
               "C 2 0 0 1\nC 3 0 0 1\nC 4 0 0 1\nA 2 0 1\nA 3 0 2\nA 4 0 3\n", &e);
    for (unsigned t = 2; t <= 4; t++)
        ACCEPTS(exec_schedule(&e, t));
    CHECK_IS(exec_signal(&e, 1, true).served, 4);
    for (unsigned t = 2; t <= 4; t++)
        CHECK(e.state[t] == DISPATCHABLE && e.value[t] == 1);
}

/*
 * Flags 1 and 2 start tasks 2 and 3 (activation flags 3, 4) in one tick;
 * task 4 desires flag 3 on and flag 4 off.  The last queued is served first,
 * so flag 4 is on before flag 3, and task 4 does not start.
 */
static void last_queued_first(void)
{
    const char *race = "RIG 1 4 4 0\nT 1 0 9 0 0\nT 2 1 1 0 3\nT 3 1 1 0 4\nT 4 1 1 0 0\n"
                       "C 2 0 0 1\nC 3 0 0 1\nC 4 0 1 1\nC 4 1 1 0\nA 2 0 %1\nA 3 0 %2\nA 4 0 3\nA 4 1 4\n"
                       "M 1 1\nM 1 2\n";
    for (unsigned swapped = 0; swapped < 2; swapped++) {
        text t = {NULL, 0, 0};
        for (const char *p = race; *p != 0; p++) {
            if (*p == '%') {
                p++;
                text_print(&t, "%c", swapped ? (*p == '1' ? '2' : '1') : *p);
            } else {
                text_add(&t, p, 1);
            }
        }
        text_add(&t, "", 1);
        start_with((const char *)t.bytes, &e);
        for (unsigned task = 2; task <= 4; task++)
            ACCEPTS(exec_schedule(&e, task));
        answer a = tick();
        CHECK_IS(a.served, 4);
        CHECK_IS(e.state[4], swapped ? DISPATCHABLE : INACTIVE);
        text_free(&t);
    }
}

/* One flag starts tasks 2 and 3, by rising number, so task 3's flag is queued last and served first. */
static void activated_by_rising_number(void)
{
    start_with("RIG 1 4 4 0\nT 1 0 9 0 0\nT 2 1 1 0 3\nT 3 1 1 0 4\nT 4 1 1 0 0\n"
               "C 2 0 0 1\nC 3 0 0 1\nC 4 0 1 1\nC 4 1 1 0\nA 2 0 1\nA 3 0 1\nA 4 0 4\nA 4 1 3\n", &e);
    for (unsigned t = 2; t <= 4; t++)
        ACCEPTS(exec_schedule(&e, t));
    CHECK_IS(exec_signal(&e, 1, true).served, 3);
    CHECK_IS(e.state[4], DISPATCHABLE); /* flag 4 on while flag 3 was still off */
}

/*
 * Cancel of task 2's family queues the offs of flags 2, 3 by rising number:
 * flag 3 goes off first.  Task 4 desires flag 2 on and 3 off, so it starts
 * in between; task 5 desires 2 off and 3 on, and does not.
 */
static void cancel_queues_by_rising_number(void)
{
    start_with("RIG 1 5 3 0\nT 1 0 9 0 0\nT 2 1 10 0 2\nT 3 2 1 0 3\nT 4 1 1 0 0\nT 5 1 1 0 0\n"
               "C 4 0 1 1\nC 4 1 1 0\nC 5 0 1 0\nC 5 1 1 1\nA 4 0 2\nA 4 1 3\nA 5 0 2\nA 5 1 3\n", &e);
    ACCEPTS(exec_schedule(&e, 2));
    CHECK_IS(e.running, 2);
    ACCEPTS(exec_schedule(&e, 3));
    ACCEPTS(exec_wait_cycles(&e, 5));
    CHECK_IS(e.running, 1);
    ACCEPTS(exec_schedule(&e, 4));
    ACCEPTS(exec_schedule(&e, 5));
    CHECK_IS(e.state[4], INACTIVE);
    CHECK_IS(e.state[5], INACTIVE);
    CHECK_IS(exec_cancel(&e, 2).served, 2);
    CHECK_IS(e.state[4], DISPATCHABLE);
    CHECK_IS(e.state[5], INACTIVE);
}

/* Only tasks that were active have an off to queue. */
static void cancel_of_an_inactive_family(void)
{
    start_with("RIG 1 3 4 0\nT 1 0 9 0 0\nT 2 1 10 0 2\nT 3 2 1 0 3\nC 3 0 0 1\nA 3 0 1\n", &e);
    ACCEPTS(exec_schedule(&e, 2));
    ACCEPTS(exec_schedule(&e, 3)); /* inactive */
    ACCEPTS(exec_wait_cycles(&e, 1));
    CHECK_IS(exec_cancel(&e, 2).served, 1);
}

/* Task 2 starts again by its own finish; it did not stay, so the lowest number of its rank runs. */
static void stops_and_starts_within_one_call(void)
{
    start_with("RIG 1 3 4 0\nT 1 0 5 0 0\nT 2 1 6 0 2\nT 3 1 6 0 0\nC 2 0 1 0\nA 2 0 2\n", &e);
    CHECK_IS(exec_schedule(&e, 2).served, 1);
    CHECK_IS(e.running, 2);
    CHECK_IS(exec_finish(&e).served, 2); /* off, then on */
    CHECK_IS(e.state[2], DISPATCHABLE);
    CHECK_IS(e.value[2], 1);
    CHECK_IS(e.running, 2); /* none else of its rank */
    ACCEPTS(exec_wait_cycles(&e, 1));
    ACCEPTS(exec_schedule(&e, 3));
    CHECK_IS(e.running, 3);
    ACCEPTS(exec_wait_cycles(&e, 1));
    ACCEPTS(tick());
    CHECK_IS(e.running, 2);
    ACCEPTS(exec_finish(&e));
    CHECK_IS(e.running, 2); /* 2 is below 3 */
}

/* The same with the restarting task above: the lower number takes its place. */
static void a_restart_does_not_stay(void)
{
    start_with("RIG 1 3 4 0\nT 1 0 5 0 0\nT 2 1 6 0 0\nT 3 1 6 0 2\nC 3 0 1 0\nA 3 0 2\n", &e);
    ACCEPTS(exec_schedule(&e, 3));
    CHECK_IS(e.running, 3);
    ACCEPTS(exec_wait_cycles(&e, 1));
    ACCEPTS(exec_schedule(&e, 2));
    CHECK_IS(e.running, 2);
    ACCEPTS(exec_wait_cycles(&e, 2));
    ACCEPTS(tick());
    CHECK_IS(e.running, 3);
    ACCEPTS(tick());
    CHECK_IS(e.running, 3); /* stayed: equal rank does not take over */
    CHECK_IS(exec_finish(&e).served, 2);
    CHECK_IS(e.state[3], DISPATCHABLE);
    CHECK_IS(e.running, 2);
}

/* Terminate may start the task again too. */
static void terminated_and_started(void)
{
    start_with("RIG 1 2 4 0\nT 1 0 5 0 0\nT 2 1 6 0 2\nC 2 0 1 0\nA 2 0 2\n", &e);
    ACCEPTS(exec_schedule(&e, 2));
    ACCEPTS(exec_wait_unlatched(&e, 4, true));
    CHECK_IS(e.running, 1);
    CHECK_IS(exec_terminate(&e, 2).served, 2);
    CHECK_IS(e.state[2], DISPATCHABLE);
    CHECK_IS(e.flagged.tasks, 0);
    CHECK_IS(e.running, 2);
}

/* A start of task 1 serves its own flag; with an unlatched condition it waits for its cycle. */
static void starts_of_task_1(void)
{
    static rig r;
    read_right_rig("RIG 1 1 1 0\nT 1 0 0 0 1\n", &r);
    CHECK_IS(exec_start(&e, &r).served, 1);
    CHECK_IS(e.value[1], 1);
    start_with("RIG 1 1 1 0\nT 1 0 0 0 0\nC 1 0 0 1\nA 1 0 1\nM 0 1\n", &e);
    CHECK_IS(e.running, 0);
    for (unsigned i = 0; i < 63; i++)
        CHECK_IS(tick().served, 0);
    CHECK_IS(e.running, 0);
    CHECK_IS(tick().served, 1); /* the list of cycle 0 is first served at count 64 */
    CHECK_IS(e.count, 64);
    CHECK_IS(e.running, 1);
}

/* A full-size rig whose tick serves exactly 79: 15 minor-cycle flags and 64 activations. */
static void seventy_nine(void)
{
    static rig r;
    for (unsigned i = 0; i < 10; i++) {
        chance c = chance_of(79, i);
        gen_full_serving_rig(&c, &r);
        ACCEPTS(exec_start(&e, &r));
        CHECK_IS(e.running, 0);
        CHECK_IS(tick().served, 2); /* its flag and task 1's */
        CHECK_IS(e.running, 1);
        for (unsigned t = 2; t <= 64; t++)
            CHECK_IS(exec_schedule(&e, t).served, 0);
        CHECK_IS(exec_finish(&e).served, 1);
        CHECK_IS(tick().served, 0);
        CHECK_IS(tick().served, 79);
        for (unsigned t = 1; t <= 64; t++)
            CHECK_IS(e.state[t], DISPATCHABLE);
        CHECK(exec_sound(&e));
    }
}

/* Tasks waiting on a flag and value wake together; the other value wakes none of them. */
static void waiting_on_a_flag(void)
{
    start_with("RIG 1 4 2 0\nT 1 0 1 0 0\nT 2 1 2 0 0\nT 3 1 3 0 0\nT 4 1 4 0 0\n", &e);
    for (unsigned t = 2; t <= 4; t++) {
        ACCEPTS(exec_schedule(&e, t));
        CHECK_IS(e.running, t);
        ACCEPTS(t == 3 ? exec_wait_unlatched(&e, 2, false) : exec_wait_latched(&e, 2, true));
    }
    CHECK_IS(e.flagged.tasks, 3);
    ACCEPTS(exec_signal(&e, 2, true));
    CHECK_IS(e.running, 4);
    CHECK_IS(e.state[2], DISPATCHABLE);
    CHECK_IS(e.state[3], WAITING);
    CHECK_IS(e.flagged.tasks, 1);
}

void serving_tests(void)
{
    RUN(latched_conditions_remember);
    RUN(desiring_off);
    RUN(several_flags_last_served);
    RUN(a_cascade);
    RUN(last_queued_first);
    RUN(activated_by_rising_number);
    RUN(cancel_queues_by_rising_number);
    RUN(cancel_of_an_inactive_family);
    RUN(stops_and_starts_within_one_call);
    RUN(a_restart_does_not_stay);
    RUN(terminated_and_started);
    RUN(starts_of_task_1);
    RUN(seventy_nine);
    RUN(waiting_on_a_flag);
}
