/* Whom a signal woke and whom it activated: both numbers of every call. */
#include <string.h>

#include "check.h"

static exec e;
static uint16_t words[TICK_WORDS];

#define ACCEPTS(call) CHECK_IS((call).refusal, ACCEPTED)

/* The call is accepted and tells these two numbers. */
static void heard_by(answer a, unsigned woken, unsigned activated)
{
    CHECK_IS(a.refusal, ACCEPTED);
    CHECK_IS(a.woken, woken);
    CHECK_IS(a.activated, activated);
}

/* The call is refused by this number and tells 0 and 0. */
static void refused_unheard(answer a, enum refusal refusal)
{
    CHECK_IS(a.refusal, refusal);
    CHECK(a.woken == 0 && a.activated == 0);
}

static answer tick(void)
{
    return exec_tick(&e, words, TICK_WORDS);
}

/*
 * Task 1 rests below the others.  Tasks 2, 3 and 4 start when they are scheduled.  Task 5 is started by flag 1 and turns
 * flag 2 on; task 6 is started by flag 2 and turns flag 3 on; task 7 is started by flag 3.  Flags 1 and 4 are plain, flag 5
 * is the minor-cycle flag of cycle 2 and starts task 8.
 */
#define LISTENERS \
    "RIG 1 8 6 0\nT 1 0 10 0 0\nT 2 1 20 0 6\nT 3 1 20 0 0\nT 4 1 20 0 0\nT 5 1 5 0 2\nT 6 1 5 0 3\nT 7 1 5 0 0\nT 8 1 5 0 0\n" \
    "C 5 0 0 1\nC 6 0 0 1\nC 7 0 0 1\nC 8 0 0 1\nA 5 0 1\nA 6 0 2\nA 7 0 3\nA 8 0 5\nM 2 5\n"

static void start_listeners(void)
{
    start_with(LISTENERS, &e);
    CHECK_IS(e.running, 1);
}

/* Schedules a task that starts at once and has it wait for the flag's value. */
static void put_to_wait(unsigned task, unsigned flag, bool value)
{
    ACCEPTS(exec_schedule(&e, task));
    CHECK_IS(e.running, task);
    ACCEPTS(exec_wait_unlatched(&e, flag, value));
    CHECK_IS(e.running, 1);
}

static void nobody_hears(void)
{
    start_listeners();
    heard_by(exec_signal(&e, 4, true), 0, 0);
    put_to_wait(2, 1, true);
    heard_by(exec_signal(&e, 4, true), 0, 0); /* who waits, waits for another flag */
    ACCEPTS(exec_schedule(&e, 6));
    heard_by(exec_signal(&e, 4, false), 0, 0);
}

static void some_are_woken(void)
{
    start_listeners();
    put_to_wait(2, 4, true);
    heard_by(exec_signal(&e, 4, true), 1, 0);
    start_listeners();
    for (unsigned task = 2; task <= 4; task++)
        put_to_wait(task, 4, true);
    heard_by(exec_signal(&e, 4, true), 3, 0);
    heard_by(exec_signal(&e, 4, true), 0, 0); /* nobody waits any more */
}

static void the_other_value_is_not_counted(void)
{
    start_listeners();
    put_to_wait(2, 4, true);
    put_to_wait(3, 4, false);
    put_to_wait(4, 4, false);
    heard_by(exec_signal(&e, 4, true), 1, 0);
    CHECK(e.state[3] == WAITING && e.state[4] == WAITING);
    ACCEPTS(exec_wait_cycles(&e, 1)); /* task 2, of higher rank */
    heard_by(exec_signal(&e, 4, true), 0, 0);
    heard_by(exec_signal(&e, 4, false), 2, 0);
}

static void one_is_activated(void)
{
    start_listeners();
    ACCEPTS(exec_schedule(&e, 5));
    CHECK_IS(e.state[5], INACTIVE);
    heard_by(exec_signal(&e, 1, false), 0, 0); /* its condition desires on */
    heard_by(exec_signal(&e, 1, true), 0, 1);
    heard_by(exec_signal(&e, 1, true), 0, 0); /* it is active already */
}

static void woken_and_activated(void)
{
    start_listeners();
    ACCEPTS(exec_schedule(&e, 5));
    put_to_wait(2, 1, true);
    put_to_wait(3, 1, true);
    heard_by(exec_signal(&e, 1, true), 2, 1);
}

/* Flag 1 starts task 5, whose flag 2 wakes task 2 and starts task 6, whose flag 3 wakes tasks 3 and 4 and starts task 7. */
static void added_over_all_services(void)
{
    start_listeners();
    for (unsigned task = 5; task <= 7; task++)
        ACCEPTS(exec_schedule(&e, task));
    put_to_wait(2, 2, true);
    put_to_wait(3, 3, true);
    put_to_wait(4, 3, true);
    answer a = exec_signal(&e, 1, true);
    heard_by(a, 3, 3);
    CHECK_IS(a.served, 3);
    CHECK_IS(a.heard, 3);
}

/* The schedule activates task 2 itself; its flag 6 is served, and who hears that is counted. */
static void a_schedule_counts_services_alone(void)
{
    start_listeners();
    heard_by(exec_schedule(&e, 3), 0, 0); /* activated, no flag */
    ACCEPTS(exec_wait_unlatched(&e, 6, true));
    CHECK_IS(e.running, 1);
    answer a = exec_schedule(&e, 2);
    heard_by(a, 1, 0);
    CHECK(a.served == 1 && e.state[2] == DISPATCHABLE);
}

/* Task 2 is due at count 2, where flag 5 starts task 8: the count wakes, the flag activates. */
static void a_tick_counts_services_alone(void)
{
    start_listeners();
    ACCEPTS(exec_schedule(&e, 2));
    ACCEPTS(exec_wait_until(&e, 2));
    ACCEPTS(exec_schedule(&e, 3));
    ACCEPTS(exec_wait_until(&e, 1));
    ACCEPTS(exec_schedule(&e, 8));
    heard_by(tick(), 0, 0);
    CHECK_IS(e.state[3], DISPATCHABLE);
    heard_by(tick(), 0, 1);
    CHECK(e.state[2] == DISPATCHABLE && e.state[8] == DISPATCHABLE);
}

static void a_refusal_tells_nothing(void)
{
    start_listeners();
    ACCEPTS(exec_schedule(&e, 5));
    put_to_wait(2, 1, true);
    heard_by(exec_signal(&e, 1, true), 1, 1);
    CHECK_IS(e.running, 2);
    refused_unheard(exec_signal(&e, 2, true), NOT_ALLOWED);
    refused_unheard(exec_signal(&e, 99, true), NO_SUCH);
    refused_unheard(exec_schedule(&e, 3), NOT_ALLOWED);
    refused_unheard(exec_wait_until(&e, UINT32_MAX), COUNT_ABOVE);
    refused_unheard(exec_tick(&e, words, 0), BAD_LENGTH);
}

/* What serves nothing tells nothing, also behind a call that did. */
static void calls_without_services(void)
{
    start_listeners();
    ACCEPTS(exec_schedule(&e, 5));
    heard_by(exec_signal(&e, 1, true), 0, 1);
    heard_by(exec_read_flag(&e, 1), 0, 0);
    heard_by(exec_next_waking(&e), 0, 0);
    heard_by(exec_wait_until(&e, 0), 0, 0);
    heard_by(exec_wait_cycles(&e, 5), 0, 0);
}

/* Task 2's own flag off starts it again: by a service, so it is counted, though it was active before the call. */
static void a_restart_is_an_activation(void)
{
    start_with("RIG 1 3 3 0\nT 1 0 5 0 0\nT 2 1 6 0 2\nT 3 1 6 0 0\nC 2 0 1 0\nA 2 0 2\n", &e);
    heard_by(exec_schedule(&e, 2), 0, 0);
    heard_by(exec_finish(&e), 0, 1);
    ACCEPTS(exec_wait_unlatched(&e, 3, true));
    heard_by(exec_terminate(&e, 2), 0, 1); /* it waited, but no service woke it */
}

/* Cancel of task 2 turns its flag off: task 3 waits for that, task 4 is started by it. */
static void a_cancel_is_heard(void)
{
    start_with("RIG 1 4 2 0\nT 1 0 5 0 0\nT 2 1 4 0 1\nT 3 1 6 0 0\nT 4 1 4 0 0\nC 4 0 1 0\nA 4 0 1\n", &e);
    ACCEPTS(exec_schedule(&e, 2));
    ACCEPTS(exec_schedule(&e, 4));
    CHECK_IS(e.state[4], INACTIVE);
    ACCEPTS(exec_schedule(&e, 3));
    ACCEPTS(exec_wait_latched(&e, 1, false));
    heard_by(exec_cancel(&e, 2), 1, 1);
}

/* The start activates task 1 itself and serves its flag: 0 and 0. */
static void a_start_tells_nothing(void)
{
    static rig r;
    read_right_rig("RIG 1 2 1 0\nT 1 0 0 0 1\nT 2 1 0 0 0\nC 2 0 0 1\nA 2 0 1\n", &r);
    answer a = exec_start(&e, &r);
    heard_by(a, 0, 0);
    CHECK(a.served == 1 && e.state[1] == DISPATCHABLE);
    memset(&r, 0, sizeof r);
    refused_unheard(exec_start(&e, &r), BAD_RIG);
}

/* 64 tasks are the most that one call can activate, and 63 the most that it can wake. */
static void as_many_as_there_are(void)
{
    text t = {NULL, 0, 0};
    text_print(&t, "RIG 1 64 2 0\n");
    for (unsigned task = 1; task <= 64; task++)
        text_print(&t, "T %u %u %u 0 0\n", task, task > 1, task > 1 ? 20 : 10);
    text_add(&t, "", 1);
    start_with((const char *)t.bytes, &e);
    for (unsigned task = 2; task <= 64; task++)
        put_to_wait(task, 1, true);
    heard_by(exec_signal(&e, 1, true), 63, 0);
    text_clear(&t);
    text_print(&t, "RIG 1 64 1 0\n");
    for (unsigned task = 1; task <= 64; task++)
        text_print(&t, "T %u %u 9 0 0\n", task, task > 1);
    for (unsigned task = 1; task <= 64; task++)
        text_print(&t, "C %u 0 0 1\n", task);
    for (unsigned task = 1; task <= 64; task++)
        text_print(&t, "A %u 0 1\n", task);
    text_print(&t, "M 1 1\nM 3 1\n");
    text_add(&t, "", 1);
    start_with((const char *)t.bytes, &e);
    heard_by(tick(), 0, 1);
    for (unsigned task = 2; task <= 64; task++)
        heard_by(exec_schedule(&e, task), 0, 0);
    ACCEPTS(exec_finish(&e));
    heard_by(tick(), 0, 0);
    heard_by(tick(), 0, 64);
    text_free(&t);
}

/* Lines: both stand behind the running task, before words and values; `?` and a refused START have neither. */
static void lines_with_both(void)
{
    static const char input[] = LISTENERS "B 0 1 1 2 3 1 0\nRUN\nG 4 1\nS 5\nS 2\nN 1 1\nS 3\nN 1 1\nG 1 1\nG 2 1\nhello\n"
                                          "Q 1\nV\nK\n";
    CHECK_RUN(input, "START 0 0 1 0 0\nG 0 0 1 0 0\nS 0 0 1 0 0\nS 0 0 2 0 0\nN 0 0 1 0 0\nS 0 0 3 0 0\nN 0 0 1 0 0\n"
                     "G 0 0 2 2 1\nG 7 0 2 0 0\n?\nQ 0 0 2 0 0 1\n?\nK 0 1 2 0 0 2115\n");
    CHECK_PANEL(input, "START 0 0 1 0 0\nG 0 0 1 0 0\nS 0 0 1 0 0\nS 0 0 2 0 0\nN 0 0 1 0 0\nS 0 0 3 0 0\nN 0 0 1 0 0\n"
                       "G 0 0 2 2 1\nG 7 0 2 0 0\n?\nQ 0 0 2 0 0 1\nV 0 0 2 0 0\nK 0 1 2 0 0 2115\n");
    CHECK_RUN("RIG 1 1 1 0\nRUN\nG 1 1\n", "START 4 0\n");
}

/* A tick of any room tells both, a block call 0 and 0; the numbers of flags served and the check number come behind them. */
static void lines_of_entries_with_both(void)
{
    CHECK_ENTRIES(LISTENERS "RUN\nS 8\nJ 128\nJ 128\nJ 127\nD 1 0 0\nH 0\n",
                  "START 0 0 1 0 0\nS 0 0 1 0 0\nJ 0 1 1 0 0 0 60837\nJ 0 2 1 0 1 1 60837\nJ 10 2 1 0 0 0 39970\n"
                  "D 6 2 1 0 0 0 0\nH 0 0 0 0 0 0 0 0\n");
}

void heard_tests(void)
{
    RUN(nobody_hears);
    RUN(some_are_woken);
    RUN(the_other_value_is_not_counted);
    RUN(one_is_activated);
    RUN(woken_and_activated);
    RUN(added_over_all_services);
    RUN(a_schedule_counts_services_alone);
    RUN(a_tick_counts_services_alone);
    RUN(a_refusal_tells_nothing);
    RUN(calls_without_services);
    RUN(a_restart_is_an_activation);
    RUN(a_cancel_is_heard);
    RUN(a_start_tells_nothing);
    RUN(as_many_as_there_are);
    RUN(lines_with_both);
    RUN(lines_of_entries_with_both);
}
