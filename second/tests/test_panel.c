/* The panel: when the bench next wakes someone. */
#include <string.h>

#include "check.h"

/* Task 1 acts when the others rest; each of 2, 3 and 4 starts when it is scheduled. Task 4 is task 3's. */
#define SLEEPERS "RIG 1 4 2 0\nT 1 0 10 0 0\nT 2 1 20 0 1\nT 3 1 20 0 0\nT 4 3 30 0 0\n"

static exec e, before;

#define ACCEPTS(call) CHECK_IS((call).refusal, ACCEPTED)

static void start_sleepers(void)
{
    start_with(SLEEPERS, &e);
}

static void ticks(unsigned n)
{
    uint16_t words[TICK_WORDS];
    while (n-- > 0)
        ACCEPTS(exec_tick(&e, words, TICK_WORDS));
}

/* The question is accepted with this count, 0 for none, serves and writes nothing, and leaves the record as it was. */
static void wakes_at(uint32_t count)
{
    before = e;
    answer a = exec_next_waking(&e);
    CHECK_IS(a.refusal, ACCEPTED);
    CHECK_IS(a.value, count);
    CHECK(a.served == 0 && a.words == 0 && a.woken == 0 && a.activated == 0);
    CHECK(memcmp(&e, &before, sizeof e) == 0);
}

/* Task 2 sleeps until count 9, then task 3 until 5, then task 4 until 7: the lowest did not begin first. */
static void put_three_to_sleep(void)
{
    start_sleepers();
    ACCEPTS(exec_schedule(&e, 2));
    ACCEPTS(exec_wait_until(&e, 9));
    ACCEPTS(exec_schedule(&e, 3));
    ACCEPTS(exec_schedule(&e, 4));
    CHECK_IS(e.running, 4);
    ACCEPTS(exec_wait_until(&e, 7));
    CHECK_IS(e.running, 3);
    ACCEPTS(exec_wait_until(&e, 5));
    CHECK_IS(e.running, 1);
}

static void none_waits(void)
{
    start_sleepers();
    wakes_at(0);
    ACCEPTS(exec_wait_until(&e, 0)); /* at or below the count: no wait */
    wakes_at(0);
    ACCEPTS(exec_schedule(&e, 2));
    ACCEPTS(exec_wait_unlatched(&e, 2, true)); /* a wait, but not on time */
    CHECK_IS(e.state[2], WAITING);
    wakes_at(0);
    ACCEPTS(exec_wait_unlatched(&e, 2, true));
    CHECK_IS(e.running, 0); /* and nobody runs */
    wakes_at(0);
}

static void one_waits(void)
{
    start_sleepers();
    ACCEPTS(exec_schedule(&e, 2));
    ACCEPTS(exec_wait_cycles(&e, 3));
    wakes_at(3);
    ticks(2);
    wakes_at(3); /* the tick before the waking */
    ticks(1);
    CHECK_IS(e.state[2], DISPATCHABLE);
    wakes_at(0); /* and after it */
}

static void lowest_of_several(void)
{
    put_three_to_sleep();
    wakes_at(5);
    ticks(5);
    wakes_at(7);
    ticks(2);
    wakes_at(9);
    ticks(2);
    wakes_at(0);
}

static void equal_waking_counts(void)
{
    start_sleepers();
    ACCEPTS(exec_schedule(&e, 2));
    ACCEPTS(exec_wait_until(&e, 6));
    ACCEPTS(exec_schedule(&e, 3));
    ACCEPTS(exec_wait_until(&e, 6));
    wakes_at(6);
    ACCEPTS(exec_cancel(&e, 2));
    wakes_at(6); /* the other one still does */
    ACCEPTS(exec_cancel(&e, 3));
    wakes_at(0);
}

static void earliest_cancelled(void)
{
    put_three_to_sleep();
    ACCEPTS(exec_cancel(&e, 2)); /* not the earliest */
    wakes_at(5);
    put_three_to_sleep();
    ACCEPTS(exec_cancel(&e, 3)); /* the earliest, and with it task 4 */
    wakes_at(9);
    ACCEPTS(exec_cancel(&e, 2));
    wakes_at(0);
}

static void earliest_terminated(void)
{
    put_three_to_sleep();
    ACCEPTS(exec_terminate(&e, 3));
    wakes_at(7); /* its descendant goes on waiting */
    CHECK_IS(e.running, 3); /* it has no conditions, so it is active again; it does not wait again */
    ACCEPTS(exec_wait_unlatched(&e, 2, true));
    ACCEPTS(exec_terminate(&e, 2));
    wakes_at(7);
}

static void no_running_task_is_needed(void)
{
    put_three_to_sleep();
    ACCEPTS(exec_wait_cycles(&e, 100));
    CHECK_IS(e.running, 0);
    wakes_at(5);
    ticks(1);
    CHECK_IS(e.running, 0);
    wakes_at(5);
}

static void the_last_count(void)
{
    start_sleepers();
    ACCEPTS(exec_wait_until(&e, 2147483647u));
    wakes_at(2147483647u);
    e.count = 2147483646u; /* any count below the waking count is sound */
    wakes_at(2147483647u);
    ticks(1);
    wakes_at(0);
}

static void panel_lines(void)
{
    static const char input[] = SLEEPERS
        "RUN\nV\nS 2\nU 9\nV\nS 3\nR 4\nV\nV 1\nV \nVV\nv\n V\nV 0\nX 3\nV\nR 1\nV\nK\nK\nZ 2\nV\nF\nV\nN 2 1\nN 2 1\nV\nK\nV";
    static const char with_panel[] =
        "START 0 0 1 0 0\nV 0 0 1 0 0\nS 0 0 2 0 0\nU 0 0 1 0 0\nV 0 0 1 0 0 9\nS 0 0 3 0 0\nR 0 0 1 0 0\nV 0 0 1 0 0 4\n"
        "?\n?\n?\n?\n?\n?\nX 0 0 1 0 0\nV 0 0 1 0 0 9\nR 0 0 0 0 0\nV 0 0 0 0 0 1\nK 0 1 1 0 0\nK 0 2 1 0 0\nZ 0 2 2 0 0\n"
        "V 0 2 2 0 0\nF 0 2 2 0 0\nV 0 2 2 0 0\nN 0 2 1 0 0\nN 0 2 0 0 0\nV 0 2 0 0 0\nK 0 3 0 0 0\n?\n";
    static const char without[] =
        "START 0 0 1 0 0\n?\nS 0 0 2 0 0\nU 0 0 1 0 0\n?\nS 0 0 3 0 0\nR 0 0 1 0 0\n?\n?\n?\n?\n?\n?\n?\nX 0 0 1 0 0\n?\n"
        "R 0 0 0 0 0\n?\nK 0 1 1 0 0\nK 0 2 1 0 0\nZ 0 2 2 0 0\n?\nF 0 2 2 0 0\n?\nN 0 2 1 0 0\nN 0 2 0 0 0\n?\nK 0 3 0 0 0\n?\n";
    CHECK_PANEL(input, with_panel);
    CHECK_RUN(input, without);
}

static void refused_rigs_on_the_panel(void)
{
    CHECK_PANEL("", "START 1 1\n");
    CHECK_PANEL("RIG 1 1 1 0\nRUN\nV\n", "START 4 0\n");
    CHECK_PANEL(SLEEPERS, "START 0 0 1 0 0\n");
}

/* H of entries.h: a value of 0 stands for none; whatever was harmed is refused, and the rest of the copy is as it was. */
static void harmed_copies(void)
{
    CHECK_ENTRIES(SLEEPERS "RUN\nH 0\nU 6\nH 0\nH 1\nH 2\nH 3\nH 4\nH 5\nH 6\nH\nV\nK\n",
                  "START 0 0 1 0 0\nH 0 0 0 0 0 0 0 0\nU 0 0 0 0 0\nH 0 0 0 6 0 0 0 6\nH 12 0 0 0 0 0 0 6\nH 12 0 0 0 0 0 0 6\n"
                  "H 12 0 0 0 0 0 0 6\nH 12 0 0 0 0 0 0 6\nH 12 0 0 0 0 0 0 6\n?\n?\n?\nK 0 1 0 0 0\n");
}

void panel_tests(void)
{
    RUN(none_waits);
    RUN(one_waits);
    RUN(lowest_of_several);
    RUN(equal_waking_counts);
    RUN(earliest_cancelled);
    RUN(earliest_terminated);
    RUN(no_running_task_is_needed);
    RUN(the_last_count);
    RUN(panel_lines);
    RUN(refused_rigs_on_the_panel);
    RUN(harmed_copies);
}
