/* Records that are not sound: every call refuses them by 12 and leaves them as they are. */
#include <stdlib.h>
#include <string.h>

#include "check.h"
#include "rules.h"

static exec good, bad, before;
static uint16_t words[TICK_WORDS];

/* Task 2 waits on time, task 3 on flag 3; task 4 is uninvoked; task 1 runs. */
static void make_good(void)
{
    start_with("RIG 1 4 4 1\nT 1 0 10 0 0\nT 2 1 20 0 2\nT 3 2 20 0 4\nT 4 1 5 0 0\n"
               "C 4 0 1 1\nA 4 0 3\nM 5 1\nB 1 5 7 2 32 2 0\n", &good);
    CHECK_IS(exec_schedule(&good, 2).refusal, ACCEPTED);
    CHECK_IS(exec_schedule(&good, 3).refusal, ACCEPTED);
    CHECK_IS(exec_wait_cycles(&good, 5).refusal, ACCEPTED);
    CHECK_IS(exec_wait_unlatched(&good, 3, true).refusal, ACCEPTED);
    CHECK_IS(good.running, 1);
    CHECK(exec_sound(&good));
}

static void every_call_refuses(void)
{
    uint16_t area[33], data[32];
    before = bad;
    CHECK(!exec_sound(&bad));
    CHECK_IS(exec_schedule(&bad, 9).refusal, NOT_SOUND);
    CHECK_IS(exec_cancel(&bad, 9).refusal, NOT_SOUND);
    CHECK_IS(exec_terminate(&bad, 9).refusal, NOT_SOUND);
    CHECK_IS(exec_finish(&bad).refusal, NOT_SOUND);
    CHECK_IS(exec_wait_until(&bad, 0).refusal, NOT_SOUND);
    CHECK_IS(exec_wait_cycles(&bad, 0).refusal, NOT_SOUND);
    CHECK_IS(exec_wait_latched(&bad, 9, true).refusal, NOT_SOUND);
    CHECK_IS(exec_wait_unlatched(&bad, 9, true).refusal, NOT_SOUND);
    CHECK_IS(exec_signal(&bad, 9, true).refusal, NOT_SOUND);
    CHECK_IS(exec_read_flag(&bad, 9).refusal, NOT_SOUND);
    CHECK_IS(exec_next_waking(&bad).refusal, NOT_SOUND);
    CHECK_IS(exec_overruns(&bad, 9).refusal, NOT_SOUND);
    CHECK_IS(exec_tick(&bad, words, 0).refusal, NOT_SOUND);
    CHECK_IS(exec_write_block(&bad, 9, area, 0, data, 0).refusal, NOT_SOUND);
    CHECK_IS(exec_read_block(&bad, 9, area, 0, data, 0).refusal, NOT_SOUND);
    CHECK(memcmp(&bad, &before, sizeof bad) == 0);
}

static void a_record_of_zeros(void)
{
    memset(&bad, 0, sizeof bad);
    every_call_refuses();
}

#define DAMAGED(change) (bad = good, (change), every_call_refuses())

static void broken_rigs(void)
{
    make_good();
    DAMAGED(bad.rig.tasks = 0);
    DAMAGED(bad.rig.tasks = 3);
    DAMAGED(bad.rig.task[3].controller = 4);
    DAMAGED(bad.rig.a_lines = 0);
    DAMAGED(bad.rig.cycle[5].flag[0] = 2);
    DAMAGED(bad.rig.row[0].sender = 7);
    DAMAGED(bad.rig.row[1].sender = 7);
    DAMAGED(bad.plan.kind[1] = FLAG_PLAIN);
    DAMAGED(bad.plan.kind[128] = FLAG_MINOR);
    DAMAGED(bad.plan.first[3] = 1);
    DAMAGED(bad.plan.first[129] = 2);
    DAMAGED(bad.plan.by_flag[0] = 1);
    DAMAGED(bad.plan.by_flag[1] = 1);
}

static void broken_states(void)
{
    make_good();
    DAMAGED(bad.count = 2147483648u);
    DAMAGED(bad.state[4] = 4);
    DAMAGED(bad.state[0] = 1);
    DAMAGED(bad.state[5] = 1);
    DAMAGED((bad.state[2] = 0, bad.wait[2] = (exec_wait){0}, bad.timed = (exec_line){0}, bad.value[2] = 0));
    DAMAGED(bad.state[1] = INACTIVE);
    DAMAGED(bad.value[3] = 2);
    DAMAGED(bad.value[0] = 1);
    DAMAGED(bad.value[5] = 1);
    DAMAGED(bad.value[2] = 0); /* the activation flag of an active task */
    DAMAGED(bad.overruns[0] = 1);
    DAMAGED(bad.overruns[5] = 65535); /* the rig has four tasks */
    DAMAGED(bad.overruns[64] = 1);
    DAMAGED(bad.condition[4] = 2);
    DAMAGED(bad.condition[1] = 1);
    DAMAGED(bad.condition[64] = 1);
}

static void broken_waits(void)
{
    make_good();
    DAMAGED(bad.state[2] = DISPATCHABLE);
    DAMAGED(bad.timed.tasks = 0);
    DAMAGED(bad.timed.tasks = 2);
    DAMAGED(bad.timed.tasks = 255);
    DAMAGED(bad.timed.task[0] = 0);
    DAMAGED(bad.timed.task[0] = 3);
    DAMAGED(bad.timed.task[0] = 65);
    DAMAGED(bad.timed.task[1] = 2);
    DAMAGED((bad.timed.task[1] = 2, bad.timed.tasks = 2));
    DAMAGED(bad.flagged.tasks = 0);
    DAMAGED(bad.flagged.task[0] = 2);
    DAMAGED(bad.wait[2].wake = 0); /* not above the count */
    DAMAGED(bad.wait[2].wake = 2147483648u);
    DAMAGED(bad.wait[2].flag = 1);
    DAMAGED(bad.wait[2].kind = WAIT_FLAG);
    DAMAGED(bad.wait[3].flag = 0);
    DAMAGED(bad.wait[3].flag = 5);
    DAMAGED(bad.wait[3].value = 2);
    DAMAGED(bad.wait[3].wake = 9);
    DAMAGED(bad.wait[1].wake = 9); /* a task in no line has all 0 */
    DAMAGED(bad.wait[0].flag = 1);
    DAMAGED(bad.wait[64].flag = 1);
    DAMAGED(bad.count = 5); /* task 2's waking count, no longer above it */
}

static void time_out_of_order(void)
{
    make_good();
    CHECK_IS(exec_schedule(&good, 4).refusal, ACCEPTED);
    CHECK_IS(exec_wait_cycles(&good, 7).refusal, ACCEPTED);
    CHECK_IS(good.timed.tasks, 2);
    DAMAGED((bad.timed.task[0] = 1, bad.timed.task[1] = 2));
    DAMAGED(bad.wait[2].wake = 8);
    bad = good;
    bad.wait[2].wake = 7; /* order among equal waking counts is free */
    CHECK(exec_sound(&bad));
    bad.timed.task[0] = 1;
    bad.timed.task[1] = 2;
    CHECK(exec_sound(&bad));
}

static void broken_running(void)
{
    make_good();
    DAMAGED(bad.running = 0);
    DAMAGED(bad.running = 2);
    DAMAGED(bad.running = 65);
    DAMAGED(bad.running = 255);
    bad = good;
    CHECK_IS(exec_signal(&bad, 3, true).refusal, ACCEPTED); /* task 3 takes over */
    CHECK_IS(bad.running, 3);
    bad.running = 1; /* one of higher rank is dispatchable */
    every_call_refuses();
}

/* What the list does not tie is free. */
static void free_values(void)
{
    make_good();
    bad = good;
    bad.value[1] = 1;
    bad.value[3] = 1;
    bad.condition[4] = 1;
    bad.wait[3].flag = 1; /* a wait on a minor-cycle flag */
    CHECK(exec_sound(&bad));
}

/* Any bytes at all are answered. */
static void any_bytes(void)
{
    chance c = chance_of(12, 0);
    uint8_t *bytes = (uint8_t *)&bad;
    make_good();
    for (unsigned i = 0; i < 300; i++) {
        for (size_t k = 0; k < sizeof bad; k++)
            bytes[k] = (uint8_t)chance_next(&c);
        CHECK_IS(exec_tick(&bad, words, TICK_WORDS).refusal, NOT_SOUND);
    }
    for (unsigned i = 0; i < 20000; i++) {
        bad = good;
        size_t at = (size_t)(chance_next(&c) % sizeof bad);
        bytes[at] = (uint8_t)chance_next(&c);
        before = bad;
        if (exec_tick(&bad, words, TICK_WORDS).refusal != ACCEPTED)
            CHECK(memcmp(&bad, &before, sizeof bad) == 0);
        else
            CHECK(exec_sound(&bad));
    }
}

void sound_tests(void)
{
    RUN(a_record_of_zeros);
    RUN(broken_rigs);
    RUN(broken_states);
    RUN(broken_waits);
    RUN(time_out_of_order);
    RUN(broken_running);
    RUN(free_values);
    RUN(any_bytes);
}
