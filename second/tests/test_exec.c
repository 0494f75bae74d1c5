/* Calls one by one: refusals, waits, the tick, blocks. */
#include <string.h>

#include "check.h"

/*
 * Task 1 controls 2 and 4, task 2 controls 3.  Flag 1 is a minor-cycle flag,
 * flag 2 task 2's activation flag, flags 3 and 4 are plain.
 */
#define HOUSE \
    "RIG 1 4 4 1\nT 1 0 10 0 0\nT 2 1 10 0 2\nT 3 2 10 0 0\nT 4 1 20 0 0\n" \
    "C 4 0 0 1\nA 4 0 1\nM 5 1\nB 1 5 7 2 32 2 0\nB 3 1 1 2 4 4 1\nB 3 1 4 2 1 1 0\n"

static exec e, before;
static uint16_t words[TICK_WORDS];

static void start_house(void)
{
    start_with(HOUSE, &e);
    CHECK_IS(e.running, 1);
}

static void ticks(unsigned n)
{
    while (n-- > 0)
        CHECK_IS(exec_tick(&e, words, TICK_WORDS).refusal, ACCEPTED);
}

/* The call was refused by this number, answered nothing else and left the record as it was. */
static void refused(answer a, enum refusal refusal)
{
    CHECK_IS(a.refusal, refusal);
    CHECK(a.served == 0 && a.value == 0 && a.words == 0 && a.woken == 0 && a.activated == 0);
    CHECK(memcmp(&e, &before, sizeof e) == 0);
}

#define REFUSED(call, number) (before = e, refused((call), (number)))
#define ACCEPTS(call) CHECK_IS((call).refusal, ACCEPTED)

static void a_fresh_record(void)
{
    start_house();
    CHECK_IS(e.count, 0);
    CHECK_IS(e.state[1], DISPATCHABLE);
    for (unsigned t = 2; t <= 4; t++)
        CHECK_IS(e.state[t], UNINVOKED);
    for (unsigned f = 1; f <= 4; f++)
        CHECK_IS(e.value[f], 0);
    CHECK(exec_sound(&e));
}

static void refused_by_5(void)
{
    uint16_t area[99], data[32];
    start_house();
    ACCEPTS(exec_wait_cycles(&e, 1));
    CHECK_IS(e.running, 0);
    REFUSED(exec_schedule(&e, 2), NONE_RUNNING);
    REFUSED(exec_schedule(&e, 99), NONE_RUNNING);
    REFUSED(exec_cancel(&e, 2), NONE_RUNNING);
    REFUSED(exec_terminate(&e, 2), NONE_RUNNING);
    REFUSED(exec_finish(&e), NONE_RUNNING);
    REFUSED(exec_wait_until(&e, UINT32_MAX), NONE_RUNNING);
    REFUSED(exec_wait_cycles(&e, UINT32_MAX), NONE_RUNNING);
    REFUSED(exec_wait_latched(&e, 1, true), NONE_RUNNING);
    REFUSED(exec_wait_unlatched(&e, 1, true), NONE_RUNNING);
    REFUSED(exec_signal(&e, 1, true), NONE_RUNNING);
    REFUSED(exec_read_flag(&e, 1), NONE_RUNNING);
    REFUSED(exec_write_block(&e, 9, area, 1, data, 1), NONE_RUNNING);
    REFUSED(exec_read_block(&e, 9, area, 1, data, 1), NONE_RUNNING);
    ticks(1); /* a tick needs no running task */
}

static void refused_by_6(void)
{
    uint16_t area[99], data[32];
    start_house();
    REFUSED(exec_schedule(&e, 0), NO_SUCH);
    REFUSED(exec_schedule(&e, 5), NO_SUCH);
    REFUSED(exec_cancel(&e, 256 + 2), NO_SUCH);
    REFUSED(exec_terminate(&e, UINT32_MAX), NO_SUCH);
    REFUSED(exec_wait_latched(&e, 0, true), NO_SUCH);
    REFUSED(exec_wait_unlatched(&e, 5, true), NO_SUCH);
    REFUSED(exec_signal(&e, 256 + 3, true), NO_SUCH);
    REFUSED(exec_read_flag(&e, 129), NO_SUCH);
    REFUSED(exec_write_block(&e, 0, area, 1, data, 1), NO_SUCH);
    REFUSED(exec_read_block(&e, 4, area, 1, data, 1), NO_SUCH);
}

static void refused_by_7(void)
{
    start_house();
    REFUSED(exec_cancel(&e, 1), NOT_ALLOWED); /* starred: task 1 names itself */
    REFUSED(exec_schedule(&e, 1), NOT_ALLOWED);
    REFUSED(exec_terminate(&e, 1), NOT_ALLOWED);
    REFUSED(exec_schedule(&e, 3), NOT_ALLOWED); /* a descendant, but not its own */
    REFUSED(exec_cancel(&e, 3), NOT_ALLOWED);   /* 7 before 8 */
    REFUSED(exec_signal(&e, 1, true), NOT_ALLOWED);
    REFUSED(exec_signal(&e, 2, true), NOT_ALLOWED);
    REFUSED(exec_wait_latched(&e, 1, false), NOT_ALLOWED);
    REFUSED(exec_wait_unlatched(&e, 1, false), NOT_ALLOWED);
    REFUSED(exec_read_flag(&e, 1), NOT_ALLOWED);
    ACCEPTS(exec_read_flag(&e, 2)); /* an activation flag may be read and waited on */
    ACCEPTS(exec_wait_latched(&e, 2, false));
}

static void refused_by_8(void)
{
    start_house();
    REFUSED(exec_cancel(&e, 2), WRONG_STATE);
    REFUSED(exec_terminate(&e, 2), WRONG_STATE);
    ACCEPTS(exec_schedule(&e, 4)); /* inactive: its condition is unlatched */
    CHECK_IS(e.state[4], INACTIVE);
    REFUSED(exec_schedule(&e, 4), WRONG_STATE);
    REFUSED(exec_terminate(&e, 4), WRONG_STATE);
    ACCEPTS(exec_cancel(&e, 4));
    CHECK_IS(e.state[4], UNINVOKED);
}

static void refused_by_9(void)
{
    start_house();
    REFUSED(exec_wait_until(&e, 2147483648u), COUNT_ABOVE);
    ticks(3);
    REFUSED(exec_wait_cycles(&e, 2147483645u), COUNT_ABOVE);
    REFUSED(exec_wait_cycles(&e, UINT32_MAX), COUNT_ABOVE); /* the true sum */
    ACCEPTS(exec_wait_cycles(&e, 2147483644u));
    CHECK_IS(e.wait[1].wake, 2147483647);
    start_house();
    ACCEPTS(exec_wait_until(&e, 2147483647u)); /* starred */
    CHECK_IS(e.state[1], WAITING);
    start_house();
    e.count = 2147483646u;
    ticks(1);
    REFUSED(exec_tick(&e, words, TICK_WORDS), COUNT_ABOVE);
    REFUSED(exec_tick(&e, words, 0), COUNT_ABOVE); /* 9 before 10 */
    ACCEPTS(exec_wait_until(&e, 2147483647u));
    CHECK_IS(e.running, 1);
}

static void refused_by_10(void)
{
    uint16_t area[100] = {0}, data[33] = {0};
    start_house();
    REFUSED(exec_tick(&e, words, 127), BAD_LENGTH);
    REFUSED(exec_write_block(&e, 1, area, 98, data, 32), BAD_LENGTH); /* starred: one word short */
    REFUSED(exec_write_block(&e, 1, area, 100, data, 32), BAD_LENGTH);
    REFUSED(exec_write_block(&e, 1, area, 99, data, 31), BAD_LENGTH);
    REFUSED(exec_write_block(&e, 1, area, 99, data, 33), BAD_LENGTH);
    REFUSED(exec_read_block(&e, 2, area, 98, data, 4), BAD_LENGTH);
    REFUSED(exec_read_block(&e, 2, area, 99, data, 32), BAD_LENGTH);
}

static void wait_until_present_count(void)
{
    start_house();
    ticks(2);
    ACCEPTS(exec_wait_until(&e, 2)); /* starred: no wait */
    ACCEPTS(exec_wait_until(&e, 1));
    ACCEPTS(exec_wait_cycles(&e, 0));
    CHECK_IS(e.running, 1);
    ACCEPTS(exec_wait_until(&e, 3));
    CHECK_IS(e.running, 0);
    ticks(1);
    CHECK_IS(e.running, 1);
}

static void time_line_in_order(void)
{
    start_house();
    ACCEPTS(exec_schedule(&e, 2));
    ACCEPTS(exec_wait_cycles(&e, 3)); /* task 1 */
    CHECK_IS(e.running, 2);
    ACCEPTS(exec_schedule(&e, 3));
    ACCEPTS(exec_wait_cycles(&e, 2)); /* task 2 */
    CHECK_IS(e.running, 3);
    ACCEPTS(exec_wait_until(&e, 3)); /* task 3, behind task 1 */
    CHECK_IS(e.timed.tasks, 3);
    CHECK_IS(e.timed.task[0], 2);
    CHECK_IS(e.timed.task[1], 1);
    CHECK_IS(e.timed.task[2], 3);
    ticks(1);
    CHECK_IS(e.running, 0);
    ticks(1);
    CHECK_IS(e.running, 2);
    ticks(1);
    CHECK_IS(e.timed.tasks, 0);
    CHECK_IS(e.running, 2); /* equal rank never takes the processor */
}

static void latched_wait(void)
{
    start_house();
    ACCEPTS(exec_wait_latched(&e, 3, false)); /* it has the value: no wait */
    CHECK_IS(e.running, 1);
    ACCEPTS(exec_schedule(&e, 2));
    ACCEPTS(exec_wait_latched(&e, 3, true));
    CHECK_IS(e.running, 2);
    CHECK_IS(exec_signal(&e, 3, false).served, 1);
    CHECK_IS(e.state[1], WAITING);
    CHECK_IS(exec_signal(&e, 3, true).served, 1);
    CHECK_IS(e.state[1], DISPATCHABLE);
    CHECK_IS(exec_read_flag(&e, 3).value, 1);
}

static void slip_unlatched_wait(void)
{
    start_house();
    ACCEPTS(exec_signal(&e, 3, true));
    ACCEPTS(exec_schedule(&e, 2));
    ACCEPTS(exec_wait_unlatched(&e, 3, true)); /* waits though the flag is on */
    CHECK_IS(e.state[1], WAITING);
    CHECK_IS(e.running, 2);
    ACCEPTS(exec_signal(&e, 3, true)); /* a service that changes nothing still wakes */
    CHECK_IS(e.state[1], DISPATCHABLE);
}

static void slip_equal_priority(void)
{
    start_house();
    ACCEPTS(exec_schedule(&e, 2));
    ACCEPTS(exec_wait_cycles(&e, 1));
    CHECK_IS(e.running, 2);
    ticks(1);
    CHECK_IS(e.state[1], DISPATCHABLE);
    CHECK_IS(e.running, 2);
}

static void slip_phase_after_tick(void)
{
    start_house();
    CHECK_IS(exec_tick(&e, words, TICK_WORDS).words, 3); /* count 1: row 2, row 3 twice */
    CHECK_IS(words[0], 3 << 11 | 1 << 10 | 1 << 5 | 4);
    CHECK_IS(words[1], 4 << 11 | 2 << 5 | 1);
    CHECK_IS(words[2], 3 << 11 | 1 << 10 | 1 << 5 | 1);
    CHECK_IS(exec_tick(&e, words, TICK_WORDS).words, 3); /* count 2: row 1 */
    CHECK_IS(words[0], 14400);
}

static void words_past_stay(void)
{
    start_house();
    for (unsigned i = 0; i < TICK_WORDS; i++)
        words[i] = 7;
    unsigned n = exec_tick(&e, words, TICK_WORDS).words;
    for (unsigned i = n; i < TICK_WORDS; i++)
        CHECK_IS(words[i], 7);
}

static void most_bus_words(void)
{
    text t = {NULL, 0, 0};
    static rig r;
    text_print(&t, "RIG\t1\t1\t1\t0\nT\t1\t0\t0\t0\t0\n");
    for (unsigned i = 0; i < 64; i++)
        text_print(&t, "B\t1\t1\t2\t1\t32\t1\t0\n");
    CHECK_IS(rig_read(t.bytes, t.length, &r).refusal, ACCEPTED);
    ACCEPTS(exec_start(&e, &r));
    CHECK_IS(exec_tick(&e, words, TICK_WORDS).words, 128);
    text_free(&t);
}

/* A waiting child in a family that is cancelled leaves its line and never wakes. */
static void slip_cancel_takes_descendants(void)
{
    start_house();
    ACCEPTS(exec_schedule(&e, 2));
    ACCEPTS(exec_wait_cycles(&e, 1));
    CHECK_IS(e.running, 2);
    ACCEPTS(exec_schedule(&e, 3));
    ACCEPTS(exec_wait_unlatched(&e, 4, true));
    CHECK_IS(e.running, 3);
    ACCEPTS(exec_wait_cycles(&e, 2));
    ticks(1);
    CHECK_IS(e.running, 1);
    CHECK_IS(exec_cancel(&e, 2).served, 1);
    CHECK_IS(e.state[2], UNINVOKED);
    CHECK_IS(e.state[3], UNINVOKED);
    CHECK_IS(e.timed.tasks, 0);
    CHECK_IS(e.flagged.tasks, 0);
    CHECK_IS(e.value[2], 0);
    ticks(2);
    ACCEPTS(exec_signal(&e, 4, true));
    CHECK_IS(e.state[3], UNINVOKED);
    CHECK_IS(e.running, 1);
}

static void terminate_takes_the_named_alone(void)
{
    start_house();
    ACCEPTS(exec_schedule(&e, 2));
    ACCEPTS(exec_wait_cycles(&e, 1));
    ACCEPTS(exec_schedule(&e, 3));
    ACCEPTS(exec_wait_cycles(&e, 9));
    ACCEPTS(exec_wait_unlatched(&e, 4, false)); /* task 3 */
    ticks(1);
    ACCEPTS(exec_schedule(&e, 4));
    CHECK_IS(exec_terminate(&e, 2).served, 2); /* off, and on again: it has no conditions */
    CHECK_IS(e.state[2], DISPATCHABLE);
    CHECK_IS(e.timed.tasks, 0);
    CHECK_IS(e.state[3], WAITING);
    REFUSED(exec_terminate(&e, 4), WRONG_STATE); /* inactive: its cycle has not come */
    ACCEPTS(exec_signal(&e, 4, false));
    CHECK_IS(e.state[3], DISPATCHABLE);
    CHECK_IS(e.running, 1);
}

static void privileged_rank_highest(void)
{
    start_with("RIG 1 3 1 0\nT 1 0 255 0 0\nT 2 1 0 1 0\nT 3 1 1 1 0\n", &e);
    CHECK_IS(e.running, 1);
    ACCEPTS(exec_schedule(&e, 2));
    CHECK_IS(e.running, 2);
    ACCEPTS(exec_wait_cycles(&e, 1));
    ACCEPTS(exec_schedule(&e, 3));
    CHECK_IS(e.running, 3);
    ticks(1);
    CHECK_IS(e.running, 3);
    ACCEPTS(exec_wait_cycles(&e, 1));
    CHECK_IS(e.running, 2);
}

static void lowest_number_of_the_highest(void)
{
    start_with("RIG 1 4 1 0\nT 1 0 9 0 0\nT 2 1 5 0 0\nT 3 1 5 0 0\nT 4 1 5 0 0\n", &e);
    ACCEPTS(exec_schedule(&e, 4));
    ACCEPTS(exec_schedule(&e, 3));
    ACCEPTS(exec_schedule(&e, 2));
    ACCEPTS(exec_wait_cycles(&e, 1));
    CHECK_IS(e.running, 2);
    ACCEPTS(exec_wait_cycles(&e, 1));
    CHECK_IS(e.running, 3);
}

static void blocks(void)
{
    uint16_t area[99], data[32], back[32];
    start_house();
    e.count = 65536 + 12; /* any count in range is sound */
    for (unsigned i = 0; i < 99; i++)
        area[i] = 9;
    for (unsigned i = 0; i < 32; i++)
        data[i] = (uint16_t)(1000 + i);
    ACCEPTS(exec_write_block(&e, 2, area, 99, data, 4));
    for (unsigned i = 0; i < 99; i++)
        CHECK_IS(area[i], i == 33 ? 12 : i > 33 && i <= 37 ? 1000 + i - 34 : 9);
    ACCEPTS(exec_read_block(&e, 2, area, 99, back, 4));
    CHECK(memcmp(back, data, 4 * sizeof back[0]) == 0);
    ACCEPTS(exec_write_block(&e, 1, area, 99, data, 32));
    CHECK_IS(area[32], 1031);
    CHECK_IS(area[33], 12);
}

void exec_tests(void)
{
    RUN(a_fresh_record);
    RUN(refused_by_5);
    RUN(refused_by_6);
    RUN(refused_by_7);
    RUN(refused_by_8);
    RUN(refused_by_9);
    RUN(refused_by_10);
    RUN(wait_until_present_count);
    RUN(time_line_in_order);
    RUN(latched_wait);
    RUN(slip_unlatched_wait);
    RUN(slip_equal_priority);
    RUN(slip_phase_after_tick);
    RUN(words_past_stay);
    RUN(most_bus_words);
    RUN(slip_cancel_takes_descendants);
    RUN(terminate_takes_the_named_alone);
    RUN(privileged_rank_highest);
    RUN(lowest_number_of_the_highest);
    RUN(blocks);
}
