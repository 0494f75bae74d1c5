#include "exec.h"

#include <string.h>

#include "mutant.h"
#include "serve.h"
#include "words.h"

/* ---- Answers and judging ---- */

static answer refused(enum refusal refusal)
{
    return (answer){.refusal = refusal};
}

/*
 * The checked build tests the whole record before each call; the other one
 * trusts its host, but still knows the record of a refused start.
 */
static bool handed_sound(const exec *e)
{
#ifdef CHECKED
    return exec_sound(e);
#else
    return e->rig.tasks != 0;
#endif
}

/* 12, then 5: what every call but the tick is judged for first. */
static enum refusal judge_call(const exec *e)
{
    if (!handed_sound(e))
        return NOT_SOUND;
    return e->running == 0 ? NONE_RUNNING : ACCEPTED;
}

/* Schedule, cancel and terminate come only from the named task's controller. */
static enum refusal judge_named_task(const exec *e, uint32_t task)
{
    enum refusal refusal = judge_call(e);
    if (refusal != ACCEPTED)
        return refusal;
    if (task < 1 || task > e->rig.tasks)
        return NO_SUCH;
    return e->rig.task[task].controller == e->running ? ACCEPTED : NOT_ALLOWED;
}

/* A call on a flag, none of whose kinds from `barred` up is allowed. */
static enum refusal judge_named_flag(const exec *e, uint32_t flag, enum flag_kind barred)
{
    enum refusal refusal = judge_call(e);
    if (refusal != ACCEPTED)
        return refusal;
    if (flag < 1 || flag > e->rig.flags)
        return NO_SUCH;
    return e->plan.kind[flag] >= barred ? NOT_ALLOWED : ACCEPTED;
}

/* Serves what is queued, dispatches and answers. */
static answer settle(exec *e, serving *s, bool stayed)
{
    serve_all(e, s);
    dispatch(e, stayed);
    return (answer){.refusal = ACCEPTED,
                    .served = (uint8_t)s->served,
                    .woken = (uint8_t)s->woken,
                    .activated = (uint8_t)s->activated,
                    .heard = (uint8_t)s->heard};
}

/* The running task began to wait; nothing was queued. */
static answer settle_waiting(exec *e)
{
    dispatch(e, false);
    return (answer){.refusal = ACCEPTED};
}

/* No state changed, so the running task goes on. */
static answer go_on(void)
{
    return (answer){.refusal = ACCEPTED};
}

/* ---- Start ---- */

void exec_make_plan(const rig *r, exec_plan *plan)
{
    uint16_t next[FLAGS_MAX + 2] = {0};
    memset(plan, 0, sizeof *plan);
    for (unsigned t = 1; t <= r->tasks; t++)
        if (r->task[t].activation != 0)
            plan->kind[r->task[t].activation] = FLAG_ACTIVATION;
    for (unsigned c = 0; c < CYCLES; c++)
        for (unsigned i = 0; i < r->cycle[c].flags; i++)
            plan->kind[r->cycle[c].flag[i]] = FLAG_MINOR;
    for (unsigned i = 0; i < r->a_lines; i++)
        plan->first[r->a[i].flag + 1]++;
    for (unsigned f = 1; f <= FLAGS_MAX + 1; f++)
        plan->first[f] = (uint16_t)(plan->first[f] + plan->first[f - 1]);
    memcpy(next, plan->first, sizeof next);
    for (unsigned i = 0; i < r->a_lines; i++)
        plan->by_flag[next[r->a[i].flag]++] = (uint16_t)i;
}

static void schedule(exec *e, serving *s, unsigned task)
{
    if (!MUTATED(SCHEDULE_KEEPS))
        reset_unlatched(e, task);
    if (!MUTATED(SCHEDULE_KEEPS_OVERRUNS))
        e->overruns[task] = 0;
    e->state[task] = INACTIVE;
    if (exec_as_desired(e, task))
        activate(e, s, task);
}

answer exec_start(exec *e, const rig *r)
{
    serving s = {.served = 0};
    memset(e, 0, sizeof *e);
    if (rig_broken_rule(r) != RULE_KEPT)
        return refused(BAD_RIG);
    e->rig = *r;
    exec_make_plan(r, &e->plan);
    schedule(e, &s, 1);
    s.activated += MUTATED(START_COUNTED);
    return settle(e, &s, false);
}

/* ---- Calls on tasks ---- */

answer exec_schedule(exec *e, uint32_t task)
{
    serving s = {.served = 0};
    enum refusal refusal = judge_named_task(e, task);
    if (refusal != ACCEPTED)
        return refused(refusal);
    if (e->state[task] != UNINVOKED)
        return refused(WRONG_STATE);
    schedule(e, &s, task);
    s.activated += MUTATED(SCHEDULE_COUNTED) && e->state[task] == DISPATCHABLE;
    return settle(e, &s, true);
}

/*
 * The end of a task's family: since each controller is the previous task or
 * one of its ancestors, the descendants follow the task without a gap, and
 * the first task past them has an earlier controller.
 */
static unsigned family_end(const exec *e, unsigned task)
{
    unsigned end = task + 1;
    while (end <= e->rig.tasks && e->rig.task[end].controller >= task)
        end++;
    return end;
}

static void uninvoke(exec *e, unsigned task, bool named)
{
    e->state[task] = UNINVOKED;
    if (named || !MUTATED(CANCEL_LEAVES_LINKED))
        leave_line(e, task);
    if (MUTATED(CANCEL_RESETS))
        e->condition[task] = 0;
    if (MUTATED(CANCEL_CLEARS_OVERRUNS))
        e->overruns[task] = 0;
}

answer exec_cancel(exec *e, uint32_t task)
{
    serving s = {.served = 0};
    bool was_active[TASKS_MAX + 1];
    enum refusal refusal = judge_named_task(e, task);
    if (refusal != ACCEPTED)
        return refused(refusal);
    if (e->state[task] == UNINVOKED)
        return refused(WRONG_STATE);
    unsigned end = family_end(e, task);
    for (unsigned t = task; t < end; t++) { /* all leave before the first off is served */
        was_active[t] = e->state[t] >= WAITING;
        uninvoke(e, t, t == task);
        if (MUTATED(CANCEL_SERVES_EARLY) && was_active[t]) {
            queue_activation(&s, e, t, 0);
            serve_all(e, &s);
        }
    }
    for (unsigned i = task; i < end; i++) {
        unsigned t = MUTATED(CANCEL_FALLING) ? task + end - 1 - i : i;
        if (was_active[t] && !MUTATED(CANCEL_SERVES_EARLY))
            queue_activation(&s, e, t, 0);
    }
    if (MUTATED(CANCELLED_TESTED) && exec_as_desired(e, task)) {
        serve_all(e, &s);
        activate(e, &s, task);
    }
    return settle(e, &s, true);
}

/* ---- Finish and terminate ---- */

static void deactivate(exec *e, serving *s, unsigned task)
{
    if (!MUTATED(TERMINATE_LEAVES_LINKED))
        leave_line(e, task);
    if (MUTATED(FINISH_CLEARS_OVERRUNS) && task == e->running)
        e->overruns[task] = 0;
    if (MUTATED(TERMINATE_CLEARS_OVERRUNS) && task != e->running)
        e->overruns[task] = 0;
    e->state[task] = INACTIVE;
    queue_activation(s, e, task, 0);
}

/* For mutants alone: what they make of the activation by the test; `conditions` are the task's before it. */
static void spoil_again(exec *e, serving *s, unsigned task, uint16_t conditions)
{
    unsigned flag = e->rig.task[task].activation;
    if (MUTATED(AGAIN_KEEPS))
        e->condition[task] = conditions;
    if ((MUTATED(AGAIN_FLAG_LEFT) || MUTATED(AGAIN_FLAG_UNSERVED)) && flag != 0)
        s->waiting--;
    if (MUTATED(AGAIN_FLAG_UNSERVED))
        e->value[flag] = 1;
    s->activated += MUTATED(AGAIN_COUNTED);
}

/*
 * "that task is tested again and activated if it is still inactive with all
 * conditions as desired".  No service activates it here, so it is not among
 * the activated.
 */
static enum test_outcome test_again(exec *e, serving *s, unsigned task)
{
    bool inactive = e->state[task] == INACTIVE || (MUTATED(ACTIVE_TESTED) && e->state[task] == DISPATCHABLE);
    if (!inactive)
        return TEST_ACTIVE;
    if (MUTATED(RESET_BEFORE_TEST))
        reset_unlatched(e, task);
    if (!exec_as_desired(e, task) && !MUTATED(CONDITIONS_UNTESTED))
        return TEST_UNDESIRED;
    uint16_t conditions = e->condition[task];
    activate(e, s, task);
    if (WITH_MUTANTS)
        spoil_again(e, s, task, conditions);
    return TEST_AGAIN;
}

static unsigned untested; /* for TESTED_BY_TICK alone: the task that ended last */

/* For mutants alone: whether the fault leaves out the test of this task. */
static bool goes_untested(const exec *e, unsigned task)
{
    bool finished = task == e->running;
    if (MUTATED(TESTED_BY_TICK))
        untested = task;
    return MUTATED(NEVER_TESTED) || MUTATED(TESTED_BY_TICK) || (MUTATED(TERMINATED_UNTESTED) && !finished) ||
           (MUTATED(FINISHED_UNTESTED) && finished) ||
           (MUTATED(CONDITIONED_UNTESTED) && e->rig.conditions[task].present != 0);
}

/* Serves until the queue is empty, which is when the task that ended is tested. */
static void serve_up_to_test(exec *e, serving *s, unsigned task)
{
    if (MUTATED(TESTED_AFTER_ONE) && s->waiting > 0)
        serve_one(e, s);
    if (!MUTATED(TESTED_AT_ONCE) && !MUTATED(TESTED_AFTER_ONE))
        serve_all(e, s);
    if (MUTATED(FIRST_SERVING_UNTOLD))
        s->woken = s->activated = 0;
    if (MUTATED(CHOSEN_BEFORE_TEST))
        dispatch(e, task != e->running);
}

/* For mutants alone: who runs by the fault, where `task` finished and the test made it active again. */
static unsigned spoilt_choice(exec *e, unsigned task)
{
    if (MUTATED(AGAIN_RUNS_AHEAD))
        return task;
    if (MUTATED(AGAIN_UNCHOSEN) && e->running == task) {
        e->state[task] = INACTIVE;
        dispatch(e, false);
        e->state[task] = DISPATCHABLE;
    }
    return e->running;
}

/*
 * "After finish and terminate, once the queue is empty", the task that ended
 * is tested again; what that queues is then served.  Who terminates another
 * stays dispatchable; who finished "has not stayed dispatchable, even if it is
 * active again".
 */
static answer settle_ended(exec *e, serving *s, unsigned task)
{
    bool finished = task == e->running, stayed = !finished;
    serve_up_to_test(e, s, task);
    exec_test test = {.woken = (uint8_t)s->woken, .activated = (uint8_t)s->activated};
    if (!goes_untested(e, task))
        test.outcome = test_again(e, s, task);
    if ((MUTATED(RESTART_STAYED) && test.outcome == TEST_ACTIVE) ||
        (MUTATED(AGAIN_STAYED) && test.outcome == TEST_AGAIN) || (MUTATED(CHOSEN_BEFORE_TEST) && e->running != 0))
        stayed = true;
    answer a = settle(e, s, stayed);
    a.test = test;
    if (WITH_MUTANTS && finished && test.outcome == TEST_AGAIN)
        e->running = (uint8_t)spoilt_choice(e, task);
    if (MUTATED(SECOND_SERVING_UNTOLD)) {
        a.woken = test.woken;
        a.activated = test.activated;
    }
    return a;
}

answer exec_terminate(exec *e, uint32_t task)
{
    serving s = {.served = 0};
    enum refusal refusal = judge_named_task(e, task);
    if (MUTATED(STATE_BEFORE_CONTROLLER) && refusal == NOT_ALLOWED && e->state[task] < WAITING)
        refusal = WRONG_STATE;
    if (refusal != ACCEPTED)
        return refused(refusal);
    if (e->state[task] < WAITING)
        return refused(WRONG_STATE);
    deactivate(e, &s, task);
    if (MUTATED(TERMINATE_FAMILY))
        for (unsigned t = task + 1; t < family_end(e, task); t++)
            if (e->state[t] >= WAITING)
                deactivate(e, &s, t);
    return settle_ended(e, &s, task);
}

answer exec_finish(exec *e)
{
    serving s = {.served = 0};
    enum refusal refusal = judge_call(e);
    if (refusal != ACCEPTED)
        return refused(refusal);
    deactivate(e, &s, e->running);
    return settle_ended(e, &s, e->running);
}

/* ---- Waits ---- */

/* At or below the count there is no wait. */
static answer wait_until(exec *e, uint64_t waking)
{
    if (waking > COUNT_MAX)
        return refused(COUNT_ABOVE);
    if (waking < e->count || (waking == e->count && !MUTATED(WAITS_AT_PRESENT)))
        return go_on();
    wait_on_time(e, (uint32_t)waking);
    return settle_waiting(e);
}

answer exec_wait_until(exec *e, uint32_t count)
{
    enum refusal refusal = judge_call(e);
    return refusal != ACCEPTED ? refused(refusal) : wait_until(e, count);
}

answer exec_wait_cycles(exec *e, uint32_t cycles)
{
    enum refusal refusal = judge_call(e);
    uint64_t waking = (uint64_t)e->count + cycles; /* the true sum */
    if (MUTATED(CYCLES_WRAP))
        waking &= UINT32_MAX;
    return refusal != ACCEPTED ? refused(refusal) : wait_until(e, waking);
}

static answer wait_for_flag(exec *e, uint32_t flag, bool value, bool held_is_enough)
{
    enum refusal refusal = judge_named_flag(e, flag, FLAG_MINOR);
    if (refusal != ACCEPTED)
        return refused(refusal);
    if (held_is_enough && e->value[flag] == value)
        return go_on();
    wait_on_flag(e, flag, value);
    return settle_waiting(e);
}

answer exec_wait_latched(exec *e, uint32_t flag, bool value)
{
    return wait_for_flag(e, flag, value, !MUTATED(LATCHED_WAITS_ALWAYS));
}

answer exec_wait_unlatched(exec *e, uint32_t flag, bool value)
{
    return wait_for_flag(e, flag, value, MUTATED(UNLATCHED_SATISFIED));
}

/* ---- When the bench next wakes someone ---- */

static bool waits_on_time(const exec *e, unsigned task)
{
    return e->state[task] == WAITING && e->wait[task].kind == WAIT_TIME;
}

/*
 * Every task is looked at: the verified program reads the head of its chain,
 * and this is to be another way to the same count.  A waking count is above
 * the count, so never 0, which is left for none.
 */
static uint32_t lowest_waking(const exec *e)
{
    uint32_t lowest = 0;
    for (unsigned t = 1; t <= e->rig.tasks; t++) {
        if (!waits_on_time(e, t) || (MUTATED(LOWEST_NUMBER_WAKES) && lowest != 0))
            continue;
        uint32_t wake = e->wait[t].wake;
        if (lowest == 0 || (MUTATED(LAST_WAKES) ? wake > lowest : wake < lowest))
            lowest = wake;
    }
    return lowest;
}

/* For mutants alone: what they make of the lowest waking count. */
static uint32_t waking_told(const exec *e, uint32_t lowest)
{
    static uint32_t told;
    if (!WITH_MUTANTS)
        return lowest;
    if (MUTATED(COUNT_FOR_WAKING) && lowest != 0)
        return e->count;
    if (MUTATED(CYCLES_FOR_WAKING) && lowest != 0)
        return lowest - e->count;
    if (MUTATED(NEXT_COUNT_ALWAYS))
        return e->count + 1;
    if ((MUTATED(ONE_UNSEEN) && e->timed.tasks == 1) || (MUTATED(FLAG_WAITS_HIDE) && e->flagged.tasks > 0))
        return 0;
    if (MUTATED(TOLD_STANDS) && told > e->count && (lowest == 0 || lowest > told))
        return told;
    told = lowest;
    return lowest;
}

answer exec_next_waking(const exec *e)
{
    if (!exec_sound(e))
        return MUTATED(UNSOUND_IS_NONE) ? go_on() : refused(NOT_SOUND);
    if (MUTATED(QUESTION_NEEDS_TASK) && e->running == 0)
        return refused(NONE_RUNNING);
    answer a = go_on();
    a.value = waking_told(e, lowest_waking(e));
    return a;
}

/* ---- Flags ---- */

answer exec_signal(exec *e, uint32_t flag, bool value)
{
    serving s = {.served = 0};
    enum refusal refusal = judge_named_flag(e, flag, MUTATED(ACTIVATION_SIGNALLED) ? FLAG_MINOR : FLAG_ACTIVATION);
    if (refusal != ACCEPTED)
        return refused(refusal);
    queue_flag(&s, flag, value);
    return settle(e, &s, true);
}

answer exec_read_flag(exec *e, uint32_t flag)
{
    enum refusal refusal = judge_named_flag(e, flag, FLAG_MINOR);
    if (refusal != ACCEPTED)
        return refused(refusal);
    answer a = go_on();
    a.value = e->value[flag];
    return a;
}

/* ---- Tick ---- */

static void queue_cycle(const exec *e, serving *s)
{
    unsigned number = (e->count - (MUTATED(CYCLE_BEFORE_TICK) ? 1u : 0u)) % CYCLES;
    const rig_cycle *cycle = &e->rig.cycle[number];
    for (unsigned i = 0; i < cycle->flags; i++)
        queue_flag(s, cycle->flag[MUTATED(CYCLE_LIST_REVERSED) ? cycle->flags - 1 - i : i], 1);
}

static uint16_t row_command(unsigned address, unsigned transmit, unsigned subaddress, unsigned words)
{
    uint16_t word = 0; /* a row's numbers are always within a command's sizes */
    (void)command_word(&(command_fields){address, transmit, subaddress, words}, &word);
    return word;
}

static unsigned write_row(const exec *e, const rig_row *row, uint16_t *words)
{
    uint16_t receive = row_command(row->receiver, 0, row->receiver_sub, row->words);
    uint16_t transmit = row_command(row->sender, 1, row->sender_sub, row->words);
    unsigned n = 0;
    if (row->receiver != e->rig.master)
        words[n++] = receive;
    if (row->sender != e->rig.master)
        words[n++] = transmit;
    if (MUTATED(RECEIVE_AFTER_TRANSMIT) && n == 2) {
        words[0] = transmit;
        words[1] = receive;
    }
    return n;
}

/* "A row is due when count modulo period equals phase." */
static unsigned write_due_rows(const exec *e, uint16_t *words)
{
    unsigned n = 0;
    uint32_t count = e->count - (MUTATED(PHASE_BEFORE_TICK) ? 1u : 0u);
    for (unsigned k = 0; k < e->rig.rows; k++) {
        const rig_row *row = &e->rig.row[k];
        if ((count & (row->period - 1u)) == row->phase) /* a period is a power of two */
            n += write_row(e, row, words + n);
    }
    return n;
}

/* For mutants alone. */
static unsigned due_tasks(const exec *e)
{
    unsigned n = 0;
    for (unsigned t = 1; t <= e->rig.tasks; t++)
        n += waits_on_time(e, t) && e->wait[t].wake == e->count;
    return n;
}

answer exec_tick(exec *e, uint16_t *words, size_t room)
{
    serving s = {.served = 0};
    if (!handed_sound(e))
        return refused(NOT_SOUND);
    if (e->count == COUNT_MAX)
        return refused(COUNT_ABOVE);
    if (MUTATED(ROOM_EXACTLY) ? room != TICK_WORDS : room < TICK_WORDS)
        return refused(BAD_LENGTH);
    e->count++;
    if (MUTATED(DUE_COUNTED))
        s.woken = due_tasks(e);
    wake_due(e); /* by the count, not by a flag: not among the woken */
    if (MUTATED(TESTED_BY_TICK))
        (void)test_again(e, &s, untested);
    queue_cycle(e, &s);
    answer a = settle(e, &s, true);
    a.words = (uint16_t)write_due_rows(e, words);
    if (MUTATED(TICK_CLEARS_PAST))
        memset(words + a.words, 0, (room - a.words) * sizeof *words);
    return a;
}

/* ---- Compool blocks ---- */

static enum refusal judge_block(const exec *e, uint32_t row, size_t area_words, size_t data_words)
{
    enum refusal refusal = judge_call(e);
    if (refusal != ACCEPTED && !(MUTATED(BLOCKS_WITHOUT_TASK) && refusal == NONE_RUNNING))
        return refusal;
    if (row < 1 || row > e->rig.rows)
        return NO_SUCH;
    size_t whole = (size_t)BLOCK_WORDS * e->rig.rows, own = e->rig.row[row - 1].words;
    bool area_fits = MUTATED(AREA_AT_LEAST) ? area_words >= whole : area_words == whole;
    bool data_fits = MUTATED(DATA_AT_LEAST) ? data_words >= own : data_words == own;
    return area_fits && data_fits ? ACCEPTED : BAD_LENGTH;
}

/* Where a row's block begins in the area. */
static size_t block_place(uint32_t row)
{
    return (size_t)(MUTATED(BLOCKS_OVERLAP) ? ROW_WORDS_MAX : BLOCK_WORDS) * (row - 1);
}

answer exec_write_block(exec *e, uint32_t row, uint16_t *area, size_t area_words,
                        const uint16_t *data, size_t data_words)
{
    enum refusal refusal = judge_block(e, row, area_words, data_words);
    if (MUTATED(REFUSED_WRITE_TAGS) && refusal == BAD_LENGTH)
        area[block_place(row)] = (uint16_t)e->count;
    if (refusal != ACCEPTED)
        return refused(refusal);
    uint16_t *block = area + block_place(row);
    if (!MUTATED(TAG_NOT_WRITTEN))
        block[0] = (uint16_t)(e->count % 65536);
    memcpy(block + 1, data, data_words * sizeof *data);
    if (MUTATED(WRITE_FILLS_BLOCK))
        memset(block + 1 + data_words, 0, (ROW_WORDS_MAX - data_words) * sizeof *data);
    return go_on();
}

answer exec_read_block(exec *e, uint32_t row, const uint16_t *area, size_t area_words,
                       uint16_t *data, size_t data_words)
{
    enum refusal refusal = judge_block(e, row, area_words, data_words);
    if (MUTATED(REFUSED_READ_CLEARS) && refusal != ACCEPTED)
        memset(data, 0, data_words * sizeof *data);
    if (refusal != ACCEPTED)
        return refused(refusal);
    const uint16_t *block = area + block_place(row);
    memcpy(data, block + (MUTATED(READ_FROM_TAG) ? 0 : 1), data_words * sizeof *data);
    return go_on();
}
