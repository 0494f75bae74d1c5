#include "serve.h"

#include <string.h>

static uint64_t taking; /* for EQUAL_RANK_TAKES alone: tasks made dispatchable since the last dispatch */

static void make_dispatchable(exec *e, unsigned task)
{
    e->state[task] = DISPATCHABLE;
    if (MUTATED(EQUAL_RANK_TAKES))
        taking |= UINT64_C(1) << (task - 1);
}

/* ---- The lines of waiting tasks ---- */

static void line_insert(exec_line *line, unsigned at, unsigned task)
{
    if (WITH_MUTANTS && line->tasks == TASKS_MAX) /* a right line has each task once */
        return;
    memmove(line->task + at + 1, line->task + at, line->tasks - at);
    line->task[at] = (uint8_t)task;
    line->tasks++;
}

static void line_remove(exec_line *line, unsigned at)
{
    line->tasks--;
    memmove(line->task + at, line->task + at + 1, line->tasks - at);
    line->task[line->tasks] = 0;
}

void leave_line(exec *e, unsigned task)
{
    exec_line *line = e->wait[task].kind == WAIT_TIME ? &e->timed : &e->flagged;
    if (e->wait[task].kind == WAIT_NONE)
        return;
    for (unsigned i = 0; i < line->tasks; i++) {
        if (line->task[i] == task) {
            line_remove(line, i);
            break;
        }
    }
    e->wait[task] = (exec_wait){.kind = WAIT_NONE};
}

/* Takes the task at a place of a line out of it and makes it dispatchable. */
static void wake(exec *e, exec_line *line, unsigned at)
{
    unsigned task = line->task[at];
    line_remove(line, at);
    e->wait[task] = (exec_wait){.kind = WAIT_NONE};
    make_dispatchable(e, task);
}

void wait_on_time(exec *e, uint32_t waking)
{
    unsigned at = e->timed.tasks; /* behind all that wake no later */
    while (at > 0 && e->wait[e->timed.task[at - 1]].wake > waking)
        at--;
    line_insert(&e->timed, at, e->running);
    e->wait[e->running] = (exec_wait){.kind = WAIT_TIME, .wake = waking};
    e->state[e->running] = WAITING;
}

void wait_on_flag(exec *e, uint32_t flag, bool value)
{
    line_insert(&e->flagged, e->flagged.tasks, e->running);
    e->wait[e->running] = (exec_wait){.kind = WAIT_FLAG, .flag = (uint8_t)flag, .value = value};
    e->state[e->running] = WAITING;
}

void wake_due(exec *e)
{
    while (e->timed.tasks > 0 && e->wait[e->timed.task[0]].wake == e->count)
        wake(e, &e->timed, 0);
}

static void wake_waiting_on(exec *e, unsigned flag, unsigned value)
{
    unsigned i = 0;
    while (i < e->flagged.tasks) {
        const exec_wait *w = &e->wait[e->flagged.task[i]];
        if (w->flag == flag && (w->value == value || MUTATED(WAKES_ON_EITHER))) {
            wake(e, &e->flagged, i);
            if (MUTATED(WAKES_FIRST_ONLY))
                return;
        } else {
            i++;
        }
    }
}

/* ---- Queue of flags to be served ---- */

void queue_flag(serving *s, unsigned flag, unsigned value)
{
    if (flag == 0) /* a task without activation flag */
        return;
    s->entry[s->waiting].flag = (uint8_t)flag;
    s->entry[s->waiting].value = (uint8_t)value;
    s->waiting++;
}

void queue_activation(serving *s, const exec *e, unsigned task, unsigned value)
{
    queue_flag(s, e->rig.task[task].activation, value);
}

/* "The last queued is taken off first." */
static void take_from_queue(serving *s, unsigned *flag, unsigned *value)
{
    unsigned at = s->waiting - 1;
    if (MUTATED(FIRST_IN_FIRST_OUT))
        at = 0;
    *flag = s->entry[at].flag;
    *value = s->entry[at].value;
    s->waiting--;
    if (MUTATED(FIRST_IN_FIRST_OUT))
        memmove(s->entry, s->entry + 1, s->waiting * sizeof s->entry[0]);
    s->served++;
}

/* ---- Conditions and activation ---- */

void reset_unlatched(exec *e, unsigned task)
{
    const rig_conditions *c = &e->rig.conditions[task];
    unsigned kept = MUTATED(LATCHES_SWAPPED) ? c->present & ~c->latched : c->latched;
    unsigned undesired = c->present & ~c->desired;
    e->condition[task] = (uint16_t)((e->condition[task] & kept) | (undesired & ~kept));
}

bool exec_as_desired(const exec *e, unsigned task)
{
    const rig_conditions *c = &e->rig.conditions[task];
    if (MUTATED(ONE_FLAG_ENOUGH) && c->present != 0)
        return (~(e->condition[task] ^ c->desired) & c->present) != 0;
    return e->condition[task] == c->desired; /* both have bits of conditions only */
}

void activate(exec *e, serving *s, unsigned task)
{
    make_dispatchable(e, task);
    if (MUTATED(ACTIVATION_CLEARS_OVERRUNS))
        e->overruns[task] = 0;
    if (!MUTATED(ACTIVATION_KEEPS))
        reset_unlatched(e, task);
    queue_activation(s, e, task, 1);
}

/* Every condition with the flag takes its value; the tasks that have one, as a set. */
static uint64_t put_to_conditions(exec *e, unsigned flag, unsigned value)
{
    uint64_t tasks = 0;
    for (unsigned i = e->plan.first[flag]; i < e->plan.first[flag + 1]; i++) {
        const rig_line_a *a = &e->rig.a[e->plan.by_flag[i]];
        uint16_t bit = (uint16_t)(1u << a->position);
        if (MUTATED(UNINVOKED_DEAF) && e->state[a->task] == UNINVOKED)
            continue;
        if (value)
            e->condition[a->task] |= bit;
        else
            e->condition[a->task] &= (uint16_t)~bit;
        tasks |= UINT64_C(1) << (a->task - 1);
    }
    return tasks;
}

static unsigned take_task(uint64_t *tasks)
{
    unsigned at = (unsigned)__builtin_ctzll(*tasks);
    if (MUTATED(ACTIVATION_FALLING))
        at = 63u - (unsigned)__builtin_clzll(*tasks);
    *tasks &= ~(UINT64_C(1) << at);
    return at + 1;
}

static void serve_flag(exec *e, serving *s, unsigned flag, unsigned value)
{
    if (MUTATED(SERVES_CHANGES_ONLY) && e->value[flag] == value)
        return;
    e->value[flag] = (uint8_t)value;
    uint64_t tasks = put_to_conditions(e, flag, value);
    wake_waiting_on(e, flag, value);
    while (tasks != 0) {
        unsigned t = take_task(&tasks);
        if (e->state[t] != INACTIVE || !exec_as_desired(e, t))
            continue;
        activate(e, s, t);
        if (MUTATED(SERVES_INSIDE) && e->rig.task[t].activation != 0) {
            take_from_queue(s, &flag, &value);
            serve_flag(e, s, flag, value);
        }
    }
}

/* ---- Whom a service woke, and whom it activated ---- */

static task_states states_now(const exec *e)
{
    task_states s;
    memcpy(s.of, e->state + 1, sizeof s.of);
    return s;
}

/* How many tasks had the one state before and have the other now. */
static unsigned count_changes(const exec *e, const task_states *before, enum task_state from, enum task_state to)
{
    uint8_t changes = 0; /* there are at most 64 */
    for (unsigned i = 0; i < TASKS_MAX; i++)
        changes = (uint8_t)(changes + ((before->of[i] == from) & (e->state[i + 1] == to)));
    return changes;
}

/* For mutants alone: tasks that wait for this value of the flag. */
static unsigned waiting_for(const exec *e, unsigned flag, unsigned value)
{
    unsigned n = 0;
    for (unsigned i = 0; i < e->flagged.tasks; i++) {
        const exec_wait *w = &e->wait[e->flagged.task[i]];
        n += w->flag == flag && w->value == value;
    }
    return n;
}

/*
 * What one service of a flag did, by the tasks' states before and after it: a
 * task that waited and is dispatchable was woken, one that was inactive and is
 * dispatchable was activated.  The service itself counts nothing, so a slip in
 * how it goes through its tasks cannot hide here.
 */
static void count_heard(const exec *e, serving *s, const task_states *before, unsigned flag, unsigned value)
{
    unsigned woken = count_changes(e, before, WAITING, DISPATCHABLE);
    unsigned activated = count_changes(e, before, INACTIVE, DISPATCHABLE);
    if (MUTATED(OTHER_VALUE_WOKEN))
        woken = waiting_for(e, flag, 1 - value);
    if (MUTATED(EITHER_VALUE_WOKEN))
        woken += waiting_for(e, flag, 1 - value);
    if (MUTATED(ACTIVATED_IS_WOKEN))
        woken += activated;
    if (MUTATED(SERVICES_COUNTED)) {
        woken = woken > 0;
        activated = activated > 0;
    }
    if (MUTATED(LAST_SERVICE_TOLD))
        s->woken = s->activated = 0;
    if (MUTATED(FIRST_SERVICE_TOLD) && s->served > 1)
        return;
    s->woken += woken;
    s->activated += activated;
    s->heard += woken + activated > 0;
}

void serve_one(exec *e, serving *s)
{
    unsigned flag, value;
    take_from_queue(s, &flag, &value);
    task_states before = states_now(e);
    serve_flag(e, s, flag, value);
    count_heard(e, s, &before, flag, value);
    count_overruns(e, s, &before, flag);
}

void serve_all(exec *e, serving *s)
{
    while (s->waiting > 0)
        serve_one(e, s);
}

/* ---- Dispatch ---- */

unsigned exec_rank(const exec *e, unsigned task)
{
    const rig_task *t = &e->rig.task[task];
    unsigned privileged = MUTATED(PRIVILEGE_IGNORED) ? 0 : t->privileged;
    return privileged << 8 | t->priority;
}

/*
 * The running task goes on if it stayed dispatchable and none has higher
 * rank; else the highest rank, lowest number first; else none.
 */
void dispatch(exec *e, bool stayed)
{
    unsigned best = stayed ? e->running : 0;
    unsigned rank = best != 0 ? exec_rank(e, best) : 0;
    for (unsigned t = 1; t <= e->rig.tasks; t++) {
        if (e->state[t] != DISPATCHABLE || t == best)
            continue;
        unsigned other = exec_rank(e, t);
        bool takes = best == 0 || other > rank;
        if (MUTATED(EQUAL_RANK_TAKES) && stayed && (taking >> (t - 1) & 1))
            takes = takes || other >= rank;
        if (MUTATED(HIGHEST_NUMBER_FIRST) && !stayed)
            takes = takes || other >= rank;
        if (takes) {
            best = t;
            rank = other;
        }
    }
    e->running = (uint8_t)best;
    if (MUTATED(EQUAL_RANK_TAKES))
        taking = 0;
}
