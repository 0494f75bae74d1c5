/*
 * The soundness of a record ("A record is sound when ..."), one pass over it.
 * Nothing is trusted: the record may be any bytes at all.
 */
#include <string.h>

#include "exec.h"
#include "rules.h"

/* ---- The plan agrees with the rig ---- */

static bool kinds_agree(const exec *e, const flag_set *minor)
{
    uint8_t kind[FLAGS_MAX + 1];
    for (unsigned f = 0; f <= FLAGS_MAX; f++)
        kind[f] = minor->marked[f] ? FLAG_MINOR : FLAG_PLAIN;
    for (unsigned t = 1; t <= e->rig.tasks; t++)
        if (e->rig.task[t].activation != 0)
            kind[e->rig.task[t].activation] = FLAG_ACTIVATION;
    return memcmp(kind, e->plan.kind, sizeof kind) == 0;
}

/* Each A line stands at the next place of its flag; the places leave no gap. */
static bool places_agree(const exec *e)
{
    const exec_plan *plan = &e->plan;
    uint16_t next[FLAGS_MAX + 2];
    memcpy(next, plan->first, sizeof next);
    if (plan->first[0] != 0 || plan->first[1] != 0)
        return false;
    for (unsigned i = 0; i < e->rig.a_lines; i++) {
        unsigned place = next[e->rig.a[i].flag]++;
        if (place >= e->rig.a_lines || plan->by_flag[place] != i)
            return false;
    }
    for (unsigned f = 1; f <= FLAGS_MAX; f++)
        if (next[f] != plan->first[f + 1])
            return false;
    return all_zero(plan->by_flag + e->rig.a_lines,
                    (A_LINES_MAX - e->rig.a_lines) * sizeof plan->by_flag[0]);
}

/* ---- States and values ---- */

static bool states_hold(const exec *e)
{
    unsigned tasks = e->rig.tasks;
    for (unsigned t = 1; t <= tasks; t++) {
        unsigned controller = e->rig.task[t].controller;
        if (e->state[t] > DISPATCHABLE)
            return false;
        if (t > 1 && e->state[t] != UNINVOKED && e->state[controller] == UNINVOKED)
            return false;
    }
    return e->state[0] == 0 && all_zero(e->state + tasks + 1, TASKS_MAX - tasks);
}

static bool values_hold(const exec *e)
{
    unsigned tasks = e->rig.tasks, flags = e->rig.flags;
    for (unsigned f = 1; f <= flags; f++)
        if (e->value[f] > 1)
            return false;
    for (unsigned t = 1; t <= tasks; t++)
        if (e->condition[t] & ~e->rig.conditions[t].present)
            return false;
    return e->value[0] == 0 && all_zero(e->value + flags + 1, FLAGS_MAX - flags) &&
           e->condition[0] == 0 &&
           all_zero(e->condition + tasks + 1, (TASKS_MAX - tasks) * sizeof e->condition[0]);
}

/* A number of overruns has 16 bits, so it is never above its stop; who is no task has none. */
static bool overruns_hold(const exec *e)
{
    unsigned tasks = e->rig.tasks;
    return e->overruns[0] == 0 && all_zero(e->overruns + tasks + 1, (TASKS_MAX - tasks) * sizeof e->overruns[0]);
}

/* An activation flag is on exactly while its task is active. */
static bool activations_agree(const exec *e)
{
    for (unsigned t = 1; t <= e->rig.tasks; t++) {
        unsigned flag = e->rig.task[t].activation;
        if (flag != 0 && e->value[flag] != (e->state[t] >= WAITING))
            return false;
    }
    return true;
}

/* ---- Waits ---- */

static bool wait_is(const exec_wait *w, enum wait_kind kind)
{
    if (w->kind != kind)
        return false;
    switch (kind) {
    case WAIT_TIME:
        return w->flag == 0 && w->value == 0;
    case WAIT_FLAG:
        return w->wake == 0;
    default:
        return w->flag == 0 && w->value == 0 && w->wake == 0;
    }
}

/*
 * The tasks of a line are waiting tasks, in no line before (`seen`), with
 * waits of that kind.
 */
static bool line_holds(const exec *e, const exec_line *line, enum wait_kind kind, uint64_t *seen)
{
    if (line->tasks > e->rig.tasks)
        return false;
    for (unsigned i = 0; i < line->tasks; i++) {
        unsigned t = line->task[i];
        if (t < 1 || t > e->rig.tasks || e->state[t] != WAITING || !wait_is(&e->wait[t], kind))
            return false;
        uint64_t bit = UINT64_C(1) << (t - 1);
        if (*seen & bit)
            return false;
        *seen |= bit;
    }
    return all_zero(line->task + line->tasks, (size_t)(TASKS_MAX - line->tasks));
}

static bool time_in_order(const exec *e)
{
    uint32_t least = e->count + 1;
    for (unsigned i = 0; i < e->timed.tasks; i++) {
        uint32_t wake = e->wait[e->timed.task[i]].wake;
        if (wake < least || wake > COUNT_MAX)
            return false;
        least = wake;
    }
    return true;
}

static bool flag_waits_hold(const exec *e)
{
    for (unsigned i = 0; i < e->flagged.tasks; i++) {
        const exec_wait *w = &e->wait[e->flagged.task[i]];
        if (w->flag < 1 || w->flag > e->rig.flags || w->value > 1)
            return false;
    }
    return true;
}

static bool waits_hold(const exec *e)
{
    uint64_t seen = 0;
    if (!line_holds(e, &e->timed, WAIT_TIME, &seen) ||
        !line_holds(e, &e->flagged, WAIT_FLAG, &seen) || !time_in_order(e) || !flag_waits_hold(e))
        return false;
    if (!wait_is(&e->wait[0], WAIT_NONE))
        return false;
    for (unsigned t = 1; t <= TASKS_MAX; t++) {
        bool in_line = seen >> (t - 1) & 1;
        if (!in_line && (e->state[t] == WAITING || !wait_is(&e->wait[t], WAIT_NONE)))
            return false;
    }
    return true;
}

/* ---- Dispatch ---- */

/* The running task is dispatchable with none of higher rank, or none is dispatchable. */
static bool running_holds(const exec *e)
{
    unsigned running = e->running;
    if (running > e->rig.tasks || (running != 0 && e->state[running] != DISPATCHABLE))
        return false;
    unsigned rank = running != 0 ? exec_rank(e, running) : 0;
    for (unsigned t = 1; t <= e->rig.tasks; t++)
        if (e->state[t] == DISPATCHABLE && (running == 0 || exec_rank(e, t) > rank))
            return false;
    return true;
}

bool exec_sound(const exec *e)
{
    flag_set minor;
    return judge_rig(&e->rig, &minor) == RULE_KEPT && kinds_agree(e, &minor) && places_agree(e) &&
           e->count <= COUNT_MAX && states_hold(e) && values_hold(e) && overruns_hold(e) &&
           activations_agree(e) && waits_hold(e) && running_holds(e);
}
