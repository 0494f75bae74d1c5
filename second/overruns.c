/*
 * Starts that came too soon (request L6): "Each task gains a number of
 * overruns: services of a minor-cycle flag in one of its conditions with the
 * task already active before."  How they are counted, and the call that reads
 * the number.
 */
#include "exec.h"
#include "mutant.h"
#include "serve.h"

/* ---- Counting: sets of tasks, task t as bit t - 1 ---- */

/*
 * Whose start by this service came too soon: a set, so each task once, however
 * many of its conditions name the flag.  A task that the service itself
 * activated was not active before it; one that an earlier service of the same
 * call activated was.
 */
static uint64_t tasks_overrun(const exec *e, const task_states *before, unsigned flag)
{
    uint64_t tasks = 0;
    if (e->plan.kind[flag] != FLAG_MINOR)
        return 0;
    for (unsigned i = e->plan.first[flag]; i < e->plan.first[flag + 1]; i++) {
        unsigned place = e->rig.a[e->plan.by_flag[i]].task - 1u;
        tasks |= (uint64_t)(before->of[place] >= WAITING) << place;
    }
    return tasks;
}

/* For mutants alone: the tasks that have the flag in a condition. */
static uint64_t tasks_naming(const exec *e, unsigned flag)
{
    uint64_t tasks = 0;
    for (unsigned i = e->plan.first[flag]; i < e->plan.first[flag + 1]; i++)
        tasks |= UINT64_C(1) << (e->rig.a[e->plan.by_flag[i]].task - 1);
    return tasks;
}

/* For mutants alone: the tasks in these states. */
static uint64_t tasks_in(const task_states *states, enum task_state least, enum task_state most)
{
    uint64_t tasks = 0;
    for (unsigned i = 0; i < TASKS_MAX; i++)
        tasks |= (uint64_t)(states->of[i] >= least && states->of[i] <= most) << i;
    return tasks;
}

/* For mutants alone: the faults that go by what earlier services of the call did. */
static uint64_t spoilt_by_call(const serving *s, const task_states *before, uint64_t right)
{
    static uint64_t active_first, counted;
    if (s->served == 1) {
        active_first = tasks_in(before, WAITING, DISPATCHABLE);
        counted = 0;
    }
    uint64_t late = right;
    if (MUTATED(ACTIVE_BEFORE_CALL))
        late &= active_first;
    if (MUTATED(ONCE_A_CALL))
        late &= ~counted;
    counted |= right;
    return late;
}

/* For mutants alone: whom they count. */
static uint64_t spoilt_set(const exec *e, const serving *s, const task_states *before, unsigned flag)
{
    uint64_t right = tasks_overrun(e, before, flag), naming = tasks_naming(e, flag);
    uint64_t active = tasks_in(before, WAITING, DISPATCHABLE), running = e->running != 0 ? UINT64_C(1) << (e->running - 1) : 0;
    task_states now;
    for (unsigned t = 1; t <= TASKS_MAX; t++)
        now.of[t - 1] = e->state[t];
    if (MUTATED(ANY_FLAG_OVERRUNS))
        return naming & active;
    if (e->plan.kind[flag] != FLAG_MINOR || MUTATED(OVERRUNS_UNCOUNTED))
        return 0;
    if (MUTATED(STARTED_OVERRUNS))
        return naming & tasks_in(&now, WAITING, DISPATCHABLE);
    if (MUTATED(WAITING_UNCOUNTED))
        return right & ~tasks_in(before, WAITING, WAITING);
    if (MUTATED(RUNNING_ALONE_COUNTED))
        return right & running;
    if (MUTATED(INACTIVE_OVERRUNS))
        return naming & (active | tasks_in(&now, INACTIVE, INACTIVE));
    if (MUTATED(UNINVOKED_OVERRUNS))
        return naming & (active | tasks_in(before, UNINVOKED, UNINVOKED));
    if (MUTATED(EVERYBODY_OVERRUNS))
        return active;
    return spoilt_by_call(s, before, right);
}

/* For mutants alone: by how much they raise a task's number. */
static unsigned spoilt_rise(const exec *e, unsigned task, unsigned flag)
{
    unsigned naming = 0;
    for (unsigned i = e->plan.first[flag]; i < e->plan.first[flag + 1]; i++)
        naming += e->rig.a[e->plan.by_flag[i]].task == task;
    return MUTATED(CONDITIONS_OVERRUN) ? naming : 1;
}

/* "It stops at 65,535." */
static uint16_t stopped(unsigned number)
{
    unsigned most = MUTATED(STOP_SHORT) ? OVERRUNS_MAX - 1u : OVERRUNS_MAX;
    if (MUTATED(OVERRUNS_WRAP))
        return (uint16_t)(number % (OVERRUNS_MAX + 1u));
    return (uint16_t)(number < most ? number : most);
}

void count_overruns(exec *e, const serving *s, const task_states *before, unsigned flag)
{
    uint64_t late = WITH_MUTANTS ? spoilt_set(e, s, before, flag) : tasks_overrun(e, before, flag);
    for (; late != 0; late &= late - 1) {
        unsigned task = (unsigned)__builtin_ctzll(late) + 1;
        unsigned rise = WITH_MUTANTS ? spoilt_rise(e, task, flag) : 1;
        e->overruns[task] = stopped(e->overruns[task] + rise);
    }
}

/* ---- Reading ---- */

/* For mutants alone: refusals that they give and the request does not. */
static enum refusal refused_wrongly(const exec *e, uint32_t task)
{
    if (MUTATED(OVERRUNS_NEED_TASK) && e->running == 0)
        return NONE_RUNNING;
    if (!is_task(e, task))
        return ACCEPTED;
    if (MUTATED(OVERRUNS_NEED_CONTROLLER) && e->running != 0 && e->rig.task[task].controller != e->running)
        return NOT_ALLOWED;
    return MUTATED(OVERRUNS_NEED_INVOKED) && e->state[task] == UNINVOKED ? WRONG_STATE : ACCEPTED;
}

/* "A call reads it for any task, with no running task needed." */
static enum refusal judge_overruns(const exec *e, uint32_t task)
{
    if (MUTATED(NO_SUCH_BEFORE_SOUND) && (task < 1 || task > TASKS_MAX))
        return NO_SUCH;
    if (!exec_sound(e))
        return MUTATED(UNSOUND_HAS_NO_OVERRUNS) ? ACCEPTED : NOT_SOUND;
    if (WITH_MUTANTS && refused_wrongly(e, task) != ACCEPTED)
        return refused_wrongly(e, task);
    if ((MUTATED(TASK_ZERO_TOLD) && task == 0) || (MUTATED(TASKS_ABOVE_TOLD) && task > e->rig.tasks))
        return ACCEPTED;
    return is_task(e, task) ? ACCEPTED : NO_SUCH;
}

answer exec_overruns(const exec *e, uint32_t task)
{
    answer a = {.refusal = judge_overruns(e, task)};
    if (WITH_MUTANTS && (!exec_sound(e) || !is_task(e, task)))
        return a;
    if (a.refusal == ACCEPTED)
        a.value = e->overruns[task];
    return a;
}
