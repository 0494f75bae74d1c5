#include "tally_overruns.h"

#include "tally.h"

/* ---- Counting ---- */

static unsigned conditions_naming(const exec *e, unsigned task, unsigned flag)
{
    unsigned n = 0;
    for (unsigned i = 0; i < e->rig.a_lines; i++)
        n += e->rig.a[i].task == task && e->rig.a[i].flag == flag;
    return n;
}

/* Whether a flag of the cycle that the tick served is in two or more of the task's conditions. */
static bool is_named_twice(const exec *after, unsigned task)
{
    const rig_cycle *cycle = &after->rig.cycle[after->count % CYCLES];
    for (unsigned i = 0; i < cycle->flags; i++)
        if (conditions_naming(after, task, cycle->flag[i]) > 1)
            return true;
    return false;
}

/*
 * A task whose number rose in a tick.  No tick ends a task: where it was active
 * before, all services of the tick found it active, and where it was not, one
 * of them activated it and a later one counted.
 */
static void note_overrun(overruns_history *h, unsigned task, const exec *before, const exec *after)
{
    bool active = before->state[task] >= WAITING;
    h->waiting[task] |= after->state[task] == WAITING;
    h->doubled[task] |= active && is_named_twice(after, task);
    h->same_call[task] |= !active;
}

void tally_overruns_call(overruns_history *h, const script_call *call, const exec *before, const exec *after)
{
    if (call->verb == 'S') {
        h->reset[call->number] = before->overruns[call->number] > 0;
        h->waiting[call->number] = h->doubled[call->number] = h->same_call[call->number] = false;
    }
    for (unsigned task = 1; call->verb == 'K' && task <= after->rig.tasks; task++)
        if (after->overruns[task] > before->overruns[task])
            note_overrun(h, task, before, after);
}

void tally_overruns_answer(overruns_tally *t, const overruns_history *h, uint32_t task, const exec *e, const answer *a)
{
    if (a->refusal == NO_SUCH) {
        t->task_0 += task == 0;
        t->too_high += task > 0;
        return;
    }
    t->zero += a->value == 0;
    t->above_zero += a->value > 0;
    t->above_one += a->value > 1;
    t->stopped += a->value == OVERRUNS_MAX;
    t->nobody_runs += e->running == 0;
    t->inactive += a->value > 0 && e->state[task] == INACTIVE;
    t->uninvoked += a->value > 0 && e->state[task] == UNINVOKED;
    t->reset += h->reset[task];
    t->waiting += h->waiting[task];
    t->doubled += h->doubled[task];
    t->same_call += h->same_call[task];
}

void tally_overruns_harmed(overruns_tally *t, const entries_call *call, const exec *e, const answer *a)
{
    bool exists = call->task >= 1 && call->task <= e->rig.tasks, sound = call->harm == HARM_NONE;
    if (exists)
        t->harmed[call->harm] += a->refusal == (sound ? ACCEPTED : NOT_SOUND);
    t->harmed_no_task += !exists && a->refusal == NOT_SOUND;
    t->sound_no_task += !exists && a->refusal == NO_SUCH;
    t->sound_above_zero += a->value > 0;
}

/* ---- Printing ---- */

static uint64_t overwritten(const overruns_tally *t)
{
    return t->harmed[HARM_ALL] + t->harmed[HARM_FIRST_HALF] + t->harmed[HARM_SECOND_HALF];
}

void tally_overruns_print(const overruns_tally *t, FILE *to)
{
    fprintf(to,
            "starts that came too soon\n"
            "  O answered with 0 %llu, above 0 %llu, above 1 %llu, with 65,535 %llu; refused by 6: task 0 %llu, too high %llu\n"
            "  while no task runs %llu; above 0 of an inactive task %llu, of an uninvoked one %llu; set to 0 by a schedule %llu\n"
            "  counted while waiting %llu, by a flag of two conditions %llu, behind the task's start in one call %llu\n"
            "  by ?: with wrong fields %llu, with the panel's verbs off %llu\n",
            (unsigned long long)t->zero, (unsigned long long)t->above_zero, (unsigned long long)t->above_one,
            (unsigned long long)t->stopped, (unsigned long long)t->task_0, (unsigned long long)t->too_high,
            (unsigned long long)t->nobody_runs, (unsigned long long)t->inactive, (unsigned long long)t->uninvoked,
            (unsigned long long)t->reset, (unsigned long long)t->waiting, (unsigned long long)t->doubled,
            (unsigned long long)t->same_call, (unsigned long long)t->fields, (unsigned long long)t->off);
    fprintf(to,
            "  P on a sound copy %llu, above 0 %llu, refused by 6 %llu; refused by 12 after a refused start %llu, all zeros %llu,\n"
            "  overwritten %llu, with no such task %llu\n",
            (unsigned long long)t->harmed[HARM_NONE], (unsigned long long)t->sound_above_zero,
            (unsigned long long)t->sound_no_task, (unsigned long long)t->harmed[HARM_REFUSED_START],
            (unsigned long long)t->harmed[HARM_ZEROS], (unsigned long long)overwritten(t), (unsigned long long)t->harmed_no_task);
}

/* ---- What was hit too seldom ---- */

unsigned tally_overruns_missing(const overruns_tally *t, uint64_t least, FILE *to)
{
    unsigned n = tally_seldom(t->zero, least, to, "O", "answered with 0");
    n += tally_seldom(t->above_zero, least, to, "O", "answered with a number above 0");
    n += tally_seldom(t->above_one, least, to, "O", "answered with a number above 1");
    n += tally_seldom(t->stopped, least, to, "O", "answered with 65,535");
    n += tally_seldom(t->task_0, least, to, "O", "of task 0 refused by 6");
    n += tally_seldom(t->too_high, least, to, "O", "of a task that the rig does not have refused by 6");
    n += tally_seldom(t->nobody_runs, least, to, "O", "accepted while no task runs");
    n += tally_seldom(t->inactive, least, to, "O", "answered with a number above 0 of an inactive task");
    n += tally_seldom(t->uninvoked, least, to, "O", "answered with a number above 0 of an uninvoked task");
    n += tally_seldom(t->reset, least, to, "O", "of a task whose number a schedule set to 0");
    n += tally_seldom(t->waiting, least, to, "O", "of a task that was overrun while waiting");
    n += tally_seldom(t->doubled, least, to, "O", "of a task that was overrun by a flag of two conditions");
    n += tally_seldom(t->same_call, least, to, "O", "of a task that was overrun behind its start in one call");
    n += tally_seldom(t->fields, least, to, "O", "with wrong fields");
    return n;
}

unsigned tally_overruns_missing_off(const overruns_tally *t, uint64_t least, FILE *to)
{
    return tally_seldom(t->off, least, to, "O", "with the panel's verbs off");
}

unsigned tally_overruns_missing_harmed(const overruns_tally *t, uint64_t least, FILE *to)
{
    unsigned n = tally_seldom(t->harmed[HARM_NONE], least, to, "overruns", "of a sound copy");
    n += tally_seldom(t->sound_above_zero, least, to, "overruns", "above 0 of a sound copy");
    n += tally_seldom(t->sound_no_task, least, to, "overruns", "of a sound copy refused by 6");
    n += tally_seldom(t->harmed[HARM_REFUSED_START], least, to, "overruns", "refused by 12 after a refused start");
    n += tally_seldom(t->harmed[HARM_ZEROS], least, to, "overruns", "refused by 12 on all zeros");
    n += tally_seldom(overwritten(t), least, to, "overruns", "refused by 12 on an overwritten record");
    n += tally_seldom(t->harmed_no_task, least, to, "overruns", "of no such task refused by 12");
    return n;
}
