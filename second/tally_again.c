#include "tally_again.h"

#include "tally.h"

/* ---- Counting ---- */

static bool is_left_inactive(const exec *e)
{
    for (unsigned t = 1; t <= e->rig.tasks; t++)
        if (e->state[t] == INACTIVE && exec_as_desired(e, t))
            return true;
    return false;
}

/* Whether another task of the same rank could run. */
static bool has_equal(const exec *e, unsigned task)
{
    for (unsigned t = 1; t <= e->rig.tasks; t++)
        if (t != task && e->state[t] == DISPATCHABLE && exec_rank(e, t) == exec_rank(e, task))
            return true;
    return false;
}

static void count_choice(again_tally *t, unsigned task, const exec *after)
{
    bool runs = after->running == task;
    bool equal = exec_rank(after, after->running) == exec_rank(after, task);
    t->gave_way_to_rank += !runs && !equal;
    t->gave_way_to_number += !runs && equal;
    t->ahead_of_equals += runs && has_equal(after, task);
}

static void count_again(again_tally *t, unsigned task, const exec *before, const answer *a)
{
    const rig_conditions *c = &before->rig.conditions[task];
    bool on_woke = a->woken > a->test.woken;
    t->conditioned += c->present != 0;
    t->too_soon += (c->present & ~c->latched) != 0;
    t->on_woke += on_woke;
    t->on_activated += a->activated > a->test.activated;
    t->off_and_on_woke += on_woke && a->test.woken > 0;
    t->others_activated += a->test.activated > 0;
    t->told_zero += a->woken == 0 && a->activated == 0;
}

void tally_again_call(again_tally *t, unsigned ended, const exec *before, const exec *after, const answer *a)
{
    bool finished = ended == before->running;
    t->left += is_left_inactive(after);
    if (ended == 0)
        return;
    (finished ? t->finished : t->terminated)[a->test.outcome]++;
    t->active_desired += a->test.outcome == TEST_ACTIVE && exec_as_desired(after, ended);
    t->undone += a->test.outcome == TEST_UNDESIRED && exec_as_desired(before, ended) && a->served > 1;
    if (a->test.outcome != TEST_AGAIN)
        return;
    count_again(t, ended, before, a);
    if (finished)
        count_choice(t, ended, after);
}

/* ---- Printing ---- */

void tally_again_print(const again_tally *t, FILE *to)
{
    fprintf(to,
            "tasks that run again: what the test found\n"
            "  finished: again %llu, active already %llu, conditions not as desired %llu\n"
            "  terminated: again %llu, active already %llu, conditions not as desired %llu\n"
            "  active already with all conditions as desired %llu; conditions undone by a service of the call %llu\n"
            "  again with conditions %llu, with an unlatched one %llu\n"
            "  again: on woke %llu, on activated %llu, off and on woke %llu, others activated before %llu, both numbers 0 %llu\n"
            "  finished and again: a higher rank runs %llu, a lower number %llu; it runs ahead of its equals %llu\n",
            (unsigned long long)t->finished[TEST_AGAIN], (unsigned long long)t->finished[TEST_ACTIVE],
            (unsigned long long)t->finished[TEST_UNDESIRED], (unsigned long long)t->terminated[TEST_AGAIN],
            (unsigned long long)t->terminated[TEST_ACTIVE], (unsigned long long)t->terminated[TEST_UNDESIRED],
            (unsigned long long)t->active_desired, (unsigned long long)t->undone, (unsigned long long)t->conditioned, (unsigned long long)t->too_soon,
            (unsigned long long)t->on_woke, (unsigned long long)t->on_activated, (unsigned long long)t->off_and_on_woke,
            (unsigned long long)t->others_activated, (unsigned long long)t->told_zero,
            (unsigned long long)t->gave_way_to_rank, (unsigned long long)t->gave_way_to_number,
            (unsigned long long)t->ahead_of_equals);
}

/* ---- What was hit too seldom ---- */

unsigned tally_again_missing(const again_tally *t, uint64_t least, FILE *to)
{
    unsigned n = tally_seldom(t->finished[TEST_AGAIN], least, to, "finished task", "active again by the test");
    n += tally_seldom(t->finished[TEST_ACTIVE], least, to, "finished task", "active before the test");
    n += tally_seldom(t->finished[TEST_UNDESIRED], least, to, "finished task", "with conditions not as desired");
    n += tally_seldom(t->terminated[TEST_AGAIN], least, to, "terminated task", "active again by the test");
    n += tally_seldom(t->terminated[TEST_ACTIVE], least, to, "terminated task", "active before the test");
    n += tally_seldom(t->terminated[TEST_UNDESIRED], least, to, "terminated task", "with conditions not as desired");
    n += tally_seldom(t->active_desired, least, to, "task active before the test", "with all conditions as desired");
    n += tally_seldom(t->undone, least, to, "test", "behind a service that undid a condition");
    n += tally_seldom(t->conditioned, least, to, "task active again", "with conditions");
    n += tally_seldom(t->too_soon, least, to, "task active again", "with an unlatched condition");
    n += tally_seldom(t->on_woke, least, to, "task active again", "whose on woke somebody");
    n += tally_seldom(t->on_activated, least, to, "task active again", "whose on activated somebody");
    n += tally_seldom(t->off_and_on_woke, least, to, "task active again", "whose off and on woke somebody");
    n += tally_seldom(t->others_activated, least, to, "task active again", "behind services that activated somebody");
    n += tally_seldom(t->told_zero, least, to, "task active again", "with both numbers 0");
    n += tally_seldom(t->gave_way_to_rank, least, to, "finished task active again", "while a higher rank runs");
    n += tally_seldom(t->gave_way_to_number, least, to, "finished task active again", "while a lower number of its rank runs");
    n += tally_seldom(t->ahead_of_equals, least, to, "finished task active again", "that runs ahead of its equals");
    if (t->left > 0)
        fprintf(to, "calls that left an inactive task with all conditions as desired: %llu\n", (unsigned long long)t->left);
    return n + (t->left > 0);
}
