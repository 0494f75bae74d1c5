#include "tally_panel.h"

#include "tally.h"

/* ---- Counting ---- */

static bool waits_on_time(const exec *e, unsigned task)
{
    return e->state[task] == WAITING && e->wait[task].kind == WAIT_TIME;
}

/* The lowest waking count, 0 for none, and how many wait on time. */
static uint32_t lowest_of(const exec *e, unsigned *waiting)
{
    uint32_t lowest = UINT32_MAX;
    *waiting = 0;
    for (unsigned t = 1; t <= e->rig.tasks; t++) {
        if (!waits_on_time(e, t))
            continue;
        ++*waiting;
        lowest = e->wait[t].wake < lowest ? e->wait[t].wake : lowest;
    }
    return *waiting > 0 ? lowest : 0;
}

/* The task that waits on time and began to earliest, 0 for none. */
static unsigned first_begun(const panel_waits *w, const exec *e)
{
    unsigned first = 0;
    for (unsigned t = 1; t <= e->rig.tasks; t++)
        if (waits_on_time(e, t) && (first == 0 || w->began[t] < w->began[first]))
            first = t;
    return first;
}

void tally_panel_waits(panel_waits *w, const exec *before, const exec *after, unsigned caller, bool strikes)
{
    unsigned waiting;
    if (caller != 0 && waits_on_time(after, caller))
        w->began[caller] = ++w->begun;
    if (!strikes)
        return;
    uint32_t lowest = lowest_of(before, &waiting);
    for (unsigned t = 1; t <= before->rig.tasks; t++)
        if (waits_on_time(before, t) && before->wait[t].wake == lowest && !waits_on_time(after, t))
            w->struck = true;
}

void tally_panel_answer(panel_tally *t, panel_waits *w, const exec *e, const answer *a)
{
    unsigned waiting;
    t->nobody_runs += e->running == 0;
    t->struck += w->struck;
    w->struck = false;
    if (a->value == 0) {
        t->nones++;
        return;
    }
    (void)lowest_of(e, &waiting);
    t->counts++;
    t->several += waiting > 1;
    t->overtaken += e->wait[first_begun(w, e)].wake > a->value;
}

void tally_panel_harmed(panel_tally *t, const entries_call *call, const answer *a)
{
    t->harmed[call->harm] += a->refusal == (call->harm == HARM_NONE ? ACCEPTED : NOT_SOUND);
}

/* ---- Printing ---- */

static uint64_t overwritten(const panel_tally *t)
{
    return t->harmed[HARM_ALL] + t->harmed[HARM_FIRST_HALF] + t->harmed[HARM_SECOND_HALF];
}

void tally_panel_print(const panel_tally *t, FILE *to)
{
    fprintf(to,
            "the next waking\n"
            "  V answered with a count %llu, with none %llu; while no task runs %llu\n"
            "  with two or more waiting on time %llu, not by who began first %llu, after the earliest was struck %llu\n"
            "  by ?: with something behind the verb %llu, with the panel's verbs off %llu\n"
            "  H on a sound copy %llu; refused by 12 after a refused start %llu, all zeros %llu, overwritten %llu\n",
            (unsigned long long)t->counts, (unsigned long long)t->nones, (unsigned long long)t->nobody_runs,
            (unsigned long long)t->several, (unsigned long long)t->overtaken, (unsigned long long)t->struck,
            (unsigned long long)t->fields, (unsigned long long)t->off, (unsigned long long)t->harmed[HARM_NONE],
            (unsigned long long)t->harmed[HARM_REFUSED_START], (unsigned long long)t->harmed[HARM_ZEROS],
            (unsigned long long)overwritten(t));
}

/* ---- What was hit too seldom ---- */

unsigned tally_panel_missing(const panel_tally *t, uint64_t least, FILE *to)
{
    unsigned n = tally_seldom(t->counts, least, to, "V", "answered with a count");
    n += tally_seldom(t->nones, least, to, "V", "answered with none");
    n += tally_seldom(t->nobody_runs, least, to, "V", "accepted while no task runs");
    n += tally_seldom(t->several, least, to, "V", "answered with two or more waiting on time");
    n += tally_seldom(t->overtaken, least, to, "V", "answered with the count of one that did not begin first");
    n += tally_seldom(t->struck, least, to, "V", "answered after the earliest was cancelled or terminated");
    n += tally_seldom(t->fields, least, to, "V", "with something behind the verb");
    return n;
}

unsigned tally_panel_missing_off(const panel_tally *t, uint64_t least, FILE *to)
{
    return tally_seldom(t->off, least, to, "V", "with the panel's verbs off");
}

unsigned tally_panel_missing_harmed(const panel_tally *t, uint64_t least, FILE *to)
{
    unsigned n = tally_seldom(t->harmed[HARM_NONE], least, to, "next waking", "of a sound copy");
    n += tally_seldom(t->harmed[HARM_REFUSED_START], least, to, "next waking", "refused by 12 after a refused start");
    n += tally_seldom(t->harmed[HARM_ZEROS], least, to, "next waking", "refused by 12 on all zeros");
    n += tally_seldom(overwritten(t), least, to, "next waking", "refused by 12 on an overwritten record");
    return n;
}
