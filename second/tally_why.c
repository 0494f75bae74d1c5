#include "tally_why.h"

#include "tally.h"

/* ---- What a condition is like ---- */

static bool is_desired_on(const exec *e, unsigned task, unsigned position)
{
    return e->rig.conditions[task].desired >> position & 1;
}

static bool stands(const exec *e, unsigned task, unsigned position)
{
    return !((e->condition[task] ^ e->rig.conditions[task].desired) >> position & 1);
}

/* The task whose activation flag it is, 0 for none. */
static unsigned owner_of(const exec *e, unsigned flag)
{
    unsigned owner = 0;
    for (unsigned t = 1; t <= e->rig.tasks; t++)
        if (e->rig.task[t].activation == flag)
            owner = t;
    return owner;
}

/* How this flag brings about a condition that desires on or off. */
static brought_way way_of(const exec *e, unsigned flag, bool on, unsigned links)
{
    unsigned owner = owner_of(e, flag);
    if (e->plan.kind[flag] == FLAG_MINOR)
        return on ? ON_BY_MINOR : NOT_BROUGHT;
    if (owner == 0)
        return on ? ON_BY_PLAIN : OFF_BY_PLAIN;
    if (!on)
        return e->state[owner] >= WAITING ? OFF_BY_ACTIVE : NOT_BROUGHT;
    bool starts = links > 0 && e->state[owner] == INACTIVE && lowest_blocking(e, owner, links - 1) == CAN_START;
    return starts ? ON_BY_LINK : NOT_BROUGHT;
}

/* A condition's flags: how many, how many of them bring it about, in which ways, and in which states their tasks are. */
typedef struct {
    unsigned flags, helping;
    unsigned ways, states; /* bits */
} flags_seen;

static flags_seen look_at_flags(const exec *e, unsigned task, unsigned position, unsigned links)
{
    flags_seen s = {0};
    for (unsigned i = 0; i < e->rig.a_lines; i++) {
        const rig_line_a *a = &e->rig.a[i];
        if (a->task != task || a->position != position)
            continue;
        brought_way way = way_of(e, a->flag, is_desired_on(e, task, position), links);
        unsigned owner = owner_of(e, a->flag);
        s.flags++;
        s.helping += way != NOT_BROUGHT;
        s.ways |= 1u << way;
        s.states |= owner != 0 ? 1u << e->state[owner] : 0;
    }
    return s;
}

/* Whether the first task has the second's activation flag in a condition that desires on and does not stand. */
static bool waits_for(const exec *e, unsigned task, unsigned other)
{
    for (unsigned i = 0; i < e->rig.a_lines; i++) {
        const rig_line_a *a = &e->rig.a[i];
        if (a->task == task && a->flag == e->rig.task[other].activation && is_desired_on(e, task, a->position) &&
            !stands(e, task, a->position))
            return true;
    }
    return false;
}

static bool is_in_circle(const exec *e, unsigned task)
{
    for (unsigned t = 1; t <= e->rig.tasks; t++)
        if (e->state[t] == INACTIVE && waits_for(e, task, t) && (t == task || waits_for(e, t, task)))
            return true;
    return false;
}

/* ---- Counting ---- */

static void count_yes(why_tally *t, const exec *e, unsigned task, unsigned links)
{
    unsigned ways = 0;
    bool one_helps = false, fast = false;
    for (unsigned p = 0; p < POSITIONS; p++) {
        if (!(e->rig.conditions[task].present >> p & 1))
            continue;
        flags_seen s = look_at_flags(e, task, p, links);
        fast |= stands(e, task, p) && s.helping == 0;
        ways |= stands(e, task, p) ? 0 : s.ways;
        one_helps |= !stands(e, task, p) && s.flags > 1 && s.helping == 1;
    }
    t->yes[links]++;
    t->needed[links] += links > 0 && lowest_blocking(e, task, links - 1) != CAN_START;
    for (unsigned way = 0; way < BROUGHT_WAYS; way++)
        t->brought[way] += ways >> way & 1;
    t->one_helps += one_helps;
    t->stands_fast += fast;
}

/* Whether one more condition behind this one blocks too. */
static bool another_blocks(const exec *e, unsigned task, unsigned position, unsigned links)
{
    for (unsigned p = position + 1; p < POSITIONS; p++)
        if ((e->rig.conditions[task].present >> p & 1) && !stands(e, task, p) && look_at_flags(e, task, p, links).helping == 0)
            return true;
    return false;
}

static void count_no(why_tally *t, const exec *e, unsigned task, unsigned links, unsigned position)
{
    flags_seen s = look_at_flags(e, task, position, links);
    bool on = is_desired_on(e, task, position);
    unsigned before = e->rig.conditions[task].present & ((1u << position) - 1);
    unsigned undesired = (unsigned)(e->condition[task] ^ e->rig.conditions[task].desired);
    t->no[links]++;
    t->at_0 += position == 0;
    t->above_0 += position > 0;
    t->behind_brought += (before & undesired) != 0;
    t->behind_standing += (before & ~undesired) != 0;
    t->of_several += another_blocks(e, task, position, links);
    t->on_by_active += on && (s.states & (1u << WAITING | 1u << DISPATCHABLE)) != 0;
    t->on_by_uninvoked += on && (s.states >> UNINVOKED & 1);
    t->off_by_inactive += !on && (s.states >> INACTIVE & 1);
    t->circles += links == LINKS_MAX && is_in_circle(e, task);
}

static void count_refused(why_tally *t, const panel_call *call, const exec *e, enum refusal refusal)
{
    bool above = call->links > LINKS_MAX;
    switch (refusal) {
    case NO_SUCH:
        t->task_0 += call->task == 0;
        t->too_high += call->task > 0;
        t->no_such_first += above;
        break;
    case WRONG_STATE:
        t->uninvoked += e->state[call->task] == UNINVOKED;
        t->waiting += e->state[call->task] == WAITING;
        t->dispatchable += e->state[call->task] == DISPATCHABLE;
        t->state_first += above;
        break;
    default:
        t->links_4 += call->links == LINKS_MAX + 1;
        t->links_above += call->links > LINKS_MAX + 1;
        break;
    }
}

void tally_why_answer(why_tally *t, const panel_call *call, const exec *e, const answer *a)
{
    if (a->refusal != ACCEPTED) {
        count_refused(t, call, e, a->refusal);
        return;
    }
    t->nobody_runs += e->running == 0;
    if (a->value == CAN_START)
        count_yes(t, e, call->task, call->links);
    else
        count_no(t, e, call->task, call->links, a->value);
}

void tally_why_harmed(why_tally *t, const entries_call *call, const exec *e, const answer *a)
{
    bool exists = call->task >= 1 && call->task <= e->rig.tasks, sound = call->harm == HARM_NONE;
    bool taken = exists && e->state[call->task] == INACTIVE && call->links <= LINKS_MAX;
    if (taken)
        t->harmed[call->harm] += a->refusal == (sound ? ACCEPTED : NOT_SOUND);
    t->harmed_first += !taken && a->refusal == NOT_SOUND;
    if (!sound)
        return;
    t->sound_yes += a->refusal == ACCEPTED && a->value == CAN_START;
    t->sound_no += a->refusal == ACCEPTED && a->value != CAN_START;
    if (a->refusal < NOT_SOUND)
        t->sound_refused[a->refusal]++;
}

/* ---- Every counter by its name ---- */

static uint64_t overwritten(const why_tally *t)
{
    return t->harmed[HARM_ALL] + t->harmed[HARM_FIRST_HALF] + t->harmed[HARM_SECOND_HALF];
}

/* What was counted of something, and what it is called. */
typedef struct {
    uint64_t hit;
    const char *name;
} counter;

enum { ASKED_COUNTERS = 37, HARMED_COUNTERS = 10 };

static void name_asked(const why_tally *t, counter out[ASKED_COUNTERS])
{
    const counter named[ASKED_COUNTERS] = {
        {t->yes[0], "yes at d of 0"}, {t->yes[1], "yes at d of 1"}, {t->yes[2], "yes at d of 2"}, {t->yes[3], "yes at d of 3"},
        {t->no[0], "no at d of 0"}, {t->no[1], "no at d of 1"}, {t->no[2], "no at d of 2"}, {t->no[3], "no at d of 3"},
        {t->needed[1], "yes at 1 and no at 0"}, {t->needed[2], "yes at 2 and no at 1"}, {t->needed[3], "yes at 3 and no at 2"},
        {t->at_0, "no, position 0"}, {t->above_0, "no, a position above 0"},
        {t->behind_brought, "no, behind a condition that can be brought there"}, {t->behind_standing, "no, behind a condition that stands"},
        {t->of_several, "no, the lowest of several that block"}, {t->brought[ON_BY_MINOR], "yes, on by a minor-cycle flag"},
        {t->brought[ON_BY_PLAIN], "yes, on by a plain flag"}, {t->brought[ON_BY_LINK], "yes, on by a link"},
        {t->brought[OFF_BY_PLAIN], "yes, off by a plain flag"}, {t->brought[OFF_BY_ACTIVE], "yes, off by an active task's flag"},
        {t->one_helps, "yes, by one of several flags"}, {t->stands_fast, "yes, with a condition that stands and could not be brought"},
        {t->on_by_active, "no, desires on by an active task's flag"}, {t->on_by_uninvoked, "no, desires on by an uninvoked task's flag"},
        {t->off_by_inactive, "no, desires off by an inactive task's flag"}, {t->circles, "no, a circle"},
        {t->task_0, "task 0 refused by 6"}, {t->too_high, "a task too high refused by 6"}, {t->uninvoked, "uninvoked refused by 8"},
        {t->waiting, "waiting refused by 8"}, {t->dispatchable, "dispatchable refused by 8"}, {t->links_4, "d of 4 refused by 11"},
        {t->links_above, "d above 4 refused by 11"}, {t->no_such_first, "6 before 11"}, {t->state_first, "8 before 11"},
        {t->nobody_runs, "accepted while no task runs"}};
    for (unsigned i = 0; i < ASKED_COUNTERS; i++)
        out[i] = named[i];
}

static void name_harmed(const why_tally *t, counter out[HARMED_COUNTERS])
{
    const counter named[HARMED_COUNTERS] = {
        {t->harmed[HARM_NONE], "a sound copy"}, {t->sound_yes, "a sound copy, yes"}, {t->sound_no, "a sound copy, no"},
        {t->sound_refused[NO_SUCH], "a sound copy, refused by 6"}, {t->sound_refused[WRONG_STATE], "a sound copy, refused by 8"},
        {t->sound_refused[BAD_FIELD], "a sound copy, refused by 11"}, {t->harmed[HARM_REFUSED_START], "refused by 12 after a refused start"},
        {t->harmed[HARM_ZEROS], "refused by 12 on all zeros"}, {overwritten(t), "refused by 12 on an overwritten record"},
        {t->harmed_first, "12 before 6, 8 and 11"}};
    for (unsigned i = 0; i < HARMED_COUNTERS; i++)
        out[i] = named[i];
}

/* ---- Printing ---- */

static void print_counters(const counter *of, unsigned counters, char verb, FILE *to)
{
    for (unsigned i = 0; i < counters; i++)
        fprintf(to, "  %c %-58s %10llu\n", verb, of[i].name, (unsigned long long)of[i].hit);
}

void tally_why_print(const why_tally *t, FILE *to)
{
    counter asked[ASKED_COUNTERS], harmed[HARMED_COUNTERS];
    name_asked(t, asked);
    name_harmed(t, harmed);
    fprintf(to, "why a task won't start\n");
    print_counters(asked, ASKED_COUNTERS, 'Y', to);
    fprintf(to, "  by ?: with wrong fields %llu, with the panel's verbs off %llu\n", (unsigned long long)t->fields,
            (unsigned long long)t->off);
    print_counters(harmed, HARMED_COUNTERS, 'I', to);
}

/* ---- What was hit too seldom ---- */

static unsigned count_seldom(const counter *of, unsigned counters, uint64_t least, FILE *to, const char *what)
{
    unsigned n = 0;
    for (unsigned i = 0; i < counters; i++)
        n += tally_seldom(of[i].hit, least, to, what, of[i].name);
    return n;
}

unsigned tally_why_missing(const why_tally *t, uint64_t least, FILE *to)
{
    counter asked[ASKED_COUNTERS];
    name_asked(t, asked);
    return count_seldom(asked, ASKED_COUNTERS, least, to, "Y:") + tally_seldom(t->fields, least, to, "Y", "with wrong fields");
}

unsigned tally_why_missing_off(const why_tally *t, uint64_t least, FILE *to)
{
    return tally_seldom(t->off, least, to, "Y", "with the panel's verbs off");
}

unsigned tally_why_missing_harmed(const why_tally *t, uint64_t least, FILE *to)
{
    counter harmed[HARMED_COUNTERS];
    name_harmed(t, harmed);
    return count_seldom(harmed, HARMED_COUNTERS, least, to, "why asked of a copy:");
}
