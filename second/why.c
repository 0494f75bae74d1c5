/*
 * "Tasks ask about conditions and conditions about tasks, and each link lowers
 * d."  It is done as it is said: functions that call each other, down from the
 * task that was asked for, which leave as soon as the answer is known.  Nothing
 * is kept from one link to the next, and nobody is asked who need not be.
 */
#include "why.h"

#include "mutant.h"
#include "serve.h"

/* The record that is asked, and two ways through its rig that the file does not give. */
typedef struct {
    const exec *e;
    uint8_t owner[FLAGS_MAX + 1];    /* whose activation flag it is, 0 for nobody's */
    uint16_t first[TASKS_MAX + 2];   /* the A lines of task t are those from first[t] up to first[t + 1] */
    uint64_t asked;                  /* for mutants alone: the tasks on the way from the first one to here, as a set, */
    unsigned ways, left;             /* how many they are, and the links left for all conditions together */
} inquiry;

static inquiry inquire(const exec *e)
{
    inquiry q = {.e = e};
    unsigned line = 0;
    for (unsigned t = 1; t <= e->rig.tasks; t++) {
        if (e->rig.task[t].activation != 0)
            q.owner[e->rig.task[t].activation] = (uint8_t)t;
        q.first[t] = (uint16_t)line;
        while (line < e->rig.a_lines && e->rig.a[line].task == t)
            line++;
        q.first[t + 1] = (uint16_t)line;
    }
    return q;
}

static unsigned lowest_in(inquiry *q, unsigned task, unsigned links);

/* ---- What a flag can do for a condition ---- */

enum { MUTANT_WAYS_MAX = 5 }; /* a mutant that forgets to count its links ends all the same */

/* For mutants alone: a link followed by the fault's count of links. */
static bool starts_wrongly(inquiry *q, unsigned task, unsigned links)
{
    uint64_t bit = UINT64_C(1) << (task - 1);
    bool comes_round = (q->asked & bit) != 0;
    if (MUTATED(LINKED_UNASKED) || (MUTATED(CIRCLES_START) && comes_round))
        return true;
    if (q->ways == MUTANT_WAYS_MAX || (MUTATED(LINKS_SHARED) && q->left == 0))
        return false;
    uint64_t before = q->asked;
    q->asked |= bit;
    q->ways++;
    q->left--;
    bool starts = lowest_in(q, task, links - !MUTATED(LINKS_KEPT)) == CAN_START;
    q->ways--;
    q->asked = before;
    return starts;
}

/* "with d at least 1, the activation flag of an inactive task that can start within d - 1 links" */
static bool starts_by_link(inquiry *q, unsigned task, unsigned links)
{
    enum task_state state = q->e->state[task];
    if (MUTATED(ACTIVE_BRINGS_ON) && state >= WAITING)
        return true;
    if (links < 1 || MUTATED(LINKS_UNSEEN))
        return false;
    if (state != INACTIVE && !(MUTATED(UNINVOKED_STARTS) && state == UNINVOKED))
        return false;
    return WITH_MUTANTS ? starts_wrongly(q, task, links) : lowest_in(q, task, links - 1) == CAN_START;
}

/* "One that desires on can be brought there if one of its flags is a minor-cycle flag, a plain flag, or" the flag of such a task. */
static bool brings_on(inquiry *q, unsigned flag, unsigned links)
{
    switch (q->e->plan.kind[flag]) {
    case FLAG_MINOR:
        return !MUTATED(MINOR_BRINGS_NOTHING);
    case FLAG_PLAIN:
        return !MUTATED(PLAIN_NOT_ON);
    default:
        return starts_by_link(q, q->owner[flag], links);
    }
}

/* For mutants alone: which states of a task they take for those whose flag goes off by the task's end. */
static bool ends_wrongly(enum task_state state)
{
    if (MUTATED(ACTIVE_NOT_OFF))
        return false;
    if (MUTATED(INACTIVE_BRINGS_OFF) && state == INACTIVE)
        return true;
    return MUTATED(WAITING_NOT_OFF) ? state == DISPATCHABLE : state >= WAITING;
}

/* "One that desires off: if one of its flags is plain, or is the activation flag of an active task." */
static bool brings_off(const inquiry *q, unsigned flag)
{
    switch (q->e->plan.kind[flag]) {
    case FLAG_MINOR:
        return false;
    case FLAG_PLAIN:
        return !MUTATED(PLAIN_NOT_OFF);
    default: {
        enum task_state state = q->e->state[q->owner[flag]];
        return WITH_MUTANTS ? ends_wrongly(state) : state >= WAITING;
    }
    }
}

/* ---- Conditions ---- */

static bool brings(inquiry *q, bool desired, unsigned flag, unsigned links)
{
    return desired ? brings_on(q, flag, links) : brings_off(q, flag);
}

/* "if one of its flags": the condition's A lines are gone through until one will do. */
static bool can_be_brought(inquiry *q, unsigned task, unsigned position, unsigned links)
{
    bool desired = q->e->rig.conditions[task].desired >> position & 1, brought = false;
    for (unsigned i = q->first[task]; i < q->first[task + 1]; i++) {
        const rig_line_a *a = &q->e->rig.a[i];
        if (a->position != position)
            continue;
        brought = brings(q, desired, a->flag, links);
        if (brought != MUTATED(ALL_FLAGS_NEEDED) || MUTATED(FIRST_FLAG_ALONE))
            break;
    }
    return brought;
}

/* For mutants alone: the conditions of which a flag has the desired value, whatever the condition has. */
static unsigned held_by_flags(const inquiry *q, unsigned task)
{
    unsigned held = 0;
    for (unsigned i = q->first[task]; i < q->first[task + 1]; i++) {
        const rig_line_a *a = &q->e->rig.a[i];
        unsigned desired = q->e->rig.conditions[task].desired >> a->position & 1;
        held |= (unsigned)(q->e->value[a->flag] == desired) << a->position;
    }
    return held;
}

/* The conditions that do not stand as desired, bit p for position p. */
static unsigned undesired(const inquiry *q, unsigned task)
{
    const rig_conditions *c = &q->e->rig.conditions[task];
    if (MUTATED(STANDING_UNSEEN))
        return c->present;
    if (MUTATED(FLAGS_FOR_CONDITIONS))
        return c->present & ~held_by_flags(q, task);
    return (q->e->condition[task] ^ c->desired) & c->present;
}

/* For mutants alone: what they make of the set of conditions that block, which is not empty. */
static unsigned told_wrongly(const inquiry *q, unsigned task, unsigned blocking)
{
    if (MUTATED(ANY_CONDITION_ENOUGH) && blocking != q->e->rig.conditions[task].present)
        return CAN_START;
    if (MUTATED(HIGHEST_TOLD))
        return 31u - (unsigned)__builtin_clz(blocking);
    if (MUTATED(UNDESIRED_TOLD))
        return (unsigned)__builtin_ctz(undesired(q, task));
    return (unsigned)__builtin_ctz(blocking);
}

/* For mutants alone: all conditions are gone through, also where one blocks. */
static unsigned lowest_wrongly(inquiry *q, unsigned task, unsigned links)
{
    unsigned blocking = 0;
    for (unsigned open = undesired(q, task); open != 0; open &= open - 1) {
        unsigned position = (unsigned)__builtin_ctz(open);
        blocking |= (unsigned)!can_be_brought(q, task, position, links) << position;
        if (MUTATED(FIRST_CONDITION_ALONE))
            break;
    }
    return blocking == 0 ? CAN_START : told_wrongly(q, task, blocking);
}

/* "when each condition stands as desired or can be brought there. .. The answer is yes, or the lowest condition that blocks." */
static unsigned lowest_in(inquiry *q, unsigned task, unsigned links)
{
    if (WITH_MUTANTS)
        return lowest_wrongly(q, task, links);
    for (unsigned open = undesired(q, task); open != 0; open &= open - 1) {
        unsigned position = (unsigned)__builtin_ctz(open);
        if (!can_be_brought(q, task, position, links))
            return position;
    }
    return CAN_START;
}

unsigned lowest_blocking(const exec *e, unsigned task, unsigned links)
{
    inquiry q = inquire(e);
    q.asked = UINT64_C(1) << (task - 1);
    q.left = links;
    return lowest_in(&q, task, links);
}

/* ---- The call ---- */

/* For mutants alone: refusals that they give where the request gives another, or none. */
static enum refusal refused_wrongly(const exec *e, uint32_t task, uint32_t links)
{
    if (MUTATED(WHY_NEEDS_TASK) && e->running == 0)
        return NONE_RUNNING;
    if (MUTATED(LINKS_BEFORE_TASK) && links > LINKS_MAX)
        return BAD_FIELD;
    if (!is_task(e, task))
        return MUTATED(NO_SUCH_BY_STATE) ? WRONG_STATE : ACCEPTED;
    if (MUTATED(WHY_NEEDS_CONTROLLER) && e->running != 0 && e->rig.task[task].controller != e->running)
        return NOT_ALLOWED;
    return MUTATED(LINKS_BEFORE_STATE) && links > LINKS_MAX ? BAD_FIELD : ACCEPTED;
}

/* For mutants alone: whether the fault takes a task in this state. */
static bool takes_state(enum task_state state)
{
    return MUTATED(STATE_UNJUDGED) || (MUTATED(UNINVOKED_TAKEN) && state == UNINVOKED) || (MUTATED(WAITING_TAKEN) && state == WAITING);
}

/* "11 for d above 3" */
static bool takes_links(uint32_t links)
{
    uint32_t most = MUTATED(FOUR_LINKS_TAKEN) ? LINKS_MAX + 1 : MUTATED(THREE_LINKS_REFUSED) ? LINKS_MAX - 1 : LINKS_MAX;
    return links <= most || MUTATED(LINKS_CUT);
}

/* "Refusals: 12, then 6, then 8 if the task isn't inactive, then 11 for d above 3." */
static enum refusal judge_why(const exec *e, uint32_t task, uint32_t links)
{
    if (MUTATED(NO_TASK_BEFORE_SOUND) && (task < 1 || task > TASKS_MAX))
        return NO_SUCH;
    if (MUTATED(LINKS_BEFORE_SOUND) && links > LINKS_MAX)
        return BAD_FIELD;
    if (!exec_sound(e))
        return MUTATED(UNSOUND_STARTS) ? ACCEPTED : NOT_SOUND;
    if (WITH_MUTANTS && refused_wrongly(e, task, links) != ACCEPTED)
        return refused_wrongly(e, task, links);
    if (!is_task(e, task))
        return NO_SUCH;
    if (e->state[task] != INACTIVE && !(WITH_MUTANTS && takes_state(e->state[task])))
        return WRONG_STATE;
    return takes_links(links) ? ACCEPTED : BAD_FIELD;
}

/* For mutants alone: the answer of an accepted question, whose record may not be sound. */
static unsigned why_wrongly(const exec *e, uint32_t task, uint32_t links)
{
    if (MUTATED(UNSOUND_STARTS) && !exec_sound(e))
        return CAN_START;
    if (MUTATED(EVERYBODY_STARTS))
        return CAN_START;
    if (links > LINKS_MAX || (MUTATED(THREE_FOLLOW_TWO) && links == LINKS_MAX))
        links = MUTATED(THREE_FOLLOW_TWO) ? LINKS_MAX - 1 : LINKS_MAX;
    if (MUTATED(ZERO_FOLLOWS_ONE) && links == 0)
        links = 1;
    unsigned position = lowest_blocking(e, task, links);
    return MUTATED(POSITIONS_FROM_1) && position != CAN_START ? position + 1 : position;
}

answer exec_why_not(const exec *e, uint32_t task, uint32_t links)
{
    answer a = {.refusal = judge_why(e, task, links)};
    if (a.refusal == ACCEPTED)
        a.value = WITH_MUTANTS ? why_wrongly(e, task, links) : lowest_blocking(e, task, links);
    return a;
}
