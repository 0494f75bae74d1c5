#include "tally_heard.h"

#include <string.h>

#include "tally.h"

/* ---- Counting ---- */

static bool tells_any(const answer *a)
{
    return a->woken > 0 || a->activated > 0;
}

void tally_heard_line(heard_tally *t, bool *told, char verb, const answer *a)
{
    t->woken += a->woken > 0;
    t->several_woken += a->woken > 1;
    t->activated += a->activated > 0;
    t->several_activated += a->activated > 1;
    t->both += a->woken > 0 && a->activated > 0;
    t->sums += a->heard > 1;
    t->any_room += verb == 'J' && tells_any(a);
    t->refused_next += *told && a->refusal != ACCEPTED;
    t->asked_next += *told && verb == 'V';
    t->blocks_next += *told && strchr("WD", verb) != NULL;
    *told = tells_any(a);
}

/* Whether some task waits for this value of the flag, before the call and after it. */
static bool goes_on_waiting(const exec *before, const exec *after, unsigned flag, bool value)
{
    for (unsigned task = 1; task <= before->rig.tasks; task++) {
        const exec_wait *w = &before->wait[task];
        if (w->kind == WAIT_FLAG && w->flag == flag && w->value == value && after->state[task] == WAITING)
            return true;
    }
    return false;
}

/* Whether some task waits until this count. */
static bool is_waited_for(const exec *e, uint32_t count)
{
    for (unsigned task = 1; task <= e->rig.tasks; task++)
        if (e->wait[task].kind == WAIT_TIME && e->wait[task].wake == count)
            return true;
    return false;
}

void tally_heard_call(heard_tally *t, const script_call *call, const exec *before, const exec *after, const answer *a)
{
    switch (call->verb) {
    case 'G':
        t->unheard += !tells_any(a);
        t->other_value += goes_on_waiting(before, after, call->number, !call->value);
        break;
    case 'S':
        if (after->state[call->number] < WAITING)
            break;
        t->scheduled += a->activated == 0;
        t->schedule_heard += tells_any(a);
        break;
    case 'K':
        if (!is_waited_for(before, after->count))
            break;
        t->due += a->woken == 0;
        t->due_and_heard += tells_any(a);
        break;
    default:
        break;
    }
}

/* ---- Printing ---- */

void tally_heard_print(const heard_tally *t, FILE *to)
{
    fprintf(to,
            "whom services woke and activated\n"
            "  lines with woken 1 or more %llu, 2 or more %llu; activated 1 or more %llu, 2 or more %llu; both %llu\n"
            "  sums over two or more services %llu; signals that nobody heard %llu, while somebody waits for the other value %llu\n"
            "  schedules that activated and tell 0 activated %llu, whose flag others heard %llu\n"
            "  ticks that woke by their count and tell 0 woken %llu, whose flags others heard %llu\n"
            "  next to a line with a number not 0: refused %llu, V %llu, W and D %llu; J with a number not 0 %llu\n",
            (unsigned long long)t->woken, (unsigned long long)t->several_woken, (unsigned long long)t->activated,
            (unsigned long long)t->several_activated, (unsigned long long)t->both, (unsigned long long)t->sums,
            (unsigned long long)t->unheard, (unsigned long long)t->other_value, (unsigned long long)t->scheduled,
            (unsigned long long)t->schedule_heard, (unsigned long long)t->due, (unsigned long long)t->due_and_heard,
            (unsigned long long)t->refused_next, (unsigned long long)t->asked_next, (unsigned long long)t->blocks_next,
            (unsigned long long)t->any_room);
}

/* ---- What was hit too seldom ---- */

unsigned tally_heard_missing(const heard_tally *t, uint64_t least, FILE *to)
{
    unsigned n = tally_seldom(t->woken, least, to, "line", "with woken 1 or more");
    n += tally_seldom(t->several_woken, least, to, "line", "with woken 2 or more");
    n += tally_seldom(t->activated, least, to, "line", "with activated 1 or more");
    n += tally_seldom(t->several_activated, least, to, "line", "with activated 2 or more");
    n += tally_seldom(t->both, least, to, "line", "with woken and activated");
    n += tally_seldom(t->sums, least, to, "line", "to whose numbers two or more services added");
    n += tally_seldom(t->unheard, least, to, "signal", "that nobody heard");
    n += tally_seldom(t->other_value, least, to, "signal", "while somebody waits for the other value");
    n += tally_seldom(t->scheduled, least, to, "schedule", "that activated its task and tells 0 activated");
    n += tally_seldom(t->schedule_heard, least, to, "schedule", "that activated its task, whose flag others heard");
    n += tally_seldom(t->due, least, to, "tick", "that woke by its count and tells 0 woken");
    n += tally_seldom(t->due_and_heard, least, to, "tick", "that woke by its count, and whose flags others heard");
    n += tally_seldom(t->refused_next, least, to, "refused call", "next to a line with a number not 0");
    return n;
}

unsigned tally_heard_missing_asked(const heard_tally *t, uint64_t least, FILE *to)
{
    return tally_seldom(t->asked_next, least, to, "V", "next to a line with a number not 0");
}

unsigned tally_heard_missing_entries(const heard_tally *t, uint64_t least, FILE *to)
{
    unsigned n = tally_seldom(t->blocks_next, least, to, "W or D", "next to a line with a number not 0");
    n += tally_seldom(t->any_room, least, to, "J", "with a number not 0");
    return n;
}
