#include "tally.h"

#include <string.h>

#include "entries.h"
#include "exec.h"
#include "panel.h"
#include "runner.h"
#include "script.h"

/* A run of one input: the record before the call at hand and after it. */
typedef struct {
    tally *t;
    exec e, before;
    char wait_verb[TASKS_MAX + 1]; /* that began the task's wait; 0 if it does not wait */
    panel_waits waits;
    overruns_history overruns;
    bool told; /* whether the last line with woken and activated told one that is not 0 */
    entries_area area;
    text *output;
} run;

/* ---- Counting ---- */

static bool is_active(const exec *e, unsigned task)
{
    return e->state[task] >= WAITING;
}

/* Flags that the call itself queued. */
static unsigned queued_by(const run *r, const script_call *call)
{
    const exec *before = &r->before;
    unsigned n = 0;
    switch (call->verb) {
    case 'K':
        return before->rig.cycle[(before->count + 1) % CYCLES].flags;
    case 'X':
        for (unsigned t = 1; t <= before->rig.tasks; t++)
            n += is_active(before, t) && r->e.state[t] == UNINVOKED && before->rig.task[t].activation != 0;
        return n;
    case 'F':
        return before->rig.task[before->running].activation != 0;
    case 'Z':
        return before->rig.task[call->number].activation != 0;
    default:
        return 1;
    }
}

static void count_serving(run *r, const script_call *call, const answer *a)
{
    tally *t = r->t;
    unsigned queued = queued_by(r, call);
    if (a->served > queued) {
        t->cascades++;
        if (a->served - queued > t->deepest)
            t->deepest = a->served - queued;
    }
    if (a->served > t->most_served)
        t->most_served = a->served;
    t->served_most += a->served == SERVED_MAX;
}

/* Which waits began and how others ended. */
static void count_waits(run *r, const script_call *call)
{
    tally *t = r->t;
    if (strchr("URLN", call->verb) != NULL) {
        if (r->e.state[r->before.running] == WAITING)
            r->wait_verb[r->before.running] = call->verb;
        else
            t->no_waits++;
    }
    for (unsigned task = 1; task <= r->e.rig.tasks; task++) {
        unsigned verb = (unsigned char)r->wait_verb[task];
        if (verb == 0 || r->e.state[task] == WAITING)
            continue;
        if (call->verb == 'X' && r->e.state[task] == UNINVOKED)
            t->cancelled[verb]++;
        else if (call->verb == 'Z' && task == call->number)
            t->terminated[verb]++;
        else
            t->woken[verb]++;
        r->wait_verb[task] = 0;
    }
}

/* The task that the call ended, 0 for none. */
static unsigned ended_by(const run *r, const script_call *call)
{
    return call->verb == 'F' ? r->before.running : call->verb == 'Z' ? call->number : 0;
}

static void count_call(run *r, const script_call *call, const answer *a)
{
    r->t->call[(unsigned char)call->verb][a->refusal]++;
    tally_heard_line(&r->t->heard, &r->told, call->verb, a);
    if (a->refusal != ACCEPTED)
        return;
    count_serving(r, call, a);
    count_waits(r, call);
    tally_heard_call(&r->t->heard, call, &r->before, &r->e, a);
    tally_again_call(&r->t->again, ended_by(r, call), &r->before, &r->e, a);
    tally_overruns_call(&r->overruns, call, &r->before, &r->e);
    tally_panel_waits(&r->waits, &r->before, &r->e, r->before.running, strchr("XZ", call->verb) != NULL);
}

/* ---- Running ---- */

static size_t run_entries_call(run *r, const entries_call *call, char *out)
{
    answer a;
    r->before = r->e;
    size_t n = entries_run(&r->e, &r->area, call, &a, out);
    script_call tick = {.verb = 'K'};
    r->t->call[(unsigned char)call->verb][a.refusal]++;
    if (call->verb == 'H')
        tally_panel_harmed(&r->t->panel, call, &a);
    else if (call->verb == 'P')
        tally_overruns_harmed(&r->t->overruns, call, &r->e, &a);
    else if (call->verb == 'I')
        tally_why_harmed(&r->t->why, call, &r->e, &a);
    else
        tally_heard_line(&r->t->heard, &r->told, call->verb, &a);
    if (call->verb == 'J' && a.refusal == ACCEPTED) {
        count_serving(r, &tick, &a);
        count_waits(r, &tick);
        tally_heard_call(&r->t->heard, &tick, &r->before, &r->e, &a);
    }
    return n;
}

static size_t run_panel_call(run *r, const panel_call *call, char *out)
{
    answer a;
    size_t n = panel_run(&r->e, call, &a, out);
    r->t->call[(unsigned char)call->verb][a.refusal]++;
    if (call->verb == 'V')
        tally_panel_answer(&r->t->panel, &r->waits, &r->e, &a);
    else if (call->verb == 'O')
        tally_overruns_answer(&r->t->overruns, &r->overruns, call->task, &r->e, &a);
    else
        tally_why_answer(&r->t->why, call, &r->e, &a);
    tally_heard_line(&r->t->heard, &r->told, call->verb, &a);
    return n;
}

/* A line that is no line for the program at hand, but may be one of the panel's, or would be with other fields. */
static void count_wrong(tally *t, const uint8_t *line, size_t length, bool has_panel)
{
    const struct {
        char verb;
        uint64_t *off, *fields;
    } of[] = {{'V', &t->panel.off, &t->panel.fields},
              {'O', &t->overruns.off, &t->overruns.fields},
              {'Y', &t->why.off, &t->why.fields}};
    panel_call call;
    bool right = panel_judge(line, length, &call);
    for (unsigned i = 0; i < sizeof of / sizeof of[0]; i++) {
        if (length == 0 || *line != of[i].verb)
            continue;
        *of[i].off += right && !has_panel;
        *of[i].fields += has_panel;
    }
}

/* Runs a line that is not the runner's own, if it is one of those taken. */
static bool ran_besides(run *r, const uint8_t *line, size_t length, line_set taken, char *out, size_t *printed)
{
    entries_call entry;
    panel_call asked;
    if (taken == ENTRIES_LINES && entries_judge(line, length, &entry))
        *printed = run_entries_call(r, &entry, out);
    else if (taken == PANEL_LINES && panel_judge(line, length, &asked))
        *printed = run_panel_call(r, &asked, out);
    else
        return false;
    return true;
}

static size_t run_line(run *r, const uint8_t *line, size_t length, bool whole, line_set taken, char *out)
{
    script_call call;
    uint16_t words[TICK_WORDS];
    size_t printed;
    r->t->lines++;
    if (whole && ran_besides(r, line, length, taken, out, &printed))
        return printed;
    if (!whole || !script_judge(line, length, &call)) {
        r->t->call['?'][BAD_SHAPE]++;
        if (whole)
            count_wrong(r->t, line, length, taken == PANEL_LINES);
        return print_wrong_line(out);
    }
    r->before = r->e;
    answer a = script_apply(&r->e, &call, words);
    count_call(r, &call, &a);
    return print_call(out, &call, &a, &r->e, words);
}

static void run_script(run *r, const uint8_t *at, const uint8_t *end, line_set taken)
{
    char out[OUTPUT_LINE_MAX];
    while (at < end) {
        const uint8_t *lf = memchr(at, '\n', (size_t)(end - at));
        const uint8_t *stop = lf != NULL ? lf : end;
        tally_stream_line(&r->t->stream, at, (size_t)(stop - at), lf != NULL, r->output->length);
        text_add(r->output, out, run_line(r, at, (size_t)(stop - at), lf != NULL, taken, out));
        at = lf != NULL ? lf + 1 : end;
    }
}

void tally_run(tally *t, const text *input, line_set taken, text *output)
{
    static run r;
    static rig made;
    static const uint8_t nothing[1];
    char out[OUTPUT_LINE_MAX];
    const uint8_t *bytes = input->length > 0 ? input->bytes : nothing;
    memset(&r, 0, sizeof r);
    r.t = t;
    r.output = output;
    entries_fill_area(&r.area);
    input_parts parts = find_parts(bytes, input->length);
    rig_verdict v = rig_read(bytes, parts.rig_length, &made);
    t->inputs++;
    t->start[v.refusal]++;
    t->rule[v.rule]++;
    tally_stream_verdict(&t->stream, &v);
    if (v.refusal != ACCEPTED) {
        text_add(output, out, print_refused_rig(out, "START", &v));
        return;
    }
    answer started = exec_start(&r.e, &made);
    text_add(output, out, print_started(out, &started, &r.e));
    if (parts.has_script)
        run_script(&r, bytes + parts.rig_length + RUN_LINE_LENGTH, bytes + input->length, taken);
}

/* ---- Printing ---- */

/* Every verb with the refusals that a run can give it. */
static const struct {
    char verb;
    const char *name;
    const char *refusals; /* as letters, a for 1 */
} verbs[] = {
    {'S', "schedule", "efgh"},     {'X', "cancel", "efgh"},          {'Z', "terminate", "efgh"},
    {'F', "finish", "e"},          {'K', "tick", ""},                {'U', "wait until", "ei"},
    {'R', "wait cycles", "ei"},    {'L', "wait latched", "efg"},     {'N', "wait unlatched", "efg"},
    {'G', "signal", "efg"},        {'Q', "read flag", "efg"},        {'W', "block write", "efj"},
    {'D', "block read", "efj"},    {'J', "tick, any room", "j"},     {'V', "next waking", ""},
    {'O', "overruns", "f"},        {'Y', "why not", "fhk"}};

enum { VERBS = sizeof verbs / sizeof verbs[0] };

static unsigned refusal_of(char letter)
{
    return (unsigned)(letter - 'a') + 1;
}

static void print_verbs(const tally *t, FILE *to)
{
    fprintf(to, "calls                 accepted");
    for (unsigned n = NONE_RUNNING; n <= BAD_FIELD; n++)
        fprintf(to, "  refused %-2u", n);
    fprintf(to, "\n");
    for (unsigned i = 0; i < VERBS; i++) {
        const uint64_t *by = t->call[(unsigned char)verbs[i].verb];
        fprintf(to, "  %c %-16s %10llu", verbs[i].verb, verbs[i].name, (unsigned long long)by[ACCEPTED]);
        for (unsigned n = NONE_RUNNING; n <= BAD_FIELD; n++)
            fprintf(to, "  %10llu", (unsigned long long)by[n]);
        fprintf(to, "\n");
    }
    fprintf(to, "  ? wrong line       refused by 1: %llu\n", (unsigned long long)t->call['?'][BAD_SHAPE]);
}

static void print_waits(const tally *t, FILE *to)
{
    fprintf(to, "waits                    woken   cancelled  terminated\n");
    for (const char *v = "URLN"; *v != 0; v++) {
        unsigned char verb = (unsigned char)*v;
        fprintf(to, "  %c                 %10llu  %10llu  %10llu\n", *v, (unsigned long long)t->woken[verb],
                (unsigned long long)t->cancelled[verb], (unsigned long long)t->terminated[verb]);
    }
    fprintf(to, "  satisfied at once  %10llu\n", (unsigned long long)t->no_waits);
}

void tally_print(const tally *t, FILE *to)
{
    fprintf(to, "inputs %llu, script lines %llu\n", (unsigned long long)t->inputs, (unsigned long long)t->lines);
    fprintf(to, "rigs accepted %llu; refused by", (unsigned long long)t->start[ACCEPTED]);
    for (unsigned n = BAD_SHAPE; n <= BAD_RIG; n++)
        fprintf(to, "%s %u: %llu", n > BAD_SHAPE ? "," : "", n, (unsigned long long)t->start[n]);
    fprintf(to, "\nwhole-file rules broken\n");
    for (unsigned i = RULE_TASK_ABOVE; i < RIG_RULE_COUNT; i++)
        fprintf(to, "  %-52s %6llu\n", rig_rule_text[i], (unsigned long long)t->rule[i]);
    print_verbs(t, to);
    print_waits(t, to);
    fprintf(to,
            "cascades %llu, most activations in one call %llu, most served %llu, calls that served 79: %llu\n",
            (unsigned long long)t->cascades, (unsigned long long)t->deepest,
            (unsigned long long)t->most_served, (unsigned long long)t->served_most);
    tally_stream_print(&t->stream, to);
    tally_panel_print(&t->panel, to);
    tally_heard_print(&t->heard, to);
    tally_again_print(&t->again, to);
    tally_overruns_print(&t->overruns, to);
    tally_why_print(&t->why, to);
    tally_wiring_print(&t->wiring, to);
}

/* ---- What was hit too seldom ---- */

unsigned tally_seldom(uint64_t hit, uint64_t least, FILE *to, const char *what, const char *which)
{
    if (hit >= least)
        return 0;
    fprintf(to, "hit only %llu times: %s %s\n", (unsigned long long)hit, what, which);
    return 1;
}

unsigned tally_missing_calls(const tally *t, const char *of, uint64_t least, FILE *to)
{
    unsigned n = 0;
    for (unsigned i = 0; i < VERBS; i++) {
        if (strchr(of, verbs[i].verb) == NULL)
            continue;
        const uint64_t *by = t->call[(unsigned char)verbs[i].verb];
        n += tally_seldom(by[ACCEPTED], least, to, verbs[i].name, "accepted");
        for (const char *l = verbs[i].refusals; *l != 0; l++) {
            char which[16];
            snprintf(which, sizeof which, "refused by %u", refusal_of(*l));
            n += tally_seldom(by[refusal_of(*l)], least, to, verbs[i].name, which);
        }
    }
    return n;
}

unsigned tally_missing(const tally *t, uint64_t least, FILE *to)
{
    unsigned n = tally_missing_calls(t, "SXZFKURLNGQ", least, to);
    n += tally_seldom(t->call['?'][BAD_SHAPE], least, to, "script line", "refused by 1");
    for (unsigned r = BAD_SHAPE; r <= BAD_RIG; r++)
        n += tally_seldom(t->start[r], least, to, "rig refused by", (const char *[]){"1", "2", "3", "4"}[r - 1]);
    for (unsigned i = RULE_TASK_ABOVE; i < RIG_RULE_COUNT; i++)
        n += tally_seldom(t->rule[i], least / 2, to, "rule:", rig_rule_text[i]);
    for (const char *v = "URLN"; *v != 0; v++) {
        char verb[2] = {*v, 0};
        n += tally_seldom(t->woken[(unsigned char)*v], least, to, "woken wait", verb);
        n += tally_seldom(t->cancelled[(unsigned char)*v], least, to, "cancelled wait", verb);
        n += tally_seldom(t->terminated[(unsigned char)*v], least, to, "terminated wait", verb);
    }
    n += tally_seldom(t->cascades, least, to, "cascade", "");
    n += tally_seldom(t->served_most, least, to, "call", "that served 79");
    n += tally_heard_missing(&t->heard, least, to);
    n += tally_again_missing(&t->again, least, to);
    return n;
}
