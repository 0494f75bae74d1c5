/*
 * The judge of a rig in memory: "Rules over the whole file", and the sizes
 * and order that a file's lines are judged for one by one.  The checked build
 * judges its rig before each call, so every rule is one pass over its records.
 */
#include "rules.h"

#include <string.h>

#define RIG_RULE_TEXT(name, text) text,
const char *const rig_rule_text[RIG_RULE_COUNT] = {RIG_RULES(RIG_RULE_TEXT)};
#undef RIG_RULE_TEXT

bool all_zero(const void *bytes, size_t length)
{
    const uint8_t *p = bytes;
    return length == 0 || (p[0] == 0 && memcmp(p, p + 1, length - 1) == 0);
}

bool is_period(uint32_t period)
{
    return period != 0 && period <= CYCLES && (period & (period - 1)) == 0;
}

void mark_minor_flags(const rig *r, flag_set *minor)
{
    memset(minor, 0, sizeof *minor);
    for (unsigned c = 0; c < CYCLES; c++)
        for (unsigned i = 0; i < r->cycle[c].flags; i++)
            minor->marked[r->cycle[c].flag[i]] = 1;
}

static rig_rule judge_counts(const rig *r)
{
    if (r->tasks < 1 || r->tasks > TASKS_MAX || r->flags < 1 || r->flags > FLAGS_MAX ||
        r->master > ADDRESS_MAX || r->rows > ROWS_MAX || r->a_lines > A_LINES_MAX)
        return RULE_SIZES;
    return RULE_KEPT;
}

/* Entry 0 of the arrays over tasks and all that lies beyond the counts. */
static rig_rule judge_unused(const rig *r)
{
    unsigned tasks_left = TASKS_MAX - r->tasks;
    if (!all_zero(&r->task[0], sizeof r->task[0]) ||
        !all_zero(&r->conditions[0], sizeof r->conditions[0]))
        return RULE_SIZES;
    if (!all_zero(r->task + r->tasks + 1, tasks_left * sizeof r->task[0]) ||
        !all_zero(r->conditions + r->tasks + 1, tasks_left * sizeof r->conditions[0]))
        return RULE_TASK_ABOVE;
    if (!all_zero(r->a + r->a_lines, (A_LINES_MAX - r->a_lines) * sizeof r->a[0]) ||
        !all_zero(r->row + r->rows, (ROWS_MAX - r->rows) * sizeof r->row[0]))
        return RULE_SIZES;
    return RULE_KEPT;
}

/*
 * "Every other controller is the previous task or one of that task's
 * ancestors": going up from the previous task must meet it.  The climbs add
 * up to one pass, since a link climbed over is never met again.
 */
static rig_rule judge_controllers(const rig *r)
{
    uint8_t line[TASKS_MAX + 1]; /* the previous task's ancestors and itself, eldest first */
    unsigned depth = 0;
    if (r->task[1].controller != 0)
        return RULE_FIRST_CONTROLLER;
    line[depth++] = 1;
    for (unsigned t = 2; t <= r->tasks; t++) {
        while (depth > 0 && line[depth - 1] != r->task[t].controller)
            depth--;
        if (depth == 0)
            return r->task[t].controller > r->tasks ? RULE_TASK_ABOVE : RULE_CONTROLLER;
        line[depth++] = (uint8_t)t;
    }
    return RULE_KEPT;
}

static rig_rule judge_tasks(const rig *r, const flag_set *minor)
{
    flag_set taken = {{0}};
    for (unsigned t = 1; t <= r->tasks; t++) {
        const rig_task *task = &r->task[t];
        if (task->privileged > 1)
            return RULE_SIZES;
        if (task->activation > r->flags)
            return RULE_FLAG_ABOVE;
        if (task->activation == 0)
            continue;
        if (minor->marked[task->activation])
            return RULE_ACTIVATION_MINOR;
        if (taken.marked[task->activation])
            return RULE_ACTIVATION_SHARED;
        taken.marked[task->activation] = 1;
    }
    return RULE_KEPT;
}

static rig_rule judge_cycles(const rig *r)
{
    static const rig_cycle empty;
    for (unsigned c = 0; c < CYCLES; c++) {
        const rig_cycle *cycle = &r->cycle[c];
        if (memcmp(cycle, &empty, sizeof empty) == 0)
            continue;
        if (cycle->flags > CYCLE_FLAGS_MAX)
            return RULE_SIZES;
        unsigned last = 0;
        for (unsigned i = 0; i < cycle->flags; i++) {
            if (cycle->flag[i] <= last)
                return RULE_SIZES;
            last = cycle->flag[i];
        }
        if (last > r->flags)
            return RULE_FLAG_ABOVE;
        if (!all_zero(cycle->flag + cycle->flags, (size_t)(CYCLE_FLAGS_MAX - cycle->flags)))
            return RULE_SIZES;
    }
    return RULE_KEPT;
}

/* One A line: its numbers, and what a minor-cycle flag asks of its condition. */
static rig_rule judge_a_line(const rig *r, const rig_line_a *a, const flag_set *minor)
{
    if (a->task == 0 || a->position >= POSITIONS || a->flag == 0)
        return RULE_SIZES;
    if (a->task > r->tasks)
        return RULE_TASK_ABOVE;
    if (a->flag > r->flags)
        return RULE_FLAG_ABOVE;
    const rig_conditions *c = &r->conditions[a->task];
    if (!(c->present >> a->position & 1))
        return RULE_A_WITHOUT_C;
    if (minor->marked[a->flag]) {
        if (c->latched >> a->position & 1)
            return RULE_MINOR_LATCHED;
        if (!(c->desired >> a->position & 1))
            return RULE_MINOR_DESIRES_OFF;
    }
    return RULE_KEPT;
}

static unsigned condition_key(const rig_line_a *a)
{
    return (unsigned)a->task << 4 | a->position;
}

/* The A lines rise; those of one condition stand side by side. */
static rig_rule judge_a_lines(const rig *r, const flag_set *minor)
{
    uint16_t named[TASKS_MAX + 1] = {0}; /* conditions with an A line */
    unsigned last_condition = 0, last_flag = 0;
    for (unsigned i = 0; i < r->a_lines; i++) {
        const rig_line_a *a = &r->a[i];
        rig_rule rule = judge_a_line(r, a, minor);
        if (rule != RULE_KEPT)
            return rule;
        unsigned condition = condition_key(a);
        if (condition == last_condition) {
            if (a->flag <= last_flag)
                return RULE_SIZES;
            if (minor->marked[a->flag] || minor->marked[last_flag])
                return RULE_MINOR_NOT_ALONE;
        } else if (condition < last_condition) {
            return RULE_SIZES;
        }
        named[a->task] |= (uint16_t)(1u << a->position);
        last_condition = condition;
        last_flag = a->flag;
    }
    for (unsigned t = 1; t <= r->tasks; t++)
        if (named[t] != r->conditions[t].present)
            return RULE_C_WITHOUT_A;
    return RULE_KEPT;
}

/* Latched and desired are said of conditions that are there. */
static rig_rule judge_conditions(const rig *r)
{
    for (unsigned t = 1; t <= r->tasks; t++) {
        const rig_conditions *c = &r->conditions[t];
        if ((c->latched | c->desired) & ~c->present)
            return RULE_SIZES;
    }
    return RULE_KEPT;
}

static bool is_end(unsigned address, unsigned subaddress)
{
    return address <= ADDRESS_MAX && subaddress >= 1 && subaddress <= SUBADDRESS_MAX;
}

static rig_rule judge_rows(const rig *r)
{
    for (unsigned k = 0; k < r->rows; k++) {
        const rig_row *row = &r->row[k];
        if (!is_end(row->sender, row->sender_sub) || !is_end(row->receiver, row->receiver_sub) ||
            row->words < 1 || row->words > ROW_WORDS_MAX || !is_period(row->period) ||
            row->phase >= row->period)
            return RULE_SIZES;
        if (row->sender == row->receiver)
            return RULE_SAME_ENDS;
    }
    return RULE_KEPT;
}

rig_rule judge_rig(const rig *r, flag_set *minor)
{
    rig_rule rule;
    if ((rule = judge_counts(r)) || (rule = judge_unused(r)) || (rule = judge_cycles(r)))
        return rule;
    mark_minor_flags(r, minor);
    if ((rule = judge_controllers(r)) || (rule = judge_tasks(r, minor)) ||
        (rule = judge_conditions(r)) || (rule = judge_a_lines(r, minor)) ||
        (rule = judge_rows(r)))
        return rule;
    return RULE_KEPT;
}

rig_rule rig_broken_rule(const rig *r)
{
    flag_set minor;
    return judge_rig(r, &minor);
}
