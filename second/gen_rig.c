#include <string.h>

#include "gen.h"
#include "rules.h"

/* How the flags of a rig are divided, and how its conditions are made. */
typedef struct {
    unsigned tasks, flags;
    uint8_t minor[FLAGS_MAX];
    unsigned minors;
    uint8_t other[FLAGS_MAX]; /* plain and activation flags */
    unsigned others;
    unsigned activations;     /* the first of `other` are activation flags */
    unsigned conditioned;     /* percent of tasks that have conditions */
    unsigned conditions_most;
    unsigned flags_most;      /* of a condition */
    unsigned on_minor;        /* percent of conditions on a minor-cycle flag */
    unsigned on_activation;   /* percent of other conditions' flags that are activation flags */
    unsigned latched, desired, restarting;
} makings;

static void shuffle(chance *c, uint8_t *list, unsigned n)
{
    for (unsigned i = n; i > 1; i--) {
        unsigned j = pick(c, 0, i - 1);
        uint8_t kept = list[i - 1];
        list[i - 1] = list[j];
        list[j] = kept;
    }
}

static unsigned at_most(unsigned n, unsigned most)
{
    return n < most ? n : most;
}

/* Which flags are minor-cycle flags, activation flags and plain ones. */
static void divide_flags(chance *c, makings *m, unsigned minors, unsigned activations)
{
    uint8_t all[FLAGS_MAX];
    for (unsigned i = 0; i < m->flags; i++)
        all[i] = (uint8_t)(i + 1);
    shuffle(c, all, m->flags);
    m->minors = at_most(minors, m->flags);
    m->others = m->flags - m->minors;
    memcpy(m->minor, all, m->minors);
    memcpy(m->other, all + m->minors, m->others);
    m->activations = at_most(activations, at_most(m->others, m->tasks));
}

static makings choose_makings(chance *c, rig_size size)
{
    static const struct {
        unsigned tasks_least, tasks_most, flags_least, flags_most;
    } range[] = {[SIZE_SMALL] = {1, 7, 1, 12}, [SIZE_MEDIUM] = {6, 24, 12, 60}, [SIZE_FULL] = {64, 64, 128, 128}};
    makings m = {
        .tasks = pick(c, range[size].tasks_least, range[size].tasks_most),
        .flags = pick(c, range[size].flags_least, range[size].flags_most),
        .conditioned = pick(c, 30, 95),
        .conditions_most = likely(c, 70) ? pick(c, 1, 3) : pick(c, 1, POSITIONS),
        .flags_most = likely(c, 60) ? pick(c, 1, 3) : pick(c, 1, 12),
        .on_minor = pick(c, 0, 50),
        .on_activation = pick(c, 20, 90),
        .latched = pick(c, 10, 90),
        .desired = pick(c, 20, 90),
        .restarting = likely(c, 40) ? pick(c, 5, 40) : 0,
    };
    divide_flags(c, &m, pick(c, 0, m.flags / 3 + 1), pick(c, 0, m.tasks));
    return m;
}

/* ---- Tasks ---- */

static void make_controllers(chance *c, rig *r)
{
    unsigned climb = pick(c, 10, 90); /* percent for each step up: high is flat, low is deep */
    for (unsigned t = 2; t <= r->tasks; t++) {
        unsigned controller = t - 1;
        while (controller > 1 && likely(c, climb))
            controller = r->task[controller].controller;
        r->task[t].controller = (uint8_t)controller;
    }
}

/* Few different ranks, so that equal ones are often met. */
static void make_ranks(chance *c, rig *r)
{
    unsigned levels = pick(c, 1, 5);
    unsigned privileged = likely(c, 50) ? 0 : pick(c, 5, 50);
    bool wide = likely(c, 20);
    for (unsigned t = 1; t <= r->tasks; t++) {
        unsigned level = pick(c, 0, levels - 1);
        r->task[t].priority = (uint8_t)(wide ? pick(c, 0, PRIORITY_MAX) : level * 60);
        r->task[t].privileged = likely(c, privileged);
    }
    if (likely(c, 40)) /* task 1 gets to act only when the others rest */
        r->task[1].priority = 0;
}

static void give_activation_flags(chance *c, rig *r, const makings *m)
{
    uint8_t task[TASKS_MAX];
    for (unsigned i = 0; i < m->tasks; i++)
        task[i] = (uint8_t)(i + 1);
    shuffle(c, task, m->tasks);
    for (unsigned i = 0; i < m->activations; i++)
        r->task[task[i]].activation = m->other[i];
}

/* ---- Conditions ---- */

static void add_condition(rig *r, unsigned task, unsigned position, bool latched, bool desired)
{
    rig_conditions *c = &r->conditions[task];
    c->present |= (uint16_t)(1u << position);
    c->latched |= (uint16_t)((unsigned)latched << position);
    c->desired |= (uint16_t)((unsigned)desired << position);
}

static void add_flags(rig *r, unsigned task, unsigned position, const flag_set *flags)
{
    for (unsigned f = 1; f <= FLAGS_MAX; f++)
        if (flags->marked[f] && r->a_lines < A_LINES_MAX)
            r->a[r->a_lines++] = (rig_line_a){(uint8_t)task, (uint8_t)position, (uint8_t)f};
}

static void add_one_flag(rig *r, unsigned task, unsigned position, unsigned flag)
{
    flag_set set = {{0}};
    set.marked[flag] = 1;
    add_flags(r, task, position, &set);
}

static unsigned other_flag(chance *c, const makings *m)
{
    if (m->activations > 0 && likely(c, m->on_activation))
        return m->other[pick(c, 0, m->activations - 1)];
    return m->other[pick(c, 0, m->others - 1)];
}

static void make_condition(chance *c, rig *r, const makings *m, unsigned task, unsigned position)
{
    if (m->others == 0 || (m->minors > 0 && likely(c, m->on_minor))) {
        add_condition(r, task, position, false, true);
        add_one_flag(r, task, position, m->minor[pick(c, 0, m->minors - 1)]);
        return;
    }
    flag_set set = {{0}};
    for (unsigned n = pick(c, 1, m->flags_most); n > 0; n--)
        set.marked[other_flag(c, m)] = 1;
    add_condition(r, task, position, likely(c, m->latched), likely(c, m->desired));
    add_flags(r, task, position, &set);
}

/* A latched condition that desires the task's own flag off: its finish starts it again. */
static bool make_restarting(chance *c, rig *r, const makings *m, unsigned task)
{
    if (r->task[task].activation == 0 || !likely(c, m->restarting))
        return false;
    add_condition(r, task, 0, true, false);
    add_one_flag(r, task, 0, r->task[task].activation);
    return true;
}

/* Task 1 mostly starts at once: without conditions, or with latched ones that desire off. */
static void make_first_conditions(chance *c, rig *r, const makings *m)
{
    if (make_restarting(c, r, m, 1))
        return;
    if (m->minors > 0 && likely(c, 15)) {
        add_condition(r, 1, 3, false, true);
        add_one_flag(r, 1, 3, m->minor[pick(c, 0, m->minors - 1)]);
    } else if (m->others > 0 && likely(c, 15)) {
        add_condition(r, 1, 0, true, false);
        add_one_flag(r, 1, 0, other_flag(c, m));
    }
}

static void make_conditions(chance *c, rig *r, const makings *m)
{
    make_first_conditions(c, r, m);
    for (unsigned t = 2; t <= r->tasks && r->a_lines + m->flags_most < A_LINES_MAX; t++) {
        unsigned from = make_restarting(c, r, m, t) ? 1 : 0;
        if (from == 1 && likely(c, 60))
            continue;
        if (!likely(c, m->conditioned))
            continue;
        unsigned wanted = pick(c, 1, m->conditions_most);
        for (unsigned p = from; p < POSITIONS && wanted > 0; p++) {
            if (r->a_lines + m->flags_most > A_LINES_MAX)
                return;
            if (POSITIONS - p > wanted && likely(c, 40))
                continue;
            make_condition(c, r, m, t, p);
            wanted--;
        }
    }
}

/* Puts more flags to conditions of plain and activation flags until there are 1,024 A lines. */
static void fill_a_lines(chance *c, rig *r, const makings *m)
{
    static rig_line_a old[A_LINES_MAX];
    unsigned lines = r->a_lines, left = A_LINES_MAX - lines;
    flag_set minor = {{0}};
    for (unsigned i = 0; i < m->minors; i++)
        minor.marked[m->minor[i]] = 1;
    memcpy(old, r->a, sizeof old);
    r->a_lines = 0;
    for (unsigned i = 0, end; i < lines; i = end) {
        flag_set set = {{0}};
        for (end = i; end < lines && old[end].task == old[i].task && old[end].position == old[i].position; end++)
            set.marked[old[end].flag] = 1;
        for (unsigned n = pick(c, 0, 40); n > 0 && left > 0 && !minor.marked[old[i].flag]; n--) {
            unsigned flag = other_flag(c, m);
            left -= !set.marked[flag];
            set.marked[flag] = 1;
        }
        add_flags(r, old[i].task, old[i].position, &set);
    }
}

/* ---- Minor cycles and bus rows ---- */

static void make_cycles(chance *c, rig *r, const makings *m)
{
    unsigned density = pick(c, 3, 60);
    bool crowded = likely(c, 20);
    for (unsigned k = 0; k < CYCLES; k++) {
        flag_set set = {{0}};
        for (unsigned i = 0, n = 0; i < m->minors && n < CYCLE_FLAGS_MAX; i++) {
            if (crowded || likely(c, density)) {
                set.marked[m->minor[(i + k) % m->minors]] = 1;
                n++;
            }
        }
        for (unsigned f = 1; f <= r->flags; f++)
            if (set.marked[f])
                r->cycle[k].flag[r->cycle[k].flags++] = (uint8_t)f;
    }
}

static unsigned address_or_master(chance *c, const rig *r)
{
    return likely(c, 40) ? r->master : pick(c, 0, ADDRESS_MAX);
}

static void make_row(chance *c, rig *r)
{
    static const uint8_t word_edges[] = {1, 2, 31, 32, 32};
    rig_row row;
    row.sender = (uint8_t)address_or_master(c, r);
    do
        row.receiver = (uint8_t)address_or_master(c, r);
    while (row.receiver == row.sender);
    row.sender_sub = (uint8_t)pick(c, 1, SUBADDRESS_MAX);
    row.receiver_sub = (uint8_t)pick(c, 1, SUBADDRESS_MAX);
    row.words = likely(c, 50) ? word_edges[pick(c, 0, 4)] : (uint8_t)pick(c, 1, ROW_WORDS_MAX);
    row.period = (uint8_t)(1u << pick(c, 0, 6));
    row.phase = (uint8_t)pick(c, 0, row.period - 1u);
    r->row[r->rows++] = row;
}

static void make_rows(chance *c, rig *r, rig_size size)
{
    unsigned rows = size == SIZE_FULL ? pick(c, 50, ROWS_MAX) : pick(c, 0, 6);
    if (size == SIZE_FULL && likely(c, 50))
        rows = ROWS_MAX;
    while (rows-- > 0)
        make_row(c, r);
}

static void make_from(chance *c, rig *r, const makings *m, rig_size size)
{
    memset(r, 0, sizeof *r);
    r->tasks = (uint8_t)m->tasks;
    r->flags = (uint8_t)m->flags;
    r->master = (uint8_t)pick(c, 0, ADDRESS_MAX);
    make_controllers(c, r);
    make_ranks(c, r);
    give_activation_flags(c, r, m);
    make_conditions(c, r, m);
    if (size == SIZE_FULL && likely(c, 60))
        fill_a_lines(c, r, m);
    make_cycles(c, r, m);
    make_rows(c, r, size);
}

void gen_rig(chance *c, rig_size size, rig *out)
{
    makings m = choose_makings(c, size);
    make_from(c, out, &m, size);
}

/* ---- Rigs made for one purpose ---- */

void gen_restarting_rig(chance *c, rig *out)
{
    makings m = choose_makings(c, SIZE_SMALL);
    m.tasks = pick(c, 2, 9);
    m.flags = m.tasks + pick(c, 1, 6);
    m.restarting = 70;
    m.conditioned = pick(c, 20, 60);
    m.conditions_most = 2;
    divide_flags(c, &m, pick(c, 0, 3), m.tasks);
    make_from(c, out, &m, SIZE_SMALL);
}

/* Watchers: latched conditions on several activation flags, most of them desiring off. */
void gen_family_rig(chance *c, rig *out)
{
    makings m = choose_makings(c, SIZE_SMALL);
    m.tasks = pick(c, 6, 20);
    m.flags = m.tasks + pick(c, 1, 6);
    m.conditioned = pick(c, 40, 80);
    m.conditions_most = pick(c, 1, 2);
    m.flags_most = pick(c, 1, 3);
    m.on_minor = 10;
    m.on_activation = 95;
    m.latched = pick(c, 60, 100);
    m.desired = pick(c, 10, 50);
    m.restarting = 0;
    divide_flags(c, &m, pick(c, 0, 3), m.tasks);
    make_from(c, out, &m, SIZE_SMALL);
}

/* ---- Races: rigs in which the order of serving shows ---- */

/* One unlatched condition that starts a runner: a minor-cycle flag, or plain flags that others share. */
static void make_runner(chance *c, rig *r, const makings *m, unsigned task)
{
    flag_set set = {{0}};
    add_condition(r, task, 0, false, true);
    if (m->minors > 0 && likely(c, 60)) {
        add_one_flag(r, task, 0, m->minor[pick(c, 0, m->minors - 1)]);
        return;
    }
    for (unsigned n = pick(c, 1, 2); n > 0; n--)
        set.marked[m->other[pick(c, m->activations, m->others - 1)]] = 1;
    add_flags(r, task, 0, &set);
}

/*
 * A watcher desires one runner's flag on and another's off, so that it starts
 * or not by which of the two is served first.
 */
static void make_watcher(chance *c, rig *r, unsigned task, unsigned first, unsigned last)
{
    unsigned conditions = pick(c, 2, 3);
    for (unsigned p = 0; p < conditions; p++) {
        flag_set set = {{0}};
        for (unsigned n = likely(c, 80) ? 1 : 2; n > 0; n--)
            set.marked[r->task[pick(c, first, last)].activation] = 1;
        add_condition(r, task, p, likely(c, 95), p == 0 || (p > 1 && likely(c, 50)));
        add_flags(r, task, p, &set);
    }
}

/*
 * Task 1, a family of runners under task 2, and watchers under task 1.  Every
 * runner has an activation flag; runners start together and are cancelled
 * together.  Tasks 1 and 2 rank highest, so that they act whenever they are
 * awake.
 */
void gen_race_rig(chance *c, rig *out)
{
    unsigned runners = pick(c, 2, 7), watchers = pick(c, 1, 6), minors = pick(c, 1, 5);
    unsigned last = 2 + runners; /* tasks 3 to here are runners */
    makings m = {.tasks = last + watchers};
    memset(out, 0, sizeof *out);
    m.flags = m.tasks + minors + pick(c, 1, 4); /* some are plain */
    divide_flags(c, &m, minors, m.tasks);
    out->tasks = (uint8_t)m.tasks;
    out->flags = (uint8_t)m.flags;
    make_ranks(c, out);
    out->task[1].priority = PRIORITY_MAX - 1;
    out->task[2].priority = PRIORITY_MAX;
    for (unsigned t = 1; t <= m.tasks; t++)
        out->task[t].privileged = 0;
    give_activation_flags(c, out, &m);
    out->task[2].controller = 1;
    for (unsigned t = 3; t <= m.tasks; t++)
        out->task[t].controller = t > last ? 1 : likely(c, 70) ? 2 : (uint8_t)(t - 1);
    for (unsigned t = 3; t <= last; t++)
        make_runner(c, out, &m, t);
    for (unsigned t = last + 1; t <= m.tasks; t++)
        make_watcher(c, out, t, 2, last);
    make_cycles(c, out, &m);
}

/* ---- Sleepers ---- */

void gen_sleepers_rig(chance *c, rig *out)
{
    makings m = {.tasks = likely(c, 90) ? pick(c, 3, 10) : pick(c, 11, TASKS_MAX)};
    memset(out, 0, sizeof *out);
    m.flags = m.tasks + pick(c, 1, 6);
    divide_flags(c, &m, pick(c, 0, 3), pick(c, 0, m.tasks));
    out->tasks = (uint8_t)m.tasks;
    out->flags = (uint8_t)m.flags;
    make_controllers(c, out);
    make_ranks(c, out);
    out->task[1].privileged = 0;
    out->task[1].priority = 0;
    give_activation_flags(c, out, &m);
    make_cycles(c, out, &m);
}

/* ---- Listeners ---- */

/* Task 1 controls all others and rests below them. */
static void put_first_below(rig *r)
{
    for (unsigned t = 2; t <= r->tasks; t++) {
        r->task[t].controller = 1;
        r->task[t].priority |= 1;
    }
    r->task[1].privileged = 0;
    r->task[1].priority = 0;
}

/* One condition on one flag: a minor-cycle flag, a plain one, or the activation flag of one of the tasks from `first` to this. */
static void make_started(chance *c, rig *r, const makings *m, unsigned task, unsigned first)
{
    if (m->minors > 0 && likely(c, 15)) {
        add_condition(r, task, 0, false, true);
        add_one_flag(r, task, 0, m->minor[pick(c, 0, m->minors - 1)]);
        return;
    }
    bool chained = task > first && likely(c, 60);
    unsigned plain = m->other[pick(c, m->activations, m->others - 1)];
    add_condition(r, task, 0, likely(c, 25), likely(c, 85));
    add_one_flag(r, task, 0, chained ? r->task[pick(c, first, task - 1)].activation : plain);
}

/* Its numbers, ranks and activation flags, one for each task; there are few plain flags. */
static void begin_below_first(chance *c, rig *out, makings *m, unsigned minors)
{
    memset(out, 0, sizeof *out);
    m->flags = m->tasks + minors + pick(c, 1, 3);
    divide_flags(c, m, minors, m->tasks);
    out->tasks = (uint8_t)m->tasks;
    out->flags = (uint8_t)m->flags;
    make_ranks(c, out);
    give_activation_flags(c, out, m);
    put_first_below(out);
}

/*
 * Under task 1, which rests below all others, first those that start when they
 * are scheduled, to wait for flags, then those that flags start.  There are few
 * plain flags, so that several tasks hear one signal.
 */
void gen_listeners_rig(chance *c, rig *out)
{
    unsigned last_waiting = 1 + pick(c, 2, 7), minors = pick(c, 0, 2);
    makings m = {.tasks = last_waiting + pick(c, 2, 6)};
    begin_below_first(c, out, &m, minors);
    for (unsigned t = last_waiting + 1; t <= m.tasks; t++)
        make_started(c, out, &m, t, last_waiting + 1);
    make_cycles(c, out, &m);
    make_rows(c, out, SIZE_SMALL);
}

/* ---- Tasks that run again ---- */

/* The task has one condition, on the activation flag of another. */
static void make_follower(rig *r, unsigned task, unsigned other, bool latched, bool desired)
{
    add_condition(r, task, 0, latched, desired);
    add_one_flag(r, task, 0, r->task[other].activation);
}

/* Each starts by the other's end, and keeps the other from starting while it is active. */
static void make_rivals(rig *r, unsigned task)
{
    make_follower(r, task, task + 1, true, false);
    make_follower(r, task + 1, task, true, false);
}

/*
 * The first task's end starts the second, which starts the first again before
 * it is tested, with all conditions as desired; the third starts by that.
 */
static void make_relay(rig *r, unsigned task)
{
    make_follower(r, task, task + 1, true, true);
    make_follower(r, task + 1, task, true, false);
    make_follower(r, task + 2, task, false, true);
}

/* One condition on one flag: a minor-cycle flag, a plain one, or an activation flag, the task's own among them. */
static void make_started_again(chance *c, rig *r, const makings *m, unsigned task)
{
    if (m->minors > 0 && likely(c, 40)) {
        add_condition(r, task, 0, false, true);
        add_one_flag(r, task, 0, m->minor[pick(c, 0, m->minors - 1)]);
        return;
    }
    unsigned plain = m->other[pick(c, m->activations, m->others - 1)];
    add_condition(r, task, 0, likely(c, 60), likely(c, 60));
    add_one_flag(r, task, 0, likely(c, 40) ? plain : r->task[pick(c, 2, r->tasks)].activation);
}

/* Conditions for the task, or for it and those behind it; answers the last of them. */
static unsigned make_again(chance *c, rig *r, const makings *m, unsigned task)
{
    unsigned way = pick(c, 0, 99);
    if (way < 35)
        return task; /* none */
    if (way < 55 && task + 1 <= r->tasks) {
        make_rivals(r, task);
        return task + 1;
    }
    if (way < 75 && task + 2 <= r->tasks) {
        make_relay(r, task);
        return task + 2;
    }
    make_started_again(c, r, m, task);
    return task;
}

/*
 * Under task 1, which rests below all others, tasks without conditions, tasks
 * that start each other, and tasks that a flag starts.  Each has an activation
 * flag, so that its end and its running again are served.
 */
void gen_again_rig(chance *c, rig *out)
{
    unsigned minors = pick(c, 0, 2);
    makings m = {.tasks = pick(c, 4, 10)};
    begin_below_first(c, out, &m, minors);
    for (unsigned done = 1; done < m.tasks;)
        done = make_again(c, out, &m, done + 1);
    make_cycles(c, out, &m);
}

/* ---- Starts that come too soon ---- */

/* A condition that a minor-cycle flag brings about. */
static void add_minor_condition(rig *r, unsigned task, unsigned position, unsigned flag)
{
    add_condition(r, task, position, false, true);
    add_one_flag(r, task, position, flag);
}

/* One to three of the minor-cycle flags start the task, each in one condition or in two. */
static unsigned make_minor_conditions(chance *c, rig *r, const makings *m, unsigned task)
{
    unsigned flags = likely(c, 60) ? 1 : pick(c, 2, 3), first = pick(c, 0, m->minors - 1), position = 0;
    for (unsigned i = 0; i < flags; i++) {
        unsigned flag = m->minor[(first + i) % m->minors];
        for (unsigned times = likely(c, 40) ? 2 : 1; times > 0; times--)
            add_minor_condition(r, task, position++, flag);
    }
    return position;
}

/*
 * Under task 1, which rests below all others, tasks that minor-cycle flags
 * start; some have a condition besides that a plain flag or another task's
 * activation undoes or brings about.  Nearly every cycle has flags, most have
 * several.
 */
void gen_overruns_rig(chance *c, rig *out)
{
    unsigned minors = pick(c, 1, 4), density = pick(c, 50, 95);
    makings m = {.tasks = pick(c, 3, 8)};
    begin_below_first(c, out, &m, minors);
    for (unsigned t = 2; t <= m.tasks; t++) {
        unsigned position = likely(c, 90) ? make_minor_conditions(c, out, &m, t) : 0;
        if (!likely(c, 35))
            continue;
        add_condition(out, t, position, likely(c, 90), likely(c, 15));
        add_one_flag(out, t, position, m.other[pick(c, likely(c, 50) ? m.activations : 0, m.others - 1)]);
    }
    for (unsigned k = 0; k < CYCLES; k++)
        for (unsigned f = 1; f <= out->flags; f++)
            if (memchr(m.minor, (int)f, m.minors) != NULL && likely(c, density))
                out->cycle[k].flag[out->cycle[k].flags++] = (uint8_t)f;
    make_rows(c, out, SIZE_SMALL);
}

/* ---- Tasks that wait for each other ---- */

/* The task before, so that chains come about; or any, this one among them, which makes circles. */
static unsigned task_waited_for(chance *c, const rig *r, unsigned task)
{
    return task > 2 && likely(c, 65) ? task - 1 : pick(c, 2, r->tasks);
}

/*
 * A condition on a minor-cycle flag, on a plain one, or on another task's
 * activation, and often on one or two activations more, which may help or not.
 */
static void add_waiting_condition(chance *c, rig *r, const makings *m, unsigned task, unsigned position)
{
    unsigned way = pick(c, 0, 99);
    if (way < 12) {
        add_minor_condition(r, task, position, m->minor[pick(c, 0, m->minors - 1)]);
        return;
    }
    flag_set set = {{0}};
    unsigned plain = m->other[pick(c, m->activations, m->others - 1)];
    set.marked[way < 30 ? plain : r->task[task_waited_for(c, r, task)].activation] = 1;
    for (unsigned more = likely(c, 75) ? 0 : pick(c, 1, 2); more > 0; more--)
        set.marked[r->task[pick(c, 1, r->tasks)].activation] = 1;
    add_condition(r, task, position, likely(c, 25), likely(c, 75));
    add_flags(r, task, position, &set);
}

/* None to three conditions; a task with none starts when it is scheduled. */
static void make_waiting(chance *c, rig *r, const makings *m, unsigned task)
{
    unsigned position = likely(c, 60) ? 0 : pick(c, 1, 8);
    for (unsigned wanted = likely(c, 20) ? 0 : likely(c, 60) ? 1 : pick(c, 2, 3); wanted > 0; wanted--) {
        add_waiting_condition(c, r, m, task, position);
        position += pick(c, 1, 3);
    }
}

/* A chain up to here: the task waits for the one before and for nothing else, and the first for a plain flag. */
static void make_chained(chance *c, rig *r, const makings *m, unsigned task)
{
    unsigned position = pick(c, 0, 2), plain = m->other[pick(c, m->activations, m->others - 1)];
    add_condition(r, task, position, likely(c, 10), true);
    add_one_flag(r, task, position, task == 2 ? plain : r->task[task - 1].activation);
}

/*
 * Under task 1, which rests below all others, tasks that mostly wait for the
 * one before.  Half of the rigs begin with a chain whose end is three, four or
 * more links away from its plain flag.
 */
void gen_links_rig(chance *c, rig *out)
{
    unsigned minors = pick(c, 1, 2), last_chained = likely(c, 50) ? pick(c, 5, 7) : 1;
    makings m = {.tasks = last_chained + pick(c, 4, 8)};
    begin_below_first(c, out, &m, minors);
    for (unsigned t = 2; t <= m.tasks; t++) {
        if (t <= last_chained)
            make_chained(c, out, &m, t);
        else
            make_waiting(c, out, &m, t);
    }
    make_cycles(c, out, &m);
    make_rows(c, out, SIZE_SMALL);
}

/* Flags 1 to 15 are in every cycle; task 2 has all of them, task 3 all but one, so that it passes its stop within a tick. */
void gen_stop_rig(chance *c, rig *out)
{
    unsigned spared = pick(c, 1, CYCLE_FLAGS_MAX);
    memset(out, 0, sizeof *out);
    out->tasks = 3;
    out->flags = CYCLE_FLAGS_MAX;
    out->task[1] = (rig_task){.priority = 10};
    for (unsigned t = 2; t <= out->tasks; t++) {
        out->task[t] = (rig_task){.controller = 1, .priority = 20};
        for (unsigned f = 1; f <= CYCLE_FLAGS_MAX; f++)
            if (t == 2 || f != spared)
                add_minor_condition(out, t, f, f);
    }
    for (unsigned k = 0; k < CYCLES; k++)
        for (unsigned f = 1; f <= CYCLE_FLAGS_MAX; f++)
            out->cycle[k].flag[out->cycle[k].flags++] = (uint8_t)f;
}

enum { TRIGGER_CYCLE = 1, FULL_CYCLE = 3 };

/*
 * Flags 1 to 15 are minor-cycle flags, flag 15 + t (shuffled) is task t's
 * activation flag.  Each task is started by one of the 15 or by another
 * task's activation, in chains of any depth.  Task 1 is started at count 1,
 * schedules all others and finishes; the tick at count 3 then serves 79.
 */
void gen_full_serving_rig(chance *c, rig *out)
{
    uint8_t order[TASKS_MAX];
    uint8_t activation[TASKS_MAX + 1];
    unsigned chained = pick(c, 0, 100);
    memset(out, 0, sizeof *out);
    out->tasks = TASKS_MAX;
    out->flags = (uint8_t)pick(c, CYCLE_FLAGS_MAX + TASKS_MAX, FLAGS_MAX);
    out->master = (uint8_t)pick(c, 0, ADDRESS_MAX);
    for (unsigned i = 0; i < TASKS_MAX; i++)
        order[i] = (uint8_t)(i + 1);
    shuffle(c, order, TASKS_MAX);
    for (unsigned i = 0; i < TASKS_MAX; i++)
        activation[i + 1] = (uint8_t)(CYCLE_FLAGS_MAX + order[i]);
    make_ranks(c, out);
    for (unsigned t = 1; t <= TASKS_MAX; t++) {
        out->task[t].controller = t > 1;
        out->task[t].activation = activation[t];
        out->conditions[t] = (rig_conditions){.present = 1, .desired = 1};
        unsigned flag = pick(c, 1, CYCLE_FLAGS_MAX);
        if (t > 1 && likely(c, chained))
            flag = activation[pick(c, 1, t - 1)];
        out->a[out->a_lines++] = (rig_line_a){(uint8_t)t, 0, (uint8_t)flag};
    }
    out->cycle[TRIGGER_CYCLE] = (rig_cycle){.flags = 1, .flag = {out->a[0].flag}};
    out->cycle[FULL_CYCLE].flags = CYCLE_FLAGS_MAX;
    for (unsigned i = 0; i < CYCLE_FLAGS_MAX; i++)
        out->cycle[FULL_CYCLE].flag[i] = (uint8_t)(i + 1);
    make_rows(c, out, likely(c, 30) ? SIZE_FULL : SIZE_SMALL);
}

/* ---- Rigs of a given size, to measure how cost grows ---- */

enum { FIRST_ACTIVATION = SIGNALLED_MAX + 1, FIRST_MINOR = FIRST_ACTIVATION + TASKS_MAX, MINORS = 20 };

/* So many A lines for one task, over positions 0 to 15: latched conditions on flags that the script signals. */
static void give_a_lines(chance *c, rig *r, unsigned task, unsigned lines)
{
    bool stays = growth_stays(task);
    if (stays && lines > 0) {
        add_condition(r, task, 0, true, true);
        add_one_flag(r, task, 0, NEVER_SIGNALLED);
        lines--;
    }
    for (unsigned p = 1; p < POSITIONS && lines > 0; p++) {
        flag_set set = {{0}};
        unsigned here = (lines + POSITIONS - 1 - p) / (POSITIONS - p);
        for (unsigned n = 0; n < here; n++) {
            unsigned flag = pick(c, 1, SIGNALLED_MAX);
            n -= set.marked[flag];
            set.marked[flag] = 1;
        }
        add_condition(r, task, p, true, stays);
        add_flags(r, task, p, &set);
        lines -= here;
    }
}

bool growth_stays(unsigned task)
{
    return task % 3 == 0;
}

void gen_growth_rig(chance *c, const growth *size, rig *out)
{
    memset(out, 0, sizeof *out);
    out->tasks = (uint8_t)size->tasks;
    out->flags = FLAGS_MAX;
    for (unsigned t = 1; t <= size->tasks; t++)
        out->task[t] = (rig_task){.controller = t > 1, .priority = t > 1 ? 20 : 10, .activation = (uint8_t)(SIGNALLED_MAX + t)};
    for (unsigned t = 2; t <= size->tasks; t++)
        give_a_lines(c, out, t, (size->a_lines - out->a_lines) / (size->tasks - t + 1));
    for (unsigned k = 0; k < CYCLES; k++)
        out->cycle[k] = (rig_cycle){.flags = 1, .flag = {(uint8_t)(FIRST_MINOR + k % MINORS)}};
    for (unsigned k = 0; k < size->rows; k++)
        out->row[out->rows++] = (rig_row){.sender_sub = 1, .receiver = (uint8_t)(1 + k % ADDRESS_MAX), .receiver_sub = 1,
                                          .words = (uint8_t)(1 + k % ROW_WORDS_MAX), .period = 4, .phase = (uint8_t)(k % 4)};
}

void gen_print_rig(const rig *r, text *out)
{
    static uint8_t file[RIG_FILE_MAX];
    size_t length = 0;
    (void)rig_write(r, file, sizeof file, &length);
    text_add(out, file, length);
}
