#include <string.h>

#include "entries.h"
#include "gen.h"
#include "script.h"
#include "why.h"

/* What a script tries, with weights of its own for each script. */
enum action {
    DO_TICK,
    DO_SCHEDULE,
    DO_FINISH,
    DO_WAIT_TIME,
    DO_WAIT_FLAG,
    DO_SIGNAL,
    DO_READ,
    DO_CANCEL,
    DO_TERMINATE,
    DO_WRONG_STATE,
    DO_BARRED,
    ACTIONS
};

/* The executive is played along with the script, to know who runs and who waits. */
typedef struct {
    chance *c;
    text *out;
    exec e;
    unsigned weight[ACTIONS];
    unsigned idle; /* ticks in a row with no running task */
} player;

/* Idle ticks after which a script ends: a frame and some more. */
enum { IDLE_MAX = CYCLES + 6 };

static void call(player *p, char verb, uint32_t number, unsigned value)
{
    uint16_t words[TICK_WORDS];
    script_call line = {.verb = verb, .number = number, .value = value != 0};
    if (strchr("FK", verb) != NULL)
        text_print(p->out, "%c\n", verb);
    else if (strchr("LNG", verb) != NULL)
        text_print(p->out, "%c\t%u\t%u\n", verb, (unsigned)number, value);
    else
        text_print(p->out, "%c\t%u\n", verb, (unsigned)number);
    (void)script_apply(&p->e, &line, words);
}

/* ---- Choosing tasks and flags ---- */

/* A task of the running one's own whose state is among those of the mask, or 0. */
static unsigned child_in(player *p, unsigned states)
{
    unsigned found = 0, seen = 0;
    for (unsigned t = 2; t <= p->e.rig.tasks; t++) {
        if (p->e.rig.task[t].controller != p->e.running || !(states >> p->e.state[t] & 1))
            continue;
        if (pick(p->c, 0, seen++) == 0)
            found = t;
    }
    return found;
}

/* A flag of a kind up to `most`, or 0 if it was not met in some tries. */
static unsigned flag_up_to(player *p, enum flag_kind most)
{
    for (unsigned tries = 0; tries < 20; tries++) {
        unsigned flag = pick(p->c, 1, p->e.rig.flags);
        if (p->e.plan.kind[flag] <= most)
            return flag;
    }
    return 0;
}

static unsigned awaited_task(player *p)
{
    const exec_line *line = &p->e.flagged;
    return line->tasks == 0 ? 0 : line->task[pick(p->c, 0, line->tasks - 1u)];
}

/* ---- Actions: each answers whether it could be done ---- */

static bool do_schedule(player *p)
{
    unsigned task = child_in(p, 1u << UNINVOKED);
    if (task != 0)
        call(p, 'S', task, 0);
    return task != 0;
}

static bool do_cancel(player *p)
{
    unsigned waiting = child_in(p, 1u << WAITING);
    unsigned task = waiting != 0 && likely(p->c, 60)
                        ? waiting
                        : child_in(p, 1u << INACTIVE | 1u << WAITING | 1u << DISPATCHABLE);
    if (task != 0)
        call(p, 'X', task, 0);
    return task != 0;
}

static bool do_terminate(player *p)
{
    unsigned waiting = child_in(p, 1u << WAITING);
    unsigned task = waiting != 0 && likely(p->c, 60) ? waiting
                                                     : child_in(p, 1u << WAITING | 1u << DISPATCHABLE);
    if (task != 0)
        call(p, 'Z', task, 0);
    return task != 0;
}

/* Calls that are refused by 8. */
static bool do_wrong_state(player *p)
{
    static const struct {
        char verb;
        unsigned states;
    } wrong[] = {{'S', 1u << INACTIVE | 1u << WAITING | 1u << DISPATCHABLE},
                 {'X', 1u << UNINVOKED},
                 {'Z', 1u << UNINVOKED | 1u << INACTIVE}};
    unsigned i = pick(p->c, 0, 2);
    unsigned task = child_in(p, wrong[i].states);
    if (task != 0)
        call(p, wrong[i].verb, task, 0);
    return task != 0;
}

/* Calls that are refused by 7. */
static bool do_barred(player *p)
{
    char verb = "SXZLNQG"[pick(p->c, 0, 6)];
    unsigned value = pick(p->c, 0, 1);
    if (strchr("SXZ", verb) != NULL) {
        call(p, verb, pick(p->c, 1, p->e.rig.tasks), 0);
        return true;
    }
    for (unsigned tries = 0; tries < 20; tries++) {
        unsigned flag = pick(p->c, 1, p->e.rig.flags);
        if (p->e.plan.kind[flag] >= (verb == 'G' ? FLAG_ACTIVATION : FLAG_MINOR)) {
            call(p, verb, flag, value);
            return true;
        }
    }
    return false;
}

/* Task 1 controls the most, so it seldom waits for a flag that may never come. */
static bool spared(player *p)
{
    bool comes_again = p->e.rig.conditions[1].present != 0;
    return p->e.running == 1 && likely(p->c, comes_again ? 60 : 97);
}

static bool do_finish(player *p)
{
    if (p->e.running == 1 && likely(p->c, 60))
        return false;
    call(p, 'F', 0, 0);
    return true;
}

static bool do_wait_time(player *p)
{
    unsigned cycles = likely(p->c, 20) ? 0 : pick(p->c, 1, likely(p->c, 90) ? 4 : 70);
    uint32_t count = p->e.count;
    if (p->e.running != 1 && likely(p->c, 2))
        cycles = COUNT_MAX - count; /* the last count there is */
    if (likely(p->c, 50))
        call(p, 'R', cycles, 0);
    else if (cycles == 0 && count > 0)
        call(p, 'U', count - pick(p->c, 0, count < 3 ? count : 3), 0);
    else
        call(p, 'U', count + cycles, 0);
    return true;
}

static bool do_wait_flag(player *p)
{
    unsigned flag = flag_up_to(p, FLAG_ACTIVATION), value = pick(p->c, 0, 1);
    unsigned other = awaited_task(p);
    if (other != 0 && likely(p->c, 40)) { /* several tasks wait for the same */
        flag = p->e.wait[other].flag;
        value = p->e.wait[other].value;
    }
    if (flag == 0 || spared(p))
        return false;
    call(p, likely(p->c, 50) ? 'L' : 'N', flag, value);
    return true;
}

static bool do_signal(player *p)
{
    unsigned task = awaited_task(p);
    unsigned flag = flag_up_to(p, FLAG_PLAIN);
    unsigned value = pick(p->c, 0, 1);
    if (task != 0 && p->e.plan.kind[p->e.wait[task].flag] == FLAG_PLAIN && likely(p->c, 60)) {
        flag = p->e.wait[task].flag;
        value = likely(p->c, 80) ? p->e.wait[task].value : 1u - p->e.wait[task].value;
    }
    if (flag != 0)
        call(p, 'G', flag, value);
    return flag != 0;
}

static bool do_read(player *p)
{
    unsigned flag = flag_up_to(p, FLAG_ACTIVATION);
    if (flag != 0)
        call(p, 'Q', flag, 0);
    return flag != 0;
}

static bool act(player *p, enum action action)
{
    switch (action) {
    case DO_SCHEDULE:
        return do_schedule(p);
    case DO_FINISH:
        return do_finish(p);
    case DO_WAIT_TIME:
        return do_wait_time(p);
    case DO_WAIT_FLAG:
        return do_wait_flag(p);
    case DO_SIGNAL:
        return do_signal(p);
    case DO_READ:
        return do_read(p);
    case DO_CANCEL:
        return do_cancel(p);
    case DO_TERMINATE:
        return do_terminate(p);
    case DO_WRONG_STATE:
        return do_wrong_state(p);
    case DO_BARRED:
        return do_barred(p);
    default:
        call(p, 'K', 0, 0);
        return true;
    }
}

/* ---- Calls with any numbers ---- */

static uint32_t wild_number(player *p, unsigned near)
{
    static const uint32_t far[] = {0, 65, 129, 255, 256, COUNT_MAX, COUNT_MAX + 1, UINT32_MAX};
    if (likely(p->c, 75))
        return pick(p->c, 0, near + 2);
    return far[pick(p->c, 0, sizeof far / sizeof far[0] - 1)];
}

static uint32_t wild_count(player *p)
{
    static const uint32_t above[] = {COUNT_MAX + 1, COUNT_MAX + 2, UINT32_MAX, UINT32_MAX - 1};
    return above[pick(p->c, 0, 3)];
}

static void wild_call(player *p)
{
    static const char verbs[] = "SXZFURLNGQ";
    char verb = verbs[pick(p->c, 0, sizeof verbs - 2)];
    uint32_t number;
    if (strchr("SXZ", verb) != NULL)
        number = wild_number(p, p->e.rig.tasks);
    else if (strchr("UR", verb) != NULL)
        number = wild_count(p) - (verb == 'R' && likely(p->c, 30) ? p->e.count : 0);
    else
        number = wild_number(p, p->e.rig.flags);
    if (verb == 'F' && p->e.running == 1)
        verb = 'Q';
    call(p, verb, number, pick(p->c, 0, 1));
}

/* ---- Lines of wrong shape ---- */

static void add_long_line(player *p)
{
    size_t length = likely(p->c, 20) ? pick(p->c, 60000, 140000) : pick(p->c, 15, 400);
    char digit = likely(p->c, 50) ? '0' : '7';
    text_print(p->out, "S\t");
    for (size_t i = 0; i < length; i++)
        text_add(p->out, &digit, 1);
    text_print(p->out, "\n");
}

static void add_any_bytes(player *p)
{
    unsigned length = pick(p->c, 0, 20);
    for (unsigned i = 0; i < length; i++) {
        uint8_t byte = (uint8_t)pick(p->c, 0, 255);
        if (byte != '\n')
            text_add(p->out, &byte, 1);
    }
    text_print(p->out, "\n");
}

static void wrong_line(player *p)
{
    static const char *const wrong[] = {
        "", "?", "RUN", "S", "S\t", "S 2", "S\t2 ", " S\t2", "S\t2\t", "S\t\t2", "S\t2\t3", "S\t02", "S\t00",
        "S\t-1", "S\t+1", "S\t2\r", "s\t2", "SS\t2", "F\t", "F\t1", "F ", "K\t0", "KK", "K\r", "k", "U", "U\tx",
        "U\t4294967296", "U\t42949672960", "U\t99999999999999999999", "R\t18446744073709551617", "R\t1.5",
        "L\t1", "L\t1\t2", "L\t1\t01", "L\t1\t1\t1", "N\t1\t", "N\t1\t10", "N\t4294967296\t1", "G\t1",
        "G\t1\t-1", "G\t1 1", "G\t\t1", "Q", "Q\t1\t1", "Q\t0x1", "q\t1", "START\t0", "B\t1", "T\t1", "\t", " ",
        "S\t18446744073709551618", "Z\t1e0", "X\t\xef\xbc\x91", "W\t1\t33\t1\t0x", "J", "D\t1"};
    switch (pick(p->c, 0, 9)) {
    case 0:
        add_long_line(p);
        break;
    case 1:
        add_any_bytes(p);
        break;
    case 2:
        text_add(p->out, "K\0\n", 3);
        break;
    default:
        text_print(p->out, "%s\n", wrong[pick(p->c, 0, sizeof wrong / sizeof wrong[0] - 1)]);
        break;
    }
}

/* ---- Scripts ---- */

static void choose_weights(player *p)
{
    static const unsigned usual[ACTIONS] = {
        [DO_TICK] = 20, [DO_SCHEDULE] = 30, [DO_FINISH] = 14, [DO_WAIT_TIME] = 10, [DO_WAIT_FLAG] = 8,
        [DO_SIGNAL] = 14, [DO_READ] = 4, [DO_CANCEL] = 5, [DO_TERMINATE] = 5, [DO_WRONG_STATE] = 3, [DO_BARRED] = 3};
    for (unsigned i = 0; i < ACTIONS; i++)
        p->weight[i] = usual[i] * pick(p->c, 1, 8);
}

static enum action choose_action(player *p)
{
    unsigned sum = 0;
    for (unsigned i = 0; i < ACTIONS; i++)
        sum += p->weight[i];
    unsigned at = pick(p->c, 0, sum - 1);
    unsigned i = 0;
    while (at >= p->weight[i])
        at -= p->weight[i++];
    return i;
}

static void step(player *p, const script_form *form)
{
    if (likely(p->c, form->damaged)) {
        wrong_line(p);
    } else if (likely(p->c, form->wild)) {
        wild_call(p);
    } else if (p->e.running == 0) {
        p->idle++;
        call(p, 'K', 0, 0);
    } else {
        p->idle = 0;
        for (unsigned tries = 0; tries < 8; tries++)
            if (act(p, choose_action(p)))
                return;
        call(p, 'K', 0, 0);
    }
}

static void play(player *p, chance *c, const rig *r, text *out)
{
    p->c = c;
    p->out = out;
    p->idle = 0;
    (void)exec_start(&p->e, r);
    choose_weights(p);
}

void gen_script(chance *c, const rig *r, const script_form *form, text *out)
{
    static player p;
    play(&p, c, r, out);
    for (unsigned i = 0; i < form->lines && p.idle < IDLE_MAX; i++)
        step(&p, form);
    if (form->damaged > 0 && likely(c, 30))
        text_print(out, "K"); /* no LF */
}

/* Finishes all that run, so that every task is inactive again. */
static void finish_all(player *p)
{
    for (unsigned i = 0; i < 3 * TASKS_MAX && p->e.running != 0; i++)
        call(p, 'F', 0, 0);
}

void gen_full_serving_script(chance *c, const rig *r, text *out)
{
    static player p;
    const script_form form = {.lines = 0, .wild = 5, .damaged = 0};
    play(&p, c, r, out);
    call(&p, 'K', 0, 0);
    for (unsigned t = 2; t <= r->tasks; t++) {
        while (p.e.running != 1 && p.e.running != 0)
            call(&p, 'F', 0, 0);
        call(&p, 'S', t, 0);
    }
    for (unsigned frame = pick(c, 1, 3); frame > 0; frame--) {
        finish_all(&p);
        while (p.e.count % CYCLES != 2) {
            call(&p, 'K', 0, 0);
            finish_all(&p);
        }
        call(&p, 'K', 0, 0);
        for (unsigned i = pick(c, 0, 120); i > 0; i--)
            step(&p, &form);
    }
}

/* Task 1 of a race rig: all watchers and the family ready, then a sleep, a cancel or a signal. */
static void race_first(player *p)
{
    unsigned task = child_in(p, 1u << UNINVOKED);
    unsigned way = pick(p->c, 0, 99);
    if (task != 0 && way < 90)
        call(p, 'S', task, 0);
    else if (way < 25 && p->e.state[2] != UNINVOKED)
        call(p, 'X', 2, 0);
    else if (way < 45)
        (void)do_signal(p);
    else if (way < 55)
        (void)do_terminate(p);
    else
        call(p, 'R', pick(p->c, 1, 3), 0);
}

/* Task 2: all its runners ready, then a sleep. */
static void race_second(player *p)
{
    if (!do_schedule(p))
        call(p, 'R', pick(p->c, 1, 9), 0);
}

void gen_race_script(chance *c, const rig *r, unsigned lines, text *out)
{
    static player p;
    const script_form form = {.lines = lines, .wild = 0, .damaged = 0};
    play(&p, c, r, out);
    for (unsigned i = 0; i < lines; i++) {
        if (p.e.running != 0 && likely(c, 15))
            (void)do_read(&p);
        else if (p.e.running == 1)
            race_first(&p);
        else if (p.e.running == 2)
            race_second(&p);
        else if (p.e.running != 0 && likely(c, 40))
            call(&p, 'F', 0, 0);
        else if (p.e.running != 0 && likely(c, 30))
            step(&p, &form);
        else
            call(&p, 'K', 0, 0);
    }
}

/* Cancels or terminates the first of the time line, if it is the running task's to do. */
static bool strike_earliest(player *p)
{
    unsigned task = p->e.timed.tasks > 0 ? p->e.timed.task[0] : 0;
    if (task == 0 || p->e.rig.task[task].controller != p->e.running)
        return false;
    call(p, likely(p->c, 60) ? 'X' : 'Z', task, 0);
    return true;
}

/* Waking counts so far apart that who begins later often wakes earlier; equal ones too. */
static void sleep_a_while(player *p)
{
    unsigned cycles = pick(p->c, 1, likely(p->c, 60) ? 4 : 16);
    if (likely(p->c, 50))
        call(p, 'R', cycles, 0);
    else
        call(p, 'U', p->e.count + cycles, 0);
}

static void sleepers_step(player *p)
{
    unsigned way = pick(p->c, 0, 99);
    if (p->e.running == 0)
        call(p, 'K', 0, 0);
    else if (way < 40 && do_schedule(p))
        return;
    else if (way < 52 && strike_earliest(p))
        return;
    else if (way < 58 && (likely(p->c, 60) ? do_cancel(p) : do_terminate(p)))
        return;
    else if (way < 62 && do_wait_flag(p))
        return;
    else if (way < 66 && do_finish(p))
        return;
    else if (way < 74)
        call(p, 'K', 0, 0);
    else
        sleep_a_while(p);
}

/* No task has conditions: where none runs and none waits on time, none will. */
static bool is_over(const player *p)
{
    return p->e.running == 0 && p->e.timed.tasks == 0;
}

void gen_sleepers_script(chance *c, const rig *r, unsigned lines, text *out)
{
    static player p;
    play(&p, c, r, out);
    for (unsigned i = 0; i < lines && !is_over(&p); i++)
        sleepers_step(&p);
    call(&p, 'K', 0, 0);
}

/* Task 1 of a listeners rig has all others ready, then signals; now and then it strikes one or sleeps. */
static void listeners_first(player *p)
{
    unsigned way = pick(p->c, 0, 99);
    if (way < 50 && do_schedule(p))
        return;
    if (way < 85 && do_signal(p))
        return;
    if (way < 90 && (likely(p->c, 50) ? do_cancel(p) : do_terminate(p)))
        return;
    if (way < 96)
        call(p, 'K', 0, 0);
    else
        call(p, 'R', pick(p->c, 1, 2), 0);
}

/* The others wait for flags; those that a flag started mostly finish, to be started again. */
static void listeners_other(player *p)
{
    bool started = p->e.rig.conditions[p->e.running].present != 0;
    unsigned way = pick(p->c, 0, 99);
    if (way < (started ? 55 : 6))
        call(p, 'F', 0, 0);
    else if (way < 75 && do_wait_flag(p))
        return;
    else if (way < 88 && do_signal(p))
        return;
    else
        sleep_a_while(p);
}

void gen_listeners_script(chance *c, const rig *r, unsigned lines, text *out)
{
    static player p;
    play(&p, c, r, out);
    for (unsigned i = 0; i < lines && p.idle < IDLE_MAX; i++) {
        p.idle = p.e.running == 0 ? p.idle + 1 : 0;
        if (p.e.running == 0)
            call(&p, 'K', 0, 0);
        else if (likely(c, 8))
            (void)do_barred(&p); /* a refusal, often right behind a call that was heard */
        else if (p.e.running == 1)
            listeners_first(&p);
        else
            listeners_other(&p);
    }
}

/* A task with an activation flag, other than the running one, that is active; 0 if there is none. */
static unsigned other_active(player *p)
{
    unsigned found = 0, seen = 0;
    for (unsigned t = 2; t <= p->e.rig.tasks; t++) {
        if (t == p->e.running || p->e.state[t] < WAITING || p->e.rig.task[t].activation == 0)
            continue;
        if (pick(p->c, 0, seen++) == 0)
            found = t;
    }
    return found;
}

/* Waits for the flag of an active task; where somebody waits for it already, mostly for the other value. */
static bool await_another(player *p)
{
    unsigned task = other_active(p), waiting = awaited_task(p);
    unsigned flag = p->e.rig.task[task].activation, value = pick(p->c, 0, 1);
    if (waiting != 0 && likely(p->c, 60)) {
        flag = p->e.wait[waiting].flag;
        value = 1u - p->e.wait[waiting].value;
    }
    if (flag != 0)
        call(p, 'N', flag, value);
    return flag != 0;
}

/* Task 1 of a rig of tasks that run again acts when all others rest: it has them ready, then strikes one. */
static void again_first(player *p)
{
    unsigned way = pick(p->c, 0, 99);
    if (way < 50 && do_schedule(p))
        return;
    if (way < 70 && do_terminate(p))
        return;
    if (way < 80 && do_signal(p))
        return;
    if (way < 84)
        call(p, 'F', 0, 0);
    else
        call(p, 'K', 0, 0);
}

static void again_other(player *p)
{
    unsigned way = pick(p->c, 0, 99);
    if (way < 40)
        call(p, 'F', 0, 0);
    else if (way < 65 && await_another(p))
        return;
    else if (way < 75 && do_signal(p))
        return;
    else if (way < 85)
        call(p, 'K', 0, 0);
    else
        sleep_a_while(p);
}

void gen_again_script(chance *c, const rig *r, unsigned lines, text *out)
{
    static player p;
    play(&p, c, r, out);
    for (unsigned i = 0; i < lines; i++) {
        if (p.e.running != 0 && likely(c, 8))
            (void)do_read(&p);
        else if (p.e.running == 1)
            again_first(&p);
        else
            again_other(&p);
    }
}

/* ---- Starts that come too soon ---- */

/* The panel's O, which changes nothing. */
static void ask_overruns(player *p, unsigned task)
{
    text_print(p->out, "O\t%u\n", task);
}

/* A task whose number is above 0, if there is one; else any. */
static unsigned overrun_task(player *p)
{
    unsigned found = pick(p->c, 1, p->e.rig.tasks), seen = 0;
    for (unsigned t = 1; t <= p->e.rig.tasks; t++)
        if (p->e.overruns[t] > 0 && pick(p->c, 0, seen++) == 0)
            found = t;
    return found;
}

/* Strikes a task that was overrun, if it is the running one's, and asks for it; after a cancel it is mostly scheduled anew. */
static bool strike_overrun(player *p)
{
    unsigned task = overrun_task(p);
    if (p->e.rig.task[task].controller != p->e.running || p->e.state[task] < INACTIVE)
        return false;
    bool cancels = p->e.state[task] == INACTIVE || likely(p->c, 60);
    call(p, cancels ? 'X' : 'Z', task, 0);
    if (likely(p->c, 70))
        ask_overruns(p, task);
    if (!cancels || likely(p->c, 30))
        return true;
    call(p, 'S', task, 0);
    if (likely(p->c, 70))
        ask_overruns(p, task);
    return true;
}

/* Task 1 of an overruns rig has all others ready, then strikes one, signals, or lets time go. */
static void overruns_first(player *p)
{
    unsigned way = pick(p->c, 0, 99);
    if (way < 40 && do_schedule(p))
        return;
    if (way < 60 && strike_overrun(p))
        return;
    if (way < 70 && do_signal(p))
        return;
    if (way < 80)
        call(p, 'R', pick(p->c, 1, 2), 0);
    else
        call(p, 'K', 0, 0);
}

/* The others take their time, so that flags come while they are active. */
static void overruns_other(player *p)
{
    unsigned way = pick(p->c, 0, 99), task = p->e.running;
    if (way < 25) {
        call(p, 'F', 0, 0);
        if (likely(p->c, 50))
            ask_overruns(p, task);
    } else if (way < 55) {
        sleep_a_while(p);
    } else if (way < 63 && do_wait_flag(p)) {
        return;
    } else if (way < 70 && do_signal(p)) {
        return;
    } else {
        call(p, 'K', 0, 0);
    }
}

void gen_overruns_script(chance *c, const rig *r, unsigned lines, text *out)
{
    static player p;
    play(&p, c, r, out);
    for (unsigned i = 0; i < lines; i++) {
        if (likely(c, 20))
            ask_overruns(&p, overrun_task(&p));
        else if (p.e.running == 0)
            call(&p, 'K', 0, 0);
        else if (p.e.running == 1)
            overruns_first(&p);
        else
            overruns_other(&p);
    }
}

/* ---- Tasks that wait for each other ---- */

/* The links that the inactive task needs to start, 0 also for one that cannot. */
static unsigned links_needed(const exec *e, unsigned task)
{
    for (unsigned links = 0; links <= LINKS_MAX; links++)
        if (lowest_blocking(e, task, links) == CAN_START)
            return links;
    return 0;
}

/* Asks for the task that needs the most links, with just as many or one less; false if none needs any. */
static bool ask_at_edge(player *p)
{
    unsigned found = 0, most = 0;
    for (unsigned t = 1; t <= p->e.rig.tasks; t++) {
        unsigned links = p->e.state[t] == INACTIVE ? links_needed(&p->e, t) : 0;
        if (links > most) {
            most = links;
            found = t;
        }
    }
    if (found != 0)
        text_print(p->out, "Y\t%u\t%u\n", found, likely(p->c, 70) ? most : most - 1);
    return found != 0;
}

/* The panel's Y, mostly of an inactive task, if there is one. */
static void ask_why(player *p)
{
    if (likely(p->c, 30) && ask_at_edge(p))
        return;
    unsigned found = pick(p->c, 1, p->e.rig.tasks), seen = 0;
    bool any = likely(p->c, 10);
    for (unsigned t = 1; t <= p->e.rig.tasks && !any; t++)
        if (p->e.state[t] == INACTIVE && pick(p->c, 0, seen++) == 0)
            found = t;
    text_print(p->out, "Y\t%u\t%u\n", found, gen_links_asked(p->c));
}

/* Task 1 of a links rig has the others ready, in any order; now and then it signals, strikes one, or lets time go. */
static void links_first(player *p)
{
    unsigned way = pick(p->c, 0, 99);
    if (way < 60 && do_schedule(p))
        return;
    if (way < 66 && do_signal(p))
        return;
    if (way < 75 && (likely(p->c, 60) ? do_cancel(p) : do_terminate(p)))
        return;
    if (way < 85)
        call(p, 'R', pick(p->c, 1, 3), 0);
    else
        call(p, 'K', 0, 0);
}

/* The others end, to be inactive again, or wait, to be active while somebody asks about those that wait for them. */
static void links_other(player *p)
{
    unsigned way = pick(p->c, 0, 99);
    if (way < 35)
        call(p, 'F', 0, 0);
    else if (way < 75)
        sleep_a_while(p);
    else if (way < 82 && do_wait_flag(p))
        return;
    else if (way < 86 && do_signal(p))
        return;
    else
        call(p, 'K', 0, 0);
}

void gen_links_script(chance *c, const rig *r, unsigned lines, text *out)
{
    static player p;
    play(&p, c, r, out);
    for (unsigned i = 0; i < lines; i++) {
        if (likely(c, 40))
            ask_why(&p);
        else if (p.e.running == 0)
            call(&p, 'K', 0, 0);
        else if (p.e.running == 1)
            links_first(&p);
        else
            links_other(&p);
    }
}

/* Whether the number is so near its stop that one or two ticks more bring it there. */
static bool is_near_stop(const player *p, unsigned task)
{
    return p->e.overruns[task] < OVERRUNS_MAX && p->e.overruns[task] + 3u * CYCLE_FLAGS_MAX >= OVERRUNS_MAX;
}

static void ask_both(player *p)
{
    ask_overruns(p, 2);
    ask_overruns(p, 3);
}

void gen_stop_script(chance *c, const rig *r, text *out)
{
    static player p;
    enum { STAYS = 40 }; /* ticks past both stops */
    play(&p, c, r, out);
    call(&p, 'S', 2, 0);
    call(&p, 'S', 3, 0);
    for (unsigned past = 0; past < STAYS; past += p.e.overruns[3] == OVERRUNS_MAX) {
        call(&p, 'K', 0, 0);
        if (past > 0 || is_near_stop(&p, 2) || is_near_stop(&p, 3) || likely(c, 1))
            ask_both(&p);
    }
    call(&p, 'F', 0, 0); /* task 2, which the flags have start once more: it goes on from its stop */
    ask_both(&p);
    call(&p, 'R', COUNT_MAX / 2, 0);
    call(&p, 'R', COUNT_MAX / 2, 0);
    call(&p, 'X', 2, 0);
    call(&p, 'Z', 3, 0);
    ask_both(&p);
    for (unsigned i = 0; i < 3 && p.e.running != 1; i++)
        call(&p, 'R', COUNT_MAX / 2, 0);
    call(&p, 'S', 2, 0);
    ask_both(&p);
    for (unsigned i = 0; i < 4; i++) {
        call(&p, 'K', 0, 0);
        ask_both(&p);
    }
}

void gen_growth_script(chance *c, const rig *r, unsigned lines, text *out)
{
    static player p;
    unsigned flag = 0;
    play(&p, c, r, out);
    for (unsigned t = 2; t <= r->tasks; t++) {
        call(&p, 'S', t, 0);
        if (p.e.running == t && t % 3 == 1)
            call(&p, 'R', COUNT_MAX - t, 0);
        else if (p.e.running == t)
            call(&p, 'N', NEVER_SIGNALLED, 1);
    }
    for (unsigned i = 0; i < lines; i += 5) {
        flag = flag % SIGNALLED_MAX + 1;
        call(&p, 'K', 0, 0);
        call(&p, 'G', flag, 1);
        call(&p, 'Q', flag, 0);
        call(&p, 'G', flag, 0);
        call(&p, 'R', 0, 0);
    }
}

/* ---- Entries ---- */

static void entries_line(player *p)
{
    static entries_area area;
    const rig *r = &p->e.rig;
    chance *c = p->c;
    char ignored[OUTPUT_LINE_MAX];
    answer a;
    entries_call line = {.verb = "WDJJ"[pick(c, 0, 3)]};
    line.row = likely(c, 85) && r->rows > 0 ? pick(c, 1, r->rows) : pick(c, 0, r->rows + 2u);
    line.area = BLOCK_WORDS * r->rows;
    line.words = line.row >= 1 && line.row <= r->rows ? r->row[line.row - 1].words : 1;
    if (likely(c, 12))
        line.area += likely(c, 50) ? 1u : line.area > 0 ? -1u : 33u;
    if (likely(c, 12))
        line.words += likely(c, 50) ? 1u : -1u;
    if (line.verb == 'J') {
        line.words = likely(c, 70) ? pick(c, TICK_WORDS, TICK_WORDS + 20) : pick(c, 0, TICK_WORDS - 1);
        text_print(p->out, "J\t%u\n", (unsigned)line.words);
    } else if (line.verb == 'D') {
        text_print(p->out, "D\t%u\t%u\t%u\n", (unsigned)line.row, (unsigned)line.area, (unsigned)line.words);
    } else {
        line.first = pick(c, 0, 70000);
        text_print(p->out, "W\t%u\t%u\t%u\t%u\n", (unsigned)line.row, (unsigned)line.area, (unsigned)line.words,
                   (unsigned)line.first);
    }
    (void)entries_run(&p->e, &area, &line, &a, ignored);
}

void gen_entries_script(chance *c, const rig *r, unsigned lines, text *out)
{
    static player p;
    const script_form form = {.lines = lines, .wild = 3, .damaged = 2};
    play(&p, c, r, out);
    for (unsigned i = 0; i < lines && p.idle < IDLE_MAX; i++) {
        if (likely(c, 50))
            entries_line(&p);
        else
            step(&p, &form);
    }
}
