#include "gen.h"

enum input_kind {
    SMALL,
    MEDIUM,
    FULL,
    LONG_SCRIPT,
    RESTARTS,
    FAMILIES,
    RACES,
    SLEEPERS,
    LISTENERS,
    RUNS_AGAIN,
    OVERRUNS,
    LINKS,
    STOPS,
    SERVES_79,
    SCRIPT_DAMAGED,
    LINE_SHAPE,
    LINE_SIZE,
    LINE_ORDER,
    FUZZED,
    FILE_LENGTH,
    NO_RUN,
    RULE_BROKEN /* and, added to it, the rule */
};

/* One round of kinds; a run of 2,500 inputs has 50 rounds. */
static const uint8_t kinds[] = {
    SMALL, SMALL, SMALL, RUNS_AGAIN, RUNS_AGAIN, MEDIUM, MEDIUM, FULL, FULL, LONG_SCRIPT,
    RESTARTS, RESTARTS, FAMILIES, FAMILIES, RACES, RACES, RACES, SERVES_79, SCRIPT_DAMAGED,
    LINE_SHAPE, LINE_SHAPE, LINE_SIZE, LINE_SIZE, LINE_ORDER, LINE_ORDER,
    FUZZED, FUZZED, FUZZED, FUZZED, FILE_LENGTH, NO_RUN,
    RULE_BROKEN + RULE_TASK_ABOVE, RULE_BROKEN + RULE_FLAG_ABOVE, RULE_BROKEN + RULE_A_LINES,
    RULE_BROKEN + RULE_B_LINES, RULE_BROKEN + RULE_T_MISSING, RULE_BROKEN + RULE_FIRST_CONTROLLER,
    RULE_BROKEN + RULE_CONTROLLER, RULE_BROKEN + RULE_CYCLE_CROWDED, RULE_BROKEN + RULE_CYCLE_CROWDED,
    RULE_BROKEN + RULE_ACTIVATION_SHARED, RULE_BROKEN + RULE_ACTIVATION_MINOR,
    RULE_BROKEN + RULE_A_WITHOUT_C, RULE_BROKEN + RULE_C_WITHOUT_A, RULE_BROKEN + RULE_MINOR_NOT_ALONE,
    RULE_BROKEN + RULE_MINOR_LATCHED, RULE_BROKEN + RULE_MINOR_DESIRES_OFF, RULE_BROKEN + RULE_SAME_ENDS,
    LISTENERS, LISTENERS};

/* One round of kinds for the panel: right rigs, most of them with many tasks that wait on time, and two that are refused. */
static const uint8_t panel_kinds[] = {
    SLEEPERS, SMALL, SLEEPERS, FAMILIES, SLEEPERS, SLEEPERS, MEDIUM, SLEEPERS, RESTARTS, SLEEPERS,
    SLEEPERS, LISTENERS, SLEEPERS, RACES, RUNS_AGAIN, SLEEPERS, SCRIPT_DAMAGED, SLEEPERS, FUZZED, LINE_ORDER,
    OVERRUNS, OVERRUNS, OVERRUNS, OVERRUNS, LINKS, LINKS, LINKS, LINKS, LINKS, LINKS};

/* One input in so many for the panel goes up to the stop of overruns; it is long. */
enum { ROUND = sizeof kinds, PANEL_ROUND = sizeof panel_kinds, STOPS_EVERY = 500, STOPS_AT = 7 };

/* Of a hundred lines, those before which questions are woven in: for the runner, for the panel, and of harmed records. */
typedef struct {
    uint64_t salt; /* numbers of its own for each question, so that the rest of an input is the same with or without it */
    unsigned runner, panel, harmed;
    line_adder *asks, *asks_harmed;
} question;

static const question questions[] = {
    {UINT64_C(0x7765617665733131), 3, 40, 6, add_question, add_harmed_question},
    {UINT64_C(0x6f76657272756e73), 1, 12, 6, add_overruns_question, add_harmed_overruns_question},
    {UINT64_C(0x7768796e6f743133), 1, 12, 18, add_why_question, add_harmed_why_question}};

enum { QUESTIONS = sizeof questions / sizeof questions[0] };

void gen_add_run(text *out)
{
    text_print(out, "RUN\n");
}

static void right_input(chance *c, const rig *r, const script_form *form, text *out)
{
    gen_print_rig(r, out);
    gen_add_run(out);
    gen_script(c, r, form, out);
}

typedef struct {
    rig_size size;
    unsigned least, most; /* script lines */
} sized;

static void sized_input(chance *c, const sized *s, text *out)
{
    static rig r;
    unsigned lines = pick(c, s->least, s->most);
    script_form form = {.lines = lines, .wild = pick(c, 2, 12), .damaged = likely(c, 30) ? 2 : 0};
    gen_rig(c, s->size, &r);
    right_input(c, &r, &form, out);
}

static void small_input(chance *c, text *out)
{
    sized_input(c, &(sized){SIZE_SMALL, 50, 300}, out);
}

static void medium_input(chance *c, text *out)
{
    sized_input(c, &(sized){SIZE_MEDIUM, 100, 500}, out);
}

static void full_input(chance *c, text *out)
{
    sized_input(c, &(sized){SIZE_FULL, 200, 600}, out);
}

static void long_script_input(chance *c, text *out)
{
    sized_input(c, &(sized){likely(c, 80) ? SIZE_SMALL : SIZE_MEDIUM, 6000, 6000}, out);
}

/* A refused rig prints its line and ends, whatever follows. */
static void end_refused(chance *c, text *out)
{
    if (likely(c, 60)) {
        gen_add_run(out);
        text_print(out, "K\nF\n");
    }
}

static script_form purpose_form(chance *c, unsigned damaged)
{
    return (script_form){.lines = pick(c, 150, 350), .wild = 3, .damaged = damaged};
}

static void restarts_input(chance *c, text *out)
{
    static rig r;
    script_form form = purpose_form(c, 0);
    gen_restarting_rig(c, &r);
    right_input(c, &r, &form, out);
}

static void families_input(chance *c, text *out)
{
    static rig r;
    script_form form = purpose_form(c, 0);
    gen_family_rig(c, &r);
    right_input(c, &r, &form, out);
}

static void damaged_script_input(chance *c, text *out)
{
    static rig r;
    script_form form = purpose_form(c, 40);
    gen_rig(c, likely(c, 70) ? SIZE_SMALL : SIZE_MEDIUM, &r);
    right_input(c, &r, &form, out);
}

/* A rig made for one purpose, and a script of so many lines that is played on it. */
typedef struct {
    void (*make)(chance *c, rig *out);
    void (*play)(chance *c, const rig *r, unsigned lines, text *out);
    unsigned least, most;
} purpose;

static void played_input(chance *c, const purpose *p, text *out)
{
    static rig r;
    p->make(c, &r);
    gen_print_rig(&r, out);
    gen_add_run(out);
    p->play(c, &r, pick(c, p->least, p->most), out);
}

static void race_input(chance *c, text *out)
{
    played_input(c, &(purpose){gen_race_rig, gen_race_script, 150, 350}, out);
}

static void sleepers_input(chance *c, text *out)
{
    played_input(c, &(purpose){gen_sleepers_rig, gen_sleepers_script, 40, 140}, out);
}

static void listeners_input(chance *c, text *out)
{
    played_input(c, &(purpose){gen_listeners_rig, gen_listeners_script, 100, 250}, out);
}

static void again_input(chance *c, text *out)
{
    played_input(c, &(purpose){gen_again_rig, gen_again_script, 100, 250}, out);
}

static void overruns_input(chance *c, text *out)
{
    played_input(c, &(purpose){gen_overruns_rig, gen_overruns_script, 100, 250}, out);
}

static void links_input(chance *c, text *out)
{
    played_input(c, &(purpose){gen_links_rig, gen_links_script, 100, 250}, out);
}

static void stops_input(chance *c, text *out)
{
    static rig r;
    gen_stop_rig(c, &r);
    gen_print_rig(&r, out);
    gen_add_run(out);
    gen_stop_script(c, &r, out);
}

static void full_serving_input(chance *c, text *out)
{
    static rig r;
    gen_full_serving_rig(c, &r);
    gen_print_rig(&r, out);
    gen_add_run(out);
    gen_full_serving_script(c, &r, out);
}

static void file_length_input(chance *c, text *out)
{
    if (likely(c, 10)) { /* an empty rig */
        end_refused(c, out);
        return;
    }
    gen_long_rig(c, out);
    end_refused(c, out);
}

static void no_run_input(chance *c, text *out)
{
    static rig r;
    gen_rig(c, SIZE_SMALL, &r);
    gen_print_rig(&r, out);
    if (likely(c, 50))
        text_print(out, likely(c, 50) ? "RUN" : "RUN\r\nK\n");
}

static void bad_line_input(chance *c, enum refusal refusal, text *out)
{
    gen_bad_line_rig(c, refusal, out);
    end_refused(c, out);
}

static void shape_input(chance *c, text *out)
{
    bad_line_input(c, BAD_SHAPE, out);
}

static void size_input(chance *c, text *out)
{
    bad_line_input(c, BAD_SIZE, out);
}

static void order_input(chance *c, text *out)
{
    bad_line_input(c, BAD_ORDER, out);
}

static void fuzzed_input(chance *c, text *out)
{
    gen_fuzzed_rig(c, out);
    end_refused(c, out);
}

static void broken_rule_input(chance *c, rig_rule rule, text *out)
{
    gen_bad_rule_rig(c, rule, out);
    end_refused(c, out);
}

/* ---- Kinds of inputs ---- */

static const struct {
    const char *name;
    void (*make)(chance *c, text *out);
} makers[RULE_BROKEN] = {
    [SMALL] = {"small rig", small_input},
    [MEDIUM] = {"medium rig", medium_input},
    [FULL] = {"full-size rig", full_input},
    [LONG_SCRIPT] = {"long script", long_script_input},
    [RESTARTS] = {"restarting tasks", restarts_input},
    [FAMILIES] = {"families", families_input},
    [RACES] = {"races", race_input},
    [SLEEPERS] = {"sleepers", sleepers_input},
    [LISTENERS] = {"listeners", listeners_input},
    [RUNS_AGAIN] = {"tasks that run again", again_input},
    [OVERRUNS] = {"overruns", overruns_input},
    [LINKS] = {"tasks that wait for each other", links_input},
    [STOPS] = {"overruns up to their stop", stops_input},
    [SERVES_79] = {"79 served", full_serving_input},
    [SCRIPT_DAMAGED] = {"damaged script", damaged_script_input},
    [LINE_SHAPE] = {"line of wrong shape", shape_input},
    [LINE_SIZE] = {"number outside its size", size_input},
    [LINE_ORDER] = {"line out of order", order_input},
    [FUZZED] = {"fuzzed rig", fuzzed_input},
    [FILE_LENGTH] = {"file length", file_length_input},
    [NO_RUN] = {"no RUN line", no_run_input}};

unsigned gen_round(void)
{
    return ROUND;
}

const char *gen_kind_name(uint64_t index)
{
    unsigned kind = kinds[index % ROUND];
    return kind >= RULE_BROKEN ? rig_rule_text[kind - RULE_BROKEN] : makers[kind].name;
}

static unsigned panel_kind(uint64_t index)
{
    return index % STOPS_EVERY == STOPS_AT ? STOPS : panel_kinds[index % PANEL_ROUND];
}

const char *gen_panel_name(uint64_t index)
{
    return makers[panel_kind(index)].name;
}

/* Puts a question between the lines of the input that begins at `start` of `out`. */
static void weave(const question *q, uint64_t seed, uint64_t index, unsigned percent, line_adder *add, size_t start, text *out)
{
    chance c = chance_of(seed ^ q->salt, index);
    gen_weave(&c, percent, add, start, out);
}

void gen_input(uint64_t seed, uint64_t index, text *out)
{
    chance c = chance_of(seed, index);
    unsigned kind = kinds[index % ROUND];
    size_t start = out->length;
    if (kind >= RULE_BROKEN)
        broken_rule_input(&c, (rig_rule)(kind - RULE_BROKEN), out);
    else
        makers[kind].make(&c, out);
    for (const question *q = questions; q < questions + QUESTIONS; q++)
        weave(q, seed, index, q->runner, q->asks, start, out);
}

void gen_panel_input(uint64_t seed, uint64_t index, text *out)
{
    uint64_t own = seed ^ UINT64_C(0x70616e656c733131);
    chance c = chance_of(own, index);
    size_t start = out->length;
    makers[panel_kind(index)].make(&c, out);
    if (panel_kind(index) == STOPS) /* long enough as it is, and it asks where it matters */
        return;
    for (const question *q = questions; q < questions + QUESTIONS; q++)
        weave(q, own, index, q->panel, q->asks, start, out);
}

void gen_entries_input(uint64_t seed, uint64_t index, text *out)
{
    static rig r;
    uint64_t own = seed ^ UINT64_C(0x656e747269657331);
    chance c = chance_of(own, index);
    size_t start = out->length;
    if (index % 5 == 4)
        gen_overruns_rig(&c, &r);
    else if (index % 5 >= 2)
        gen_links_rig(&c, &r);
    else
        gen_rig(&c, (rig_size)(index % 3), &r);
    gen_print_rig(&r, out);
    gen_add_run(out);
    gen_entries_script(&c, &r, pick(&c, 200, 400), out);
    for (const question *q = questions; q < questions + QUESTIONS; q++)
        weave(q, own, index, q->harmed, q->asks_harmed, start, out);
}

/* The first full-size rig of the seed that has all 1,024 A lines and all 64 rows. */
static void fullest_rig(uint64_t seed, rig *r)
{
    uint64_t index = 0;
    do {
        chance c = chance_of(seed, index++);
        gen_rig(&c, SIZE_FULL, r);
    } while (r->a_lines < A_LINES_MAX || r->rows < ROWS_MAX || r->cycle[0].flags < CYCLE_FLAGS_MAX);
}

void gen_ticks_load(uint64_t seed, unsigned ticks, text *out)
{
    static rig r;
    fullest_rig(seed, &r);
    gen_print_rig(&r, out);
    gen_add_run(out);
    while (ticks-- > 0)
        text_print(out, "K\n");
}

void gen_mixed_load(uint64_t seed, unsigned lines, text *out)
{
    static rig r;
    chance c = chance_of(seed, 0);
    gen_race_rig(&c, &r);
    gen_print_rig(&r, out);
    gen_add_run(out);
    gen_race_script(&c, &r, lines, out);
}

void gen_growth_load(uint64_t seed, unsigned lines, const growth *size, text *out)
{
    static rig r;
    chance c = chance_of(seed, 0);
    gen_growth_rig(&c, size, &r);
    gen_print_rig(&r, out);
    gen_add_run(out);
    gen_growth_script(&c, &r, lines, out);
}
