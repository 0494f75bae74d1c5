/* The generator and the comparison's own counting. */
#include <stdio.h>
#include <string.h>

#include "check.h"
#include "gen.h"
#include "numbers.h"
#include "tally.h"

static void same_seed_same_input(void)
{
    text a = {NULL, 0, 0}, b = {NULL, 0, 0};
    for (uint64_t i = 0; i < 2 * gen_round(); i++) {
        text_clear(&a);
        text_clear(&b);
        gen_input(5, i, &a);
        gen_input(5, i, &b);
        CHECK(a.length == b.length && (a.length == 0 || memcmp(a.bytes, b.bytes, a.length) == 0));
    }
    text_free(&a);
    text_free(&b);
}

static void right_rigs_are_right(void)
{
    static void (*const makers[])(chance *c, rig *out) = {
        gen_restarting_rig, gen_family_rig, gen_race_rig,     gen_full_serving_rig, gen_sleepers_rig,
        gen_listeners_rig,  gen_again_rig,  gen_overruns_rig, gen_stop_rig,         gen_links_rig};
    enum { SIZES = SIZE_FULL + 1, KINDS = SIZES + sizeof makers / sizeof makers[0] };
    static rig r;
    for (unsigned i = 0; i < 60 * KINDS; i++) {
        chance c = chance_of(6, i);
        if (i % KINDS < SIZES)
            gen_rig(&c, (rig_size)(i % KINDS), &r);
        else
            makers[i % KINDS - SIZES](&c, &r);
        CHECK_IS(rig_broken_rule(&r), RULE_KEPT);
    }
}

/* A growth rig has just the size asked for, and its script is accepted throughout. */
static void growth_rigs_have_their_size(void)
{
    static const growth sizes[] = {{2, 0, 0}, {16, 256, 16}, {16, 1024, 64}, {64, 256, 64}, {64, 1024, 64}, {64, 1024, 0}};
    text in = {NULL, 0, 0}, out = {NULL, 0, 0};
    static rig r;
    for (unsigned i = 0; i < sizeof sizes / sizeof sizes[0]; i++) {
        static tally t;
        chance c = chance_of(8, i);
        gen_growth_rig(&c, &sizes[i], &r);
        CHECK_IS(rig_broken_rule(&r), RULE_KEPT);
        CHECK_IS(r.tasks, sizes[i].tasks);
        CHECK_IS(r.a_lines, sizes[i].a_lines);
        CHECK_IS(r.rows, sizes[i].rows);
        text_clear(&in);
        gen_growth_load(8, 100, &sizes[i], &in);
        memset(&t, 0, sizeof t);
        tally_run(&t, &in, RUNNER_LINES, &out);
        CHECK_IS(t.call['K'][ACCEPTED], 20);
        CHECK_IS(t.call['G'][ACCEPTED], 40);
        CHECK_IS(t.call['S'][ACCEPTED], sizes[i].tasks - 1);
    }
    text_free(&in);
    text_free(&out);
}

/* A kind of generated inputs, and the mode of the program that they are for. */
typedef struct {
    void (*make)(uint64_t seed, uint64_t index, text *out);
    line_set taken;
    enum run_mode mode;
} input_kind;

/* For each of so many inputs the program prints what the comparison expects. */
static void check_rounds(const input_kind *kind, uint64_t inputs, tally *t)
{
    text in = {NULL, 0, 0}, want = {NULL, 0, 0}, got = {NULL, 0, 0};
    unsigned different = 0;
    for (uint64_t i = 0; i < inputs; i++) {
        text_clear(&in);
        text_clear(&want);
        text_clear(&got);
        kind->make(7, i, &in);
        tally_run(t, &in, kind->taken, &want);
        run_bytes(kind->mode, in.bytes, in.length, &got);
        different += got.length != want.length || memcmp(got.bytes, want.bytes, got.length) != 0;
    }
    CHECK_IS(different, 0);
    text_free(&in);
    text_free(&want);
    text_free(&got);
}

/* Each rule is met by the input made for it. */
static void rounds_of_inputs(void)
{
    static tally t;
    check_rounds(&(input_kind){gen_input, RUNNER_LINES, MODE_RUN}, 6 * gen_round(), &t);
    for (unsigned rule = RULE_TASK_ABOVE; rule < RIG_RULE_COUNT; rule++)
        CHECK(t.rule[rule] > 0);
    for (unsigned verb = 0; verb < 128; verb++)
        CHECK_IS(t.call[verb][NOT_SOUND], 0); /* 12 never follows from an accepted start */
    CHECK_IS(t.most_served, SERVED_MAX);
    CHECK(t.panel.off > 0 && t.panel.counts == 0);
    CHECK(t.overruns.off > 0 && t.overruns.zero + t.overruns.above_zero == 0);
    CHECK(t.why.off > 0 && t.call['Y'][ACCEPTED] == 0);
    CHECK_IS(tally_heard_missing(&t.heard, 1, stdout), 0);
    CHECK_IS(tally_again_missing(&t.again, 1, stdout), 0);
}

/* Every place of a room, and all else, is hit. */
static void rounds_of_streams(void)
{
    static tally t;
    check_rounds(&(input_kind){gen_stream_input, RUNNER_LINES, MODE_RUN}, 120, &t);
    CHECK_IS(t.stream.places, USUAL_ROOM);
    CHECK(t.stream.tails > 0 && t.stream.below > 0 && t.stream.above > 0);
    CHECK(t.stream.unfinished > 0 && t.stream.far_faults > 0);
}

static void rounds_for_the_panel(void)
{
    static tally t;
    check_rounds(&(input_kind){gen_panel_input, PANEL_LINES, MODE_PANEL}, 60, &t);
    CHECK_IS(t.call['V'][ACCEPTED], t.panel.counts + t.panel.nones);
    CHECK_IS(t.call['V'][NOT_SOUND] + t.panel.off, 0);
    CHECK(t.panel.counts > 0 && t.panel.nones > 0 && t.panel.nobody_runs > 0 && t.panel.fields > 0);
    CHECK(t.panel.several > 0 && t.panel.overtaken > 0 && t.panel.struck > 0);
    CHECK(t.heard.asked_next > 0);
    CHECK_IS(t.call['O'][ACCEPTED], t.overruns.zero + t.overruns.above_zero);
    CHECK_IS(t.call['O'][NO_SUCH], t.overruns.task_0 + t.overruns.too_high);
    CHECK_IS(t.call['O'][NOT_SOUND] + t.overruns.off, 0);
    CHECK_IS(tally_overruns_missing(&t.overruns, 1, stdout), 0);
    CHECK_IS(t.call['Y'][NOT_SOUND] + t.why.off, 0);
    CHECK_IS(t.call['Y'][WRONG_STATE], t.why.uninvoked + t.why.waiting + t.why.dispatchable);
    CHECK_IS(t.call['Y'][BAD_FIELD], t.why.links_4 + t.why.links_above);
    CHECK_IS(tally_why_missing(&t.why, 1, stdout), 0);
}

static void rounds_of_entries(void)
{
    static tally t;
    check_rounds(&(input_kind){gen_entries_input, ENTRIES_LINES, MODE_ENTRIES}, 12, &t);
    CHECK(t.call['W'][ACCEPTED] > 0 && t.call['J'][ACCEPTED] > 0);
    for (unsigned harm = HARM_NONE; harm < HARMS; harm++)
        CHECK(t.panel.harmed[harm] > 0);
    CHECK_IS(tally_heard_missing_entries(&t.heard, 1, stdout), 0);
    CHECK_IS(tally_overruns_missing_harmed(&t.overruns, 1, stdout), 0);
    CHECK_IS(tally_why_missing_harmed(&t.why, 1, stdout), 0);
}

/* Whether the program prints for the input what the comparison expects. */
static bool is_sheet(const text *in, wiring_form form)
{
    text want = {NULL, 0, 0}, got = {NULL, 0, 0};
    tally_wiring_output(in, form, &want);
    run_bytes(form == WIRING_TABLE ? MODE_WIRING_TABLE : MODE_WIRING, in->bytes, in->length, &got);
    bool same = got.length == want.length && (got.length == 0 || memcmp(got.bytes, want.bytes, got.length) == 0);
    text_free(&want);
    text_free(&got);
    return same;
}

static void rounds_of_sheets(void)
{
    static wiring_tally t;
    text in = {NULL, 0, 0};
    for (uint64_t i = 0; i < 75; i++) {
        text_clear(&in);
        gen_wiring_input(7, i, &in);
        tally_wiring_input(&t, &in);
        CHECK(is_sheet(&in, WIRING_LINES) && is_sheet(&in, WIRING_TABLE));
    }
    CHECK_IS(tally_wiring_missing(&t, 1, stdout), 0);
    text_free(&in);
}

/* Where nothing was hit, everything is missed: a comparison that never meets it does not pass. */
static void unhit_counters_are_missed(void)
{
    static const heard_tally none;
    static const again_tally never, left = {.left = 1};
    static const overruns_tally untold;
    static const why_tally unasked;
    static const wiring_tally unwired;
    FILE *said = tmpfile();
    CHECK(said != NULL);
    if (said == NULL)
        return;
    CHECK_IS(tally_heard_missing(&none, 1, said), 13);
    CHECK_IS(tally_heard_missing_asked(&none, 1, said), 1);
    CHECK_IS(tally_heard_missing_entries(&none, 1, said), 2);
    CHECK_IS(tally_again_missing(&never, 1, said), 18);
    CHECK_IS(tally_again_missing(&left, 0, said), 1);
    CHECK_IS(tally_overruns_missing(&untold, 1, said), 14);
    CHECK_IS(tally_overruns_missing_off(&untold, 1, said), 1);
    CHECK_IS(tally_overruns_missing_harmed(&untold, 1, said), 7);
    CHECK_IS(tally_why_missing(&unasked, 1, said), 38);
    CHECK_IS(tally_why_missing_off(&unasked, 1, said), 1);
    CHECK_IS(tally_why_missing_harmed(&unasked, 1, said), 10);
    CHECK_IS(tally_wiring_missing(&unwired, 1, said), 24);
    fclose(said);
}

static bool is_number(const char *word)
{
    uint64_t number;
    return number_of(word, 1, 2500, &number);
}

/* A number of a command line is the whole word, within its bounds. */
static void numbers_are_strict(void)
{
    uint64_t number = 4711;
    CHECK(number_of("2500", 1, 2500, &number) && number == 2500);
    CHECK(number_of("18446744073709551615", 0, UINT64_MAX, &number) && number == UINT64_MAX);
    CHECK(!number_of("18446744073709551616", 0, UINT64_MAX, &number) && number == UINT64_MAX);
    CHECK(!number_of("184467440737095516150", 0, UINT64_MAX, &number));
    CHECK(is_number("1") && !is_number("0") && !is_number("2501"));
    CHECK(!is_number("") && !is_number("x") && !is_number("1x") && !is_number("2,5") && !is_number("01"));
    CHECK(!is_number("-1") && !is_number("+1") && !is_number(" 1") && !is_number("1 ") && !is_number("0x1"));
}

void gen_tests(void)
{
    RUN(numbers_are_strict);
    RUN(unhit_counters_are_missed);
    RUN(rounds_of_streams);
    RUN(rounds_for_the_panel);
    RUN(rounds_of_entries);
    RUN(rounds_of_sheets);
    RUN(same_seed_same_input);
    RUN(right_rigs_are_right);
    RUN(growth_rigs_have_their_size);
    RUN(rounds_of_inputs);
}
