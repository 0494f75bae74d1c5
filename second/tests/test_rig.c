#include <stdlib.h>
#include <string.h>

#include "check.h"
#include "gen.h"
#include "rules.h"

#define MORNING \
    "RIG 1 3 4 1\nT 1 0 10 0 0\nT 2 1 20 0 3\nT 3 1 20 0 0\nC 2 0 0 1\nC 3 0 1 1\n" \
    "A 2 0 1\nA 3 0 3\nM 4 1\nB 1 5 7 2 32 2 0\n"

static rig_verdict read_spaced(const char *spaced, rig *r)
{
    text file = {NULL, 0, 0};
    tabbed(spaced, &file);
    text_add(&file, "", 1); /* so that an empty text has bytes too */
    rig_verdict v = rig_read(file.bytes, file.length - 1, r);
    if (v.refusal != ACCEPTED)
        CHECK(all_zero(r, sizeof *r));
    text_free(&file);
    return v;
}

/* A file that is refused with that number at that line; by 4 also for that rule. */
static void refused(const char *spaced, unsigned refusal, unsigned line, rig_rule rule)
{
    static rig r;
    rig_verdict v = read_spaced(spaced, &r);
    if (v.refusal != refusal || v.line != line || v.rule != rule) {
        CHECK_IS(v.refusal, refusal);
        CHECK_IS(v.line, line);
        CHECK_IS(v.rule, rule);
        check_that(false, spaced, __FILE__, __LINE__);
    }
}

static void morning_is_read(void)
{
    static rig r;
    CHECK_IS(read_spaced(MORNING, &r).refusal, ACCEPTED);
    CHECK_IS(r.tasks, 3);
    CHECK_IS(r.flags, 4);
    CHECK_IS(r.master, 1);
    CHECK_IS(r.task[2].activation, 3);
    CHECK_IS(r.conditions[2].present, 1);
    CHECK_IS(r.conditions[2].latched, 0);
    CHECK_IS(r.conditions[3].latched, 1);
    CHECK_IS(r.a_lines, 2);
    CHECK_IS(r.cycle[4].flags, 1);
    CHECK_IS(r.row[0].words, 32);
}

#define R1 "RIG 1 1 1 0\n"
#define T1 "T 1 0 0 0 0\n"

/* Files with a faulty line. */
static const struct {
    const char *spaced;
    unsigned refusal, line;
} faulty[] = {
    {"", 1, 1},
    {"\n", 1, 1},
    {"RIG 1 1 1 0", 1, 1},
    {R1 "T 1 0 0 0 0", 1, 2},
    {R1 "\n", 1, 2},
    {R1 "T 1 0 0 0\n", 1, 2},
    {R1 "T 1 0 0 0 0 0\n", 1, 2},
    {R1 "T 1 0 0 0 \n", 1, 2},
    {R1 "T  1 0 0 0 0\n", 1, 2},
    {R1 "T 01 0 0 0 0\n", 1, 2},
    {R1 "T 1 00 0 0 0\n", 1, 2},
    {R1 "T 1 -1 0 0 0\n", 1, 2},
    {R1 "T 1 +1 0 0 0\n", 1, 2},
    {R1 "T 1 0 0 0 0\r\n", 1, 2},
    {R1 "t 1 0 0 0 0\n", 1, 2},
    {R1 "TT 1 0 0 0 0\n", 1, 2},
    {R1 "T\n", 1, 2},
    {R1 "RUN\r\n", 1, 2},
    {R1 "T 999 0 0 0 x\n", 1, 2}, /* shape over the whole line, then sizes */
    {"RIG 2 99 999 99 \n", 1, 1},
    {R1 T1 "M 1 0\n\n", 2, 3}, /* the first faulty line decides */
    {"RIG 0 1 1 0\n", 2, 1},
    {"RIG 2 1 1 0\n", 2, 1},
    {"RIG 1 0 1 0\n", 2, 1},
    {"RIG 1 65 1 0\n", 2, 1},
    {"RIG 1 1 0 0\n", 2, 1},
    {"RIG 1 1 129 0\n", 2, 1},
    {"RIG 1 1 1 32\n", 2, 1},
    {"RIG 4294967297 1 1 0\n", 2, 1}, /* never wrapped */
    {"RIG 18446744073709551617 1 1 0\n", 2, 1},
    {"RIG 1 1 340282366920938463463374607431768211457 0\n", 2, 1},
    {R1 "T 0 0 0 0 0\n", 2, 2},
    {R1 "T 65 0 0 0 0\n", 2, 2},
    {R1 "T 1 65 0 0 0\n", 2, 2},
    {R1 "T 1 0 256 0 0\n", 2, 2},
    {R1 "T 1 0 0 2 0\n", 2, 2},
    {R1 "T 1 0 0 0 129\n", 2, 2},
    {R1 T1 "C 1 16 0 0\n", 2, 3},
    {R1 T1 "C 1 0 2 0\n", 2, 3},
    {R1 T1 "C 1 0 0 2\n", 2, 3},
    {R1 T1 "A 1 0 0\n", 2, 3},
    {R1 T1 "A 1 0 129\n", 2, 3},
    {R1 T1 "M 64 1\n", 2, 3},
    {R1 T1 "B 32 1 1 1 1 1 0\n", 2, 3},
    {R1 T1 "B 0 0 1 1 1 1 0\n", 2, 3},
    {R1 T1 "B 0 31 1 1 1 1 0\n", 2, 3},
    {R1 T1 "B 0 1 1 1 0 1 0\n", 2, 3},
    {R1 T1 "B 0 1 1 1 33 1 0\n", 2, 3},
    {R1 T1 "B 0 1 1 1 1 3 0\n", 2, 3},
    {R1 T1 "B 0 1 1 1 1 128 0\n", 2, 3},
    {R1 T1 "B 0 1 1 1 1 2 2\n", 2, 3},
    {R1 "T 65 0 0 0 0\n" R1, 2, 2},
    {"T 65 0 0 0 0\n", 2, 1}, /* sizes before order */
    {T1 R1, 3, 1},
    {R1 R1, 3, 2},
    {R1 T1 T1, 3, 3},
    {R1 T1 R1, 3, 3},
    {R1 "C 1 0 0 0\n" T1, 3, 3}, /* C straight after RIG is in order, a T after it not */
    {R1 T1 "C 1 1 0 0\nC 1 0 0 0\n", 3, 4},
    {R1 T1 "A 1 1 1\nA 1 0 1\n", 3, 4},
    {R1 T1 "A 1 0 2\nA 1 0 1\n", 3, 4},
    {R1 T1 "A 1 0 1\nA 1 0 1\n", 3, 4},
    {R1 T1 "M 1 1\nM 0 1\n", 3, 4},
    {R1 T1 "M 1 2\nM 1 1\n", 3, 4},
    {R1 T1 "B 0 1 1 1 1 1 0\nM 0 1\n", 3, 4},
};

static void each_refused_by(unsigned refusal)
{
    for (unsigned i = 0; i < sizeof faulty / sizeof faulty[0]; i++)
        if (faulty[i].refusal == refusal)
            refused(faulty[i].spaced, refusal, faulty[i].line, RULE_KEPT);
}

static void refused_by_1(void)
{
    each_refused_by(BAD_SHAPE);
}

static void refused_by_2(void)
{
    each_refused_by(BAD_SIZE);
}

static void refused_by_3(void)
{
    each_refused_by(BAD_ORDER);
}

#define R3 "RIG 1 3 9 0\n"
#define T3 "T 1 0 0 0 1\nT 2 1 0 0 2\nT 3 1 0 0 0\n"

/* Files that break the named rule and no other. */
static const struct {
    const char *spaced;
    rig_rule rule;
} breaking[] = {
    {R3 T3 "T 4 0 0 0 0\n", RULE_TASK_ABOVE},
    {R3 T3 "C 4 0 0 0\nA 4 0 3\n", RULE_TASK_ABOVE},
    {R3 T3 "A 4 0 3\n", RULE_TASK_ABOVE},
    {R3 "T 1 0 0 0 0\nT 2 4 0 0 0\nT 3 1 0 0 0\n", RULE_TASK_ABOVE},
    {R3 "T 1 0 0 0 10\nT 2 1 0 0 0\nT 3 1 0 0 0\n", RULE_FLAG_ABOVE},
    {R3 T3 "C 2 0 0 0\nA 2 0 10\n", RULE_FLAG_ABOVE},
    {R3 T3 "M 0 10\n", RULE_FLAG_ABOVE},
    {R3 "T 1 0 0 0 0\nT 3 1 0 0 0\n", RULE_T_MISSING},
    {R3, RULE_T_MISSING},
    {R3 "T 1 1 0 0 0\nT 2 1 0 0 0\nT 3 1 0 0 0\n", RULE_FIRST_CONTROLLER},
    {R3 "T 1 0 0 0 0\nT 2 0 0 0 0\nT 3 1 0 0 0\n", RULE_CONTROLLER},
    {R3 "T 1 0 0 0 0\nT 2 2 0 0 0\nT 3 1 0 0 0\n", RULE_CONTROLLER},
    {R3 "T 1 0 0 0 0\nT 2 3 0 0 0\nT 3 1 0 0 0\n", RULE_CONTROLLER},
    {"RIG 1 4 1 0\nT 1 0 0 0 0\nT 2 1 0 0 0\nT 3 1 0 0 0\nT 4 2 0 0 0\n", RULE_CONTROLLER},
    {R3 "T 1 0 0 0 1\nT 2 1 0 0 1\nT 3 1 0 0 0\n", RULE_ACTIVATION_SHARED},
    {R3 T3 "M 5 2\n", RULE_ACTIVATION_MINOR},
    {R3 T3 "A 2 0 3\n", RULE_A_WITHOUT_C},
    {R3 T3 "C 2 0 0 0\nA 2 1 3\n", RULE_A_WITHOUT_C},
    {R3 T3 "C 2 0 0 0\n", RULE_C_WITHOUT_A},
    {R3 T3 "C 2 0 0 1\nA 2 0 3\nA 2 0 4\nM 9 3\n", RULE_MINOR_NOT_ALONE},
    {R3 T3 "C 2 0 0 1\nA 2 0 3\nA 2 0 4\nM 9 4\n", RULE_MINOR_NOT_ALONE},
    {R3 T3 "C 2 0 1 1\nA 2 0 3\nM 9 3\n", RULE_MINOR_LATCHED},
    {R3 T3 "C 2 0 0 0\nA 2 0 3\nM 9 3\n", RULE_MINOR_DESIRES_OFF},
    {R3 T3 "B 5 1 5 2 1 1 0\n", RULE_SAME_ENDS},
};

static void refused_by_4(void)
{
    for (unsigned i = 0; i < sizeof breaking / sizeof breaking[0]; i++)
        refused(breaking[i].spaced, BAD_RIG, 0, breaking[i].rule);
}

static void add_lines(text *t, unsigned n, const char *line)
{
    while (n-- > 0)
        text_print(t, "%s", line);
}

/* Limits of lines: one more is a whole-file rule, and a later faulty line decides over it. */
static void limits_of_lines(void)
{
    static rig r;
    text t = {NULL, 0, 0};
    tabbed(R1 T1, &t);
    add_lines(&t, 64, "B\t0\t1\t1\t1\t1\t1\t0\n");
    CHECK_IS(rig_read(t.bytes, t.length, &r).refusal, ACCEPTED);
    add_lines(&t, 1, "B\t0\t1\t1\t1\t1\t1\t0\n");
    CHECK_IS(rig_read(t.bytes, t.length, &r).rule, RULE_B_LINES);
    add_lines(&t, 1, "B\t0\t1\t1\t1\t1\t1\t1\n");
    CHECK_IS(rig_read(t.bytes, t.length, &r).line, 68);
    text_clear(&t);
    tabbed("RIG 1 1 20 0\n" T1, &t);
    for (unsigned f = 1; f <= 15; f++)
        text_print(&t, "M\t0\t%u\n", f);
    CHECK_IS(rig_read(t.bytes, t.length, &r).refusal, ACCEPTED);
    add_lines(&t, 1, "M\t0\t16\n");
    CHECK_IS(rig_read(t.bytes, t.length, &r).rule, RULE_CYCLE_CROWDED);
    CHECK_IS(rig_read(t.bytes, t.length, &r).line, 0);
    add_lines(&t, 1, "M\t0\t16\n");
    CHECK_IS(rig_read(t.bytes, t.length, &r).refusal, BAD_ORDER);
    CHECK_IS(rig_read(t.bytes, t.length, &r).line, 19);
    text_clear(&t);
    tabbed("RIG 1 1 128 0\n" T1, &t);
    for (unsigned p = 0; p < 9; p++)
        text_print(&t, "C\t1\t%u\t1\t0\n", p);
    for (unsigned i = 0; i < 1024; i++)
        text_print(&t, "A\t1\t%u\t%u\n", i / 114, i % 114 + 1);
    CHECK_IS(rig_read(t.bytes, t.length, &r).refusal, ACCEPTED);
    add_lines(&t, 1, "A\t1\t8\t128\n");
    CHECK_IS(rig_read(t.bytes, t.length, &r).rule, RULE_A_LINES);
    add_lines(&t, 1, "A\t1\t8\t0\n");
    CHECK_IS(rig_read(t.bytes, t.length, &r).refusal, BAD_SIZE);
    text_free(&t);
}

static void too_long_is_tested_first(void)
{
    static rig r;
    uint8_t *bytes = calloc(RIG_FILE_MAX + 1, 1);
    rig_verdict v = rig_read(bytes, RIG_FILE_MAX + 1, &r);
    CHECK_IS(v.refusal, BAD_SIZE);
    CHECK_IS(v.line, 0);
    v = rig_read(bytes, RIG_FILE_MAX, &r);
    CHECK_IS(v.refusal, BAD_SHAPE);
    CHECK_IS(v.line, 1);
    free(bytes);
}

/* Both round trips, on rigs of every making. */
static void round_trips(void)
{
    static rig made, read;
    static uint8_t file[RIG_FILE_MAX], again[RIG_FILE_MAX];
    unsigned wrong = 0;
    for (unsigned i = 0; i < 200; i++) {
        chance c = chance_of(77, i);
        size_t length = 0, length_again = 0;
        if (i % 8 == 7)
            gen_full_serving_rig(&c, &made);
        else
            gen_rig(&c, (rig_size)(i % 3), &made);
        wrong += rig_write(&made, file, sizeof file, &length) != ACCEPTED;
        wrong += rig_read(file, length, &read).refusal != ACCEPTED;
        wrong += memcmp(&made, &read, sizeof made) != 0;
        wrong += rig_write(&read, again, length, &length_again) != ACCEPTED;
        wrong += length != length_again || memcmp(file, again, length) != 0;
    }
    CHECK_IS(wrong, 0);
}

static void writer_keeps_to_its_buffer(void)
{
    static rig r;
    static uint8_t buffer[RIG_FILE_MAX];
    text want = {NULL, 0, 0};
    size_t length = 5;
    tabbed(MORNING, &want);
    read_right_rig(MORNING, &r);
    memset(buffer, 'x', sizeof buffer);
    CHECK_IS(rig_write(&r, buffer, want.length - 1, &length), BAD_LENGTH);
    CHECK(buffer[0] == 'x' && length == 5);
    CHECK_IS(rig_write(&r, buffer, sizeof buffer, &length), ACCEPTED);
    CHECK_IS(length, want.length);
    CHECK(memcmp(buffer, want.bytes, length) == 0);
    CHECK(buffer[length] == 'x');
    text_free(&want);
}

/* A rig in memory that breaks any rule, sizes and unused entries too, is refused by 4. */
static rig bad; /* a right rig with one number changed */

static const struct {
    uint8_t *at;
    uint8_t value;
} damages[] = {
    {&bad.tasks, 0},
    {&bad.tasks, 65},
    {&bad.flags, 0},
    {&bad.flags, 200},
    {&bad.master, 32},
    {&bad.rows, 65},
    {&bad.rows, 2},
    {&bad.task[0].priority, 1},
    {&bad.task[4].priority, 1},
    {&bad.task[2].privileged, 2},
    {&bad.task[2].activation, 200},
    {&bad.task[2].controller, 255},
    {&bad.a[0].task, 0},
    {&bad.a[0].task, 255},
    {&bad.a[0].position, 16},
    {&bad.a[1].flag, 0},
    {&bad.a[1].flag, 255},
    {&bad.a[2].flag, 1},
    {&bad.cycle[4].flags, 255},
    {&bad.cycle[4].flag[0], 255},
    {&bad.cycle[4].flag[0], 0},
    {&bad.cycle[4].flag[1], 1},
    {&bad.cycle[5].flag[14], 1},
    {&bad.row[0].words, 0},
    {&bad.row[0].period, 0},
    {&bad.row[0].phase, 2},
    {&bad.row[0].receiver, 1},
    {&bad.row[63].sender, 1}};

static void check_bad_is_refused(void)
{
    static exec e;
    CHECK_IS(exec_start(&e, &bad).refusal, BAD_RIG);
    CHECK(all_zero(&e, sizeof e));
}

static void broken_in_memory(void)
{
    static rig good;
    static exec e;
    uint8_t buffer[8];
    size_t length;
    read_right_rig(MORNING, &good);
    for (unsigned i = 0; i < sizeof damages / sizeof damages[0]; i++) {
        bad = good;
        *damages[i].at = damages[i].value;
        CHECK_IS(rig_write(&bad, buffer, sizeof buffer, &length), BAD_RIG);
        check_bad_is_refused();
    }
    bad = good;
    bad.a_lines = 1025;
    check_bad_is_refused();
    bad = good;
    bad.conditions[2].latched = 2;
    check_bad_is_refused();
    bad = good;
    bad.conditions[9].desired = 2;
    check_bad_is_refused();
    bad = good;
    bad.a[0] = good.a[1];
    bad.a[1] = good.a[0];
    check_bad_is_refused();
    CHECK_IS(exec_start(&e, &good).refusal, ACCEPTED);
}

void rig_tests(void)
{
    RUN(morning_is_read);
    RUN(refused_by_1);
    RUN(refused_by_2);
    RUN(refused_by_3);
    RUN(refused_by_4);
    RUN(limits_of_lines);
    RUN(too_long_is_tested_first);
    RUN(round_trips);
    RUN(writer_keeps_to_its_buffer);
    RUN(broken_in_memory);
}
