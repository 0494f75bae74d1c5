/*
 * The random comparison: another runner against the second program, output
 * byte for byte.
 *
 *   compare [--also COMMAND] [--entries COMMAND] [--panel COMMAND] [--wiring COMMAND] [--only PART] [--keep DIR]
 *           [--most N] COMMAND [SEED [COUNT]]
 *
 * COMMAND is the other runner; it is split at spaces and run once for each
 * input, with the input as standard input.  The right output is made in this
 * process.  --also names one more runner, for the same inputs.  There are
 * COUNT inputs, and one tenth of that more that try the stream: long lines,
 * outputs that pass a room's end, input that comes in pieces.  --entries
 * names a program that reads the lines of entries.h (one twentieth of COUNT
 * inputs more), --panel one that reads those of panel.h (one fifth of COUNT
 * more), --wiring one that prints wiring sheets (one fifth of COUNT more), which
 * is run twice on each input: as it is named, and with --table behind it.
 * Without them the second program's own are run in this process alone, to be
 * counted.  --only leaves the other parts out: PART is inputs, streams, entries,
 * panel or wiring; for the last three COMMAND is -.
 *
 * A failing input is kept in DIR (the present one without --keep) beside the
 * output it must have and the output it got; after N differences (5 without
 * --most) the comparison ends.  Exit status: 0 if all are the same and, with
 * COUNT at least the default, everything was hit often enough; 1 if outputs
 * differ; 2 if the comparison could not run; 3 if something was hit too seldom.
 */
#include <stdio.h>
#include <string.h>

#include "gen.h"
#include "numbers.h"
#include "other.h"
#include "tally.h"

enum {
    DEFAULT_COUNT = 2500,
    LEAST_COUNT = 1,
    LEAST_HITS = 50,
    STREAM_SHARE = 10,  /* one input for the stream for each so many others */
    ENTRIES_SHARE = 20, /* one input of entries for each so many others */
    PANEL_SHARE = 5,    /* one input for the panel for each so many others */
    WIRING_SHARE = 5,   /* one input for the wiring sheet for each so many others */
    NAME_ROOM = 64
};

#define MOST_COUNT UINT32_MAX

typedef struct {
    const char *keep;
    workplace place; /* for the input and output of a run */
    uint64_t seed;
    unsigned differences;
    unsigned most; /* differences, then it ends */
} comparison;

/* ---- Telling a difference ---- */

static void print_line_at(const char *who, const text *t, size_t start)
{
    size_t n = 0;
    while (start + n < t->length && t->bytes[start + n] != '\n' && n < 200)
        n++;
    if (start >= t->length)
        printf("    %s: (ends)\n", who);
    else
        printf("    %s: %.*s\n", who, (int)n, (const char *)t->bytes + start);
}

static void print_first_difference(const text *right, const text *got)
{
    size_t at = 0, start = 0, line = 1;
    while (at < right->length && at < got->length && right->bytes[at] == got->bytes[at]) {
        if (right->bytes[at++] == '\n') {
            start = at;
            line++;
        }
    }
    printf("    output line %zu\n", line);
    print_line_at("right", right, start);
    print_line_at("got  ", got, start);
}

static void keep_failure(comparison *k, const char *name, const text *input, const text *right, const text *got)
{
    char path[PATH_ROOM + 64];
    snprintf(path, sizeof path, "%s/%s.right", k->keep, name);
    save_file(path, right->bytes, right->length);
    snprintf(path, sizeof path, "%s/%s.got", k->keep, name);
    save_file(path, got->bytes, got->length);
    snprintf(path, sizeof path, "%s/%s.rig", k->keep, name);
    save_file(path, input->bytes, input->length);
    printf("    kept as %s, with .right and .got beside it\n", path);
}

/* One input: what it is called, how it is fed, and the output it must have. */
typedef struct {
    char name[NAME_ROOM];
    const char *kind;
    feeding fed;
    chance sizes;
    const text *bytes, *right;
} one_input;

/* Compares an input's output with what the command prints for it. */
static void compare_one(comparison *k, const command *c, const one_input *input)
{
    static text got;
    text_clear(&got);
    bool ended_well = run_other(&k->place, c, input->bytes, input->fed, input->sizes, &got);
    if (ended_well && got.length == input->right->length && memcmp(got.bytes, input->right->bytes, got.length) == 0)
        return;
    k->differences++;
    printf("DIFFERENT: %s (%s)\n    of:", input->name, input->kind);
    for (char *const *word = c->word; *word != NULL; word++)
        printf(" %s", *word);
    printf("\n");
    print_first_difference(input->right, &got);
    keep_failure(k, input->name, input->bytes, input->right, &got);
}

/* ---- The parts of a comparison ---- */

/* A kind of generated inputs: how one is made, what it is called, and the programs that must print the same for it. */
typedef struct {
    const char *label;
    void (*make)(uint64_t seed, uint64_t index, text *out);
    const char *(*kind_name)(uint64_t index);
    feeding (*feeding_of)(uint64_t index);
    line_set taken;
    const command *other[2];
} input_kind;

static const char *entries_name(uint64_t index)
{
    (void)index;
    return "entries";
}

static feeding as_file(uint64_t index)
{
    (void)index;
    return FED_AS_FILE;
}

static void compare_input(comparison *k, const input_kind *kind, uint64_t index, tally *t)
{
    static text bytes, right;
    one_input input = {.kind = kind->kind_name(index), .fed = kind->feeding_of(index)};
    text_clear(&bytes);
    text_clear(&right);
    kind->make(k->seed, index, &bytes);
    tally_run(t, &bytes, kind->taken, &right);
    t->stream.fed[input.fed]++;
    input.sizes = chance_of(k->seed, index);
    input.bytes = &bytes;
    input.right = &right;
    for (unsigned n = 0; n < sizeof kind->other / sizeof kind->other[0]; n++) {
        snprintf(input.name, sizeof input.name, "failing-%s%s%llu-%llu", n > 0 ? "also-" : "", kind->label,
                 (unsigned long long)k->seed, (unsigned long long)index);
        if (is_given(kind->other[n]))
            compare_one(k, kind->other[n], &input);
    }
}

static void compare_inputs(comparison *k, const input_kind *kind, uint64_t count, tally *t)
{
    for (uint64_t i = 0; i < count && k->differences < k->most; i++)
        compare_input(k, kind, i, t);
}

/* ---- Wiring sheets ---- */

static void compare_sheet(comparison *k, const command *c, wiring_form form, uint64_t index, const text *bytes)
{
    static text right;
    one_input input = {.kind = gen_wiring_name(index), .fed = gen_wiring_feeding(index), .bytes = bytes, .right = &right};
    if (!is_given(c))
        return;
    text_clear(&right);
    tally_wiring_output(bytes, form, &right);
    input.sizes = chance_of(k->seed, index);
    snprintf(input.name, sizeof input.name, "failing-wiring-%s%llu-%llu", form == WIRING_TABLE ? "table-" : "",
             (unsigned long long)k->seed, (unsigned long long)index);
    compare_one(k, c, &input);
}

/* Each input is given twice: for its lines and for its table. */
static void compare_sheets(comparison *k, const command *lines, uint64_t count, tally *t)
{
    static text bytes;
    command table = command_with(lines, "--table");
    for (uint64_t i = 0; i < count && k->differences < k->most; i++) {
        text_clear(&bytes);
        gen_wiring_input(k->seed, i, &bytes);
        t->inputs++;
        tally_wiring_input(&t->wiring, &bytes);
        compare_sheet(k, lines, WIRING_LINES, i, &bytes);
        compare_sheet(k, &table, WIRING_TABLE, i, &bytes);
    }
}

/* ---- The command line ---- */

enum part { INPUTS, STREAMS, ENTRIES, PANEL, WIRING, PARTS, ALL_PARTS = PARTS };

static const char *const part_names[PARTS] = {"inputs", "streams", "entries", "panel", "wiring"};

typedef struct {
    command runner, also, entries, panel, wiring;
    enum part only;
    uint64_t count;
} wishes;

static bool wants(const wishes *w, enum part part)
{
    return w->only == part || w->only == ALL_PARTS;
}

static const char usage[] =
    "usage: compare [--also COMMAND] [--entries COMMAND] [--panel COMMAND] [--wiring COMMAND]\n"
    "               [--only inputs|streams|entries|panel|wiring] [--keep DIR] [--most N] COMMAND [SEED [COUNT]]\n"
    "SEED, COUNT and N are decimal numbers without spare zeros; COUNT and N are at least 1.\n"
    "With --only entries, --only panel and --only wiring COMMAND is -.\n";

static bool take_part(const char *name, wishes *w)
{
    for (enum part p = INPUTS; p < PARTS; p++) {
        if (strcmp(name, part_names[p]) == 0) {
            w->only = p;
            return true;
        }
    }
    return false;
}

static bool take_option(const char *name, char *value, wishes *w, comparison *k)
{
    if (strcmp(name, "--most") == 0)
        return small_number_of(value, 1, UINT32_MAX, &k->most);
    if (strcmp(name, "--only") == 0)
        return take_part(value, w);
    if (strcmp(name, "--also") == 0)
        w->also = command_of(value);
    else if (strcmp(name, "--entries") == 0)
        w->entries = command_of(value);
    else if (strcmp(name, "--panel") == 0)
        w->panel = command_of(value);
    else if (strcmp(name, "--wiring") == 0)
        w->wiring = command_of(value);
    else if (strcmp(name, "--keep") == 0)
        k->keep = value;
    else
        return false;
    return true;
}

static bool take_words(int argc, char **argv, wishes *w, comparison *k)
{
    int at = 1;
    for (; at + 1 < argc && strncmp(argv[at], "--", 2) == 0; at += 2)
        if (!take_option(argv[at], argv[at + 1], w, k))
            return false;
    int left = argc - at;
    if (left < 1 || left > 3)
        return false;
    if (strcmp(argv[at], "-") != 0)
        w->runner = command_of(argv[at]);
    if (is_given(&w->runner) == (w->only == ENTRIES || w->only == PANEL || w->only == WIRING))
        return false;
    return (left < 2 || number_of(argv[at + 1], 0, UINT64_MAX, &k->seed)) &&
           (left < 3 || number_of(argv[at + 2], LEAST_COUNT, MOST_COUNT, &w->count));
}

/* ---- The end ---- */

static unsigned print_seldom(const tally *t, const wishes *w)
{
    unsigned n = 0;
    if (wants(w, INPUTS))
        n += tally_missing(t, LEAST_HITS, stdout) + tally_panel_missing_off(&t->panel, LEAST_HITS, stdout) +
             tally_overruns_missing_off(&t->overruns, LEAST_HITS, stdout) + tally_why_missing_off(&t->why, LEAST_HITS, stdout);
    if (wants(w, STREAMS))
        n += tally_stream_missing(&t->stream, LEAST_HITS, stdout);
    if (wants(w, ENTRIES))
        n += tally_missing_calls(t, "WDJ", LEAST_HITS, stdout) + tally_panel_missing_harmed(&t->panel, LEAST_HITS, stdout) +
             tally_heard_missing_entries(&t->heard, LEAST_HITS, stdout) + tally_overruns_missing_harmed(&t->overruns, LEAST_HITS, stdout) +
             tally_why_missing_harmed(&t->why, LEAST_HITS, stdout);
    if (wants(w, PANEL))
        n += tally_panel_missing(&t->panel, LEAST_HITS, stdout) + tally_heard_missing_asked(&t->heard, LEAST_HITS, stdout) +
             tally_overruns_missing(&t->overruns, LEAST_HITS, stdout) + tally_why_missing(&t->why, LEAST_HITS, stdout);
    if (wants(w, WIRING))
        n += tally_wiring_missing(&t->wiring, LEAST_HITS, stdout);
    return n;
}

static int report(const comparison *k, const tally *t, const wishes *w)
{
    unsigned seldom = 0;
    tally_print(t, stdout);
    if (wants(w, ENTRIES) && !is_given(&w->entries))
        printf("(W, D, J, H, P and I were run in this process alone: no --entries)\n");
    if (wants(w, PANEL) && !is_given(&w->panel))
        printf("(V, O and Y were run in this process alone: no --panel)\n");
    if (wants(w, WIRING) && !is_given(&w->wiring))
        printf("(inputs for the wiring sheet were counted in this process alone: no --wiring)\n");
    if (k->differences == 0 && w->count >= DEFAULT_COUNT)
        seldom = print_seldom(t, w);
    printf("seed %llu: %llu inputs, %u different%s\n", (unsigned long long)k->seed, (unsigned long long)t->inputs,
           k->differences, seldom > 0 ? ", not all hit often enough" : "");
    return k->differences > 0 ? 1 : seldom > 0 ? 3 : 0;
}

/* One for each so many, and one for what is left. */
static uint64_t share_of(uint64_t count, unsigned share)
{
    return (count + share - 1) / share;
}

static void compare_all(comparison *k, const wishes *w, tally *t)
{
    static const command none;
    const input_kind inputs = {"", gen_input, gen_kind_name, as_file, RUNNER_LINES, {&w->runner, &w->also}};
    const input_kind streams = {"stream-", gen_stream_input, gen_stream_name, gen_stream_feeding, RUNNER_LINES,
                                {&w->runner, &w->also}};
    const input_kind entries = {"entries-", gen_entries_input, entries_name, as_file, ENTRIES_LINES, {&w->entries, &none}};
    const input_kind panel = {"panel-", gen_panel_input, gen_panel_name, as_file, PANEL_LINES, {&w->panel, &none}};
    if (wants(w, INPUTS))
        compare_inputs(k, &inputs, w->count, t);
    if (wants(w, STREAMS))
        compare_inputs(k, &streams, share_of(w->count, STREAM_SHARE), t);
    if (wants(w, ENTRIES))
        compare_inputs(k, &entries, share_of(w->count, ENTRIES_SHARE), t);
    if (wants(w, PANEL))
        compare_inputs(k, &panel, share_of(w->count, PANEL_SHARE), t);
    if (wants(w, WIRING))
        compare_sheets(k, &w->wiring, share_of(w->count, WIRING_SHARE), t);
}

int main(int argc, char **argv)
{
    static tally t;
    comparison k = {.keep = ".", .seed = 1, .most = 5};
    wishes w = {.only = ALL_PARTS, .count = DEFAULT_COUNT};
    if (argc == 2 && strcmp(argv[1], "--help") == 0) {
        fputs(usage, stdout);
        return 0;
    }
    if (!take_words(argc, argv, &w, &k)) {
        fputs(usage, stderr);
        return 2;
    }
    open_workplace(&k.place);
    compare_all(&k, &w, &t);
    close_workplace(&k.place);
    return report(&k, &t, &w);
}
