#include "runner.h"

#include <errno.h>
#include <string.h>

#include "entries.h"
#include "exec.h"
#include "mutant.h"
#include "panel.h"
#include "rig.h"
#include "script.h"
#include "stream.h"
#include "wiring.h"

/*
 * Whether the line RUN is among those from *line on; *line is then its start, else the start of the last line, which
 * has no LF yet.
 */
static bool find_run(const uint8_t *head, size_t length, size_t *line)
{
    while (length - *line >= RUN_LINE_LENGTH) {
        const uint8_t *at = head + *line;
        if (memcmp(at, "RUN\n", RUN_LINE_LENGTH) == 0)
            return true;
        const uint8_t *lf = memchr(at, '\n', length - *line);
        if (lf == NULL)
            break;
        *line = (size_t)(lf - head) + 1;
    }
    return false;
}

input_parts find_parts(const uint8_t *head, size_t length)
{
    size_t line = 0;
    if (find_run(head, length, &line))
        return (input_parts){line, true};
    return (input_parts){length, false};
}

static size_t head_length(const in_stream *in)
{
    return in->length < HEAD_MAX ? in->length : HEAD_MAX;
}

/* Fills the buffer up to the line RUN, or to the bytes that show that it comes too late. */
static input_parts take_head(in_stream *in)
{
    size_t line = 0;
    while (in->length < HEAD_MAX && in_fill(in))
        if (find_run(in->text, head_length(in), &line))
            return (input_parts){line, true};
    return (input_parts){head_length(in), false};
}

static rig_verdict read_rig(in_stream *in, input_parts *parts, rig *r)
{
    *parts = take_head(in);
    if (MUTATED(LENGTH_OF_INPUT) && in->length > RIG_FILE_MAX)
        parts->rig_length = in->length;
    if (MUTATED(RUN_UNHEEDED))
        parts->rig_length = head_length(in);
    rig_verdict v = rig_read(in->text, parts->rig_length, r);
    in->place = parts->rig_length + (parts->has_script ? RUN_LINE_LENGTH : 0);
    return v;
}

/* Runs one line and prints its answer; answers the length of that. */
typedef size_t line_runner(exec *e, const in_line *line, char *out);

static size_t run_line(exec *e, const in_line *line, char *out)
{
    script_call call;
    uint16_t words[TICK_WORDS];
    bool whole = line->whole || (MUTATED(LAST_LINE_RUNS) && line->length <= SCRIPT_LINE_MAX);
    if (!whole || !script_judge(line->text, line->length, &call))
        return print_wrong_line(out);
    answer a = script_apply(e, &call, words);
    return print_call(out, &call, &a, e, words);
}

static entries_area area; /* filled at the start of each run with entries */

static size_t run_entries_line(exec *e, const in_line *line, char *out)
{
    entries_call call;
    answer a;
    if (line->whole && entries_judge(line->text, line->length, &call))
        return entries_run(e, &area, &call, &a, out);
    return run_line(e, line, out);
}

static size_t run_panel_line(exec *e, const in_line *line, char *out)
{
    panel_call call;
    answer a;
    if (line->whole && panel_judge(line->text, line->length, &call))
        return panel_run(e, &call, &a, out);
    return run_line(e, line, out);
}

/* A run of the program: its streams, and the rig that was read. */
typedef struct {
    in_stream in;
    out_stream out;
    rig rig;
    input_parts parts;
} session;

static int close_streams(session *s)
{
    out_flush(&s->out);
    if (MUTATED(FAILED_WRITE_UNTOLD))
        s->out.failed = 0;
    errno = s->out.failed ? s->out.failed : s->in.failed;
    return s->in.failed || s->out.failed ? -1 : 0;
}

/* Reads the rig and hands an accepted one on; a refused one prints its line, which begins with the word `refused`. */
static int with_rig(int in, int out, void (*go_on)(session *s), const char *refused)
{
    static session s;
    in_open(&s.in, in, &s.out);
    out_open(&s.out, out);
    rig_verdict v = read_rig(&s.in, &s.parts, &s.rig);
    if (s.in.failed)
        return close_streams(&s);
    if (v.refusal == ACCEPTED)
        go_on(&s);
    else
        out_advance(&s.out, print_refused_rig(out_room(&s.out, OUTPUT_LINE_MAX), refused, &v));
    return close_streams(&s);
}

static void answer_line(session *s, exec *e, const in_line *line, line_runner *run)
{
    char *room = out_room(&s->out, OUTPUT_LINE_MAX - MUTATED(LOST_AT_ROOMS_END));
    if (MUTATED(LOST_AT_ROOMS_END) && STREAM_ROOM - s->out.length < OUTPUT_LINE_MAX)
        return;
    out_advance(&s->out, run(e, line, room));
}

static void run_script(session *s, line_runner *run)
{
    static exec e;
    in_line line;
    answer started = exec_start(&e, &s->rig); /* a rig that was read keeps the rules */
    out_advance(&s->out, print_started(out_room(&s->out, OUTPUT_LINE_MAX), &started, &e));
    while (s->parts.has_script && !s->out.failed && in_next_line(&s->in, &line))
        answer_line(s, &e, &line, run);
}

static void run_lines(session *s)
{
    run_script(s, MUTATED(PANEL_ALWAYS_ON) ? run_panel_line : run_line);
}

static void run_entries_lines(session *s)
{
    entries_fill_area(&area);
    run_script(s, run_entries_line);
}

static void run_panel_lines(session *s)
{
    run_script(s, run_panel_line);
}

static void echo_rig(session *s)
{
    static uint8_t file[RIG_FILE_MAX];
    size_t length = 0;
    (void)rig_write(&s->rig, file, sizeof file, &length);
    out_write(&s->out, file, length);
}

static void write_sheet(session *s, wiring_form form)
{
    static char sheet[WIRING_ROOM];
    out_write(&s->out, sheet, wiring_print(sheet, &s->rig, form));
}

static void write_sheet_lines(session *s)
{
    write_sheet(s, WIRING_LINES);
}

static void write_sheet_table(session *s)
{
    write_sheet(s, WIRING_TABLE);
}

static int tell_wiring_usage(int out)
{
    static const char usage[] = "usage: wiring [--table] < RIG\n";
    static out_stream to;
    out_open(&to, out);
    out_write(&to, usage, sizeof usage - 1);
    out_flush(&to);
    errno = to.failed;
    return to.failed ? -1 : 0;
}

int runner_run(int in, int out)
{
    return with_rig(in, out, run_lines, "START");
}

int runner_run_entries(int in, int out)
{
    return with_rig(in, out, run_entries_lines, "START");
}

int runner_run_panel(int in, int out)
{
    return with_rig(in, out, run_panel_lines, "START");
}

int runner_echo_rig(int in, int out)
{
    return with_rig(in, out, echo_rig, "START");
}

int runner_wiring(int in, int out, char *const *words)
{
    const char *refused = MUTATED(REFUSED_AS_RUNNER) ? "START" : "RIG";
    if (words[0] == NULL)
        return with_rig(in, out, write_sheet_lines, refused);
    if (strcmp(words[0], "--table") == 0 && words[1] == NULL)
        return with_rig(in, out, write_sheet_table, refused);
    return tell_wiring_usage(out);
}
