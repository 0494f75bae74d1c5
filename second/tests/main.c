#define _POSIX_C_SOURCE 200809L
#include <stdio.h>
#include <stdlib.h>
#include <string.h>
#include <unistd.h>

#include "check.h"
#include "runner.h"
#include "wordlist.h"
#include "wordsall.h"

const char *rigs_folder = "../rigs";

static unsigned passed, failed;
static bool holds_so_far;

void check_that(bool holds, const char *what, const char *file, int line)
{
    if (holds)
        return;
    holds_so_far = false;
    printf("%s:%d: not so: %s\n", file, line, what);
}

void check_number(long long got, long long want, const char *what, const char *file, int line)
{
    if (got == want)
        return;
    holds_so_far = false;
    printf("%s:%d: %s is %lld, not %lld\n", file, line, what, got, want);
}

void check_text(const text *got, const char *want, const char *what, const char *file, int line)
{
    if (got->length == strlen(want) && (got->length == 0 || memcmp(got->bytes, want, got->length) == 0))
        return;
    holds_so_far = false;
    printf("%s:%d: %s: got\n%.*sand not\n%s", file, line, what, (int)got->length, (const char *)got->bytes, want);
}

void run_test(const char *name, void (*test)(void))
{
    holds_so_far = true;
    test();
    if (holds_so_far)
        passed++;
    else
        failed++;
    printf("%s %s\n", holds_so_far ? "ok  " : "FAIL", name);
}

void tabbed(const char *spaced, text *out)
{
    for (; *spaced != 0; spaced++)
        text_add(out, *spaced == ' ' ? "\t" : spaced, 1);
}

void read_right_rig(const char *spaced, rig *out)
{
    text file = {NULL, 0, 0};
    tabbed(spaced, &file);
    CHECK_IS(rig_read(file.bytes, file.length, out).refusal, ACCEPTED);
    text_free(&file);
}

void start_with(const char *spaced, exec *out)
{
    static rig r;
    read_right_rig(spaced, &r);
    CHECK_IS(exec_start(out, &r).refusal, ACCEPTED);
}

static void take_all(FILE *from, text *out)
{
    char part[65536];
    ssize_t n;
    lseek(fileno(from), 0, SEEK_SET);
    while ((n = read(fileno(from), part, sizeof part)) > 0)
        text_add(out, part, (size_t)n);
}

static int wiring(int in, int out)
{
    return runner_wiring(in, out, (char *[]){NULL});
}

static int wiring_table(int in, int out)
{
    return runner_wiring(in, out, (char *[]){"--table", NULL});
}

static int wiring_other(int in, int out)
{
    return runner_wiring(in, out, (char *[]){"--lines", NULL});
}

static int wiring_more(int in, int out)
{
    return runner_wiring(in, out, (char *[]){"--table", "--table", NULL});
}

static int terminal_all(int in, int out)
{
    (void)in;
    return wordsall_terminal(out);
}

static int monitor_all(int in, int out)
{
    (void)in;
    return wordsall_monitor(out);
}

static int (*const modes[])(int in, int out) = {[MODE_RUN] = runner_run,
                                                [MODE_PANEL] = runner_run_panel,
                                                [MODE_ENTRIES] = runner_run_entries,
                                                [MODE_ECHO] = runner_echo_rig,
                                                [MODE_WIRING] = wiring,
                                                [MODE_WIRING_TABLE] = wiring_table,
                                                [MODE_WIRING_OTHER] = wiring_other,
                                                [MODE_WIRING_MORE] = wiring_more,
                                                [MODE_WORDS] = wordlist_print,
                                                [MODE_TERMINAL_ALL] = terminal_all,
                                                [MODE_MONITOR_ALL] = monitor_all};

void run_bytes(enum run_mode mode, const void *bytes, size_t length, text *output)
{
    FILE *in = tmpfile(), *out = tmpfile();
    if (in == NULL || out == NULL) {
        perror("tmpfile");
        exit(2);
    }
    if (length > 0)
        fwrite(bytes, 1, length, in);
    fflush(in);
    lseek(fileno(in), 0, SEEK_SET);
    CHECK_IS(modes[mode](fileno(in), fileno(out)), 0);
    take_all(out, output);
    fclose(in);
    fclose(out);
}

void check_run(enum run_mode mode, const char *input, const char *output, const char *file, int line)
{
    text in = {NULL, 0, 0}, want = {NULL, 0, 0}, got = {NULL, 0, 0};
    tabbed(input, &in);
    tabbed(output, &want);
    text_add(&want, "", 1);
    run_bytes(mode, in.bytes, in.length, &got);
    check_text(&got, (const char *)want.bytes, "output", file, line);
    text_free(&in);
    text_free(&want);
    text_free(&got);
}

int main(int argc, char **argv)
{
    if (argc > 1)
        rigs_folder = argv[1];
    words_tests();
    rig_tests();
    exec_tests();
    serving_tests();
    heard_tests();
    again_tests();
    sound_tests();
    panel_tests();
    overruns_tests();
    why_tests();
    wiring_tests();
    runner_tests();
    gen_tests();
    printf("%u passed, %u failed\n", passed, failed);
    return failed == 0 ? 0 : 1;
}
