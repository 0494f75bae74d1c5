/* The runner as a whole: inputs to outputs. */
#define _POSIX_C_SOURCE 200809L
#include <dirent.h>
#include <stdio.h>
#include <stdlib.h>
#include <string.h>

#include "check.h"

#define MORNING_RIG \
    "RIG 1 3 4 1\nT 1 0 10 0 0\nT 2 1 20 0 3\nT 3 1 20 0 0\nC 2 0 0 1\nC 3 0 1 1\n" \
    "A 2 0 1\nA 3 0 3\nM 4 1\nB 1 5 7 2 32 2 0\n"

static void the_bench_morning(void)
{
    CHECK_RUN(MORNING_RIG "RUN\nS 2\nS 3\nK\nK\nK\nK\nF\nR 2\nK\nK\n",
              "START 0 0 1 0 0\nS 0 0 1 0 0\nS 0 0 1 0 0\nK 0 1 1 0 0\nK 0 2 1 0 0 14400\nK 0 3 1 0 0\nK 0 4 2 0 2 14400\n"
              "F 0 4 3 0 0\nR 0 4 1 0 0\nK 0 5 1 0 0\nK 0 6 3 0 0 14400\n");
}

#define SMALL "RIG 1 1 1 0\nT 1 0 0 0 0\n"

static void refused_rigs(void)
{
    CHECK_RUN("", "START 1 1\n");
    CHECK_RUN("RUN\nK\n", "START 1 1\n");
    CHECK_RUN("RIG 1 1 1 0\nRUN\nK\n", "START 4 0\n");
    CHECK_RUN("RIG 1 1 1 0\nT 1 0 0 0 0 0\nRUN\nK\n", "START 1 2\n");
    CHECK_RUN("RIG 1 1 1 0\nT 1 0 0 2 0\n", "START 2 2\n");
    CHECK_RUN("T 1 0 0 0 0\n", "START 3 1\n");
}

static void where_the_rig_ends(void)
{
    CHECK_RUN(SMALL, "START 0 0 1 0 0\n"); /* without RUN the whole input is the rig */
    CHECK_RUN(SMALL "RUN\n", "START 0 0 1 0 0\n");
    CHECK_RUN(SMALL "RUN", "START 1 3\n"); /* no LF: no RUN line */
    CHECK_RUN(SMALL "RUN\r\nK\n", "START 1 3\n");
    CHECK_RUN(SMALL "run\nRUN\nK\n", "START 1 3\n");
    CHECK_RUN(SMALL "RUN\nRUN\nK\n", "START 0 0 1 0 0\n?\nK 0 1 1 0 0\n");
    CHECK_RUN("RIG 1 1 1 0\nT 1 0 0 0 0RUN\n", "START 1 2\n");
}

static void script_lines(void)
{
    CHECK_RUN(SMALL "RUN\n\nK \nK\n F\nS 4294967295\nS 4294967296\nQ 1\nG 1 1\nQ 1\nG 1 2\nL 1 1\nF\nN 1 0\nF\nK",
              "START 0 0 1 0 0\n?\n?\nK 0 1 1 0 0\n?\nS 6 1 1 0 0\n?\nQ 0 1 1 0 0 0\nG 0 1 1 0 0\nQ 0 1 1 0 0 1\n?\n"
              "L 0 1 1 0 0\nF 0 1 1 0 0\nN 0 1 0 0 0\nF 5 1 0 0 0\n?\n");
    CHECK_RUN(SMALL "RUN\nU 2147483648\nR 2147483648\nU 00\nR 0\nU 2147483647\nS 0\n",
              "START 0 0 1 0 0\nU 9 0 1 0 0\nR 9 0 1 0 0\n?\nR 0 0 1 0 0\nU 0 0 0 0 0\nS 5 0 0 0 0\n");
}

/* A 1 is a wrong shape before anything else, also while none runs. */
static void wrong_lines_first(void)
{
    CHECK_RUN(SMALL "RUN\nR 1\nS\nS 9\n", "START 0 0 1 0 0\nR 0 0 0 0 0\n?\nS 5 0 0 0 0\n");
}

/* The runner streams: long lines, many lines, any bytes. */
static void long_inputs(void)
{
    text in = {NULL, 0, 0}, want = {NULL, 0, 0}, got = {NULL, 0, 0};
    tabbed(SMALL "RUN\n", &in);
    tabbed("START 0 0 1 0 0\n", &want);
    for (unsigned i = 1; i <= 300; i++) {
        for (unsigned k = 0; k < i * 17; k++) {
            uint8_t byte = (uint8_t)(k * 7 + i);
            text_add(&in, byte == '\n' ? (const uint8_t *)"x" : &byte, 1);
        }
        text_print(&in, "y\nK\n");
        text_print(&want, "?\nK\t0\t%u\t1\t0\t0\n", i);
    }
    for (size_t length = 65530; length <= 65545; length++) { /* around the buffer's length */
        for (size_t k = 0; k < length; k++)
            text_add(&in, "K", 1);
        text_print(&in, "\nQ\t1\n");
        text_print(&want, "?\nQ\t0\t300\t1\t0\t0\t0\n");
    }
    for (unsigned k = 0; k < 300000; k++)
        text_add(&in, "\t", 1);
    text_print(&want, "?\n");
    run_bytes(MODE_RUN, in.bytes, in.length, &got);
    CHECK_IS(got.length, want.length);
    CHECK(got.length == want.length && memcmp(got.bytes, want.bytes, want.length) == 0);
    text_free(&in);
    text_free(&want);
    text_free(&got);
}

/* 40,960 bytes are those of the rig, before RUN. */
static void length_of_the_rig(void)
{
    text in = {NULL, 0, 0}, got = {NULL, 0, 0};
    tabbed(SMALL, &in);
    while (in.length < 40960)
        text_add(&in, "x", 1);
    run_bytes(MODE_RUN, in.bytes, in.length, &got);
    check_text(&got, "START\t1\t3\n", "40,960 bytes", __FILE__, __LINE__);
    text_clear(&got);
    in.bytes[40959] = '\n';
    text_print(&in, "RUN\n");
    for (unsigned i = 0; i < 50000; i++)
        text_print(&in, "K\n");
    run_bytes(MODE_RUN, in.bytes, in.length, &got);
    check_text(&got, "START\t1\t3\n", "and a script", __FILE__, __LINE__);
    text_clear(&got);
    in.length = 40959;
    text_print(&in, "x\nRUN\nK\n");
    run_bytes(MODE_RUN, in.bytes, in.length, &got);
    check_text(&got, "START\t2\t0\n", "40,961 bytes", __FILE__, __LINE__);
    text_free(&in);
    text_free(&got);
}

static void echo_rig(void)
{
    text in = {NULL, 0, 0}, got = {NULL, 0, 0};
    tabbed(MORNING_RIG, &in);
    run_bytes(MODE_ECHO, in.bytes, in.length, &got);
    CHECK_IS(got.length, in.length);
    CHECK(memcmp(got.bytes, in.bytes, in.length) == 0);
    text_clear(&got);
    run_bytes(MODE_ECHO, "RIG\t1\n", 6, &got);
    check_text(&got, "START\t1\t1\n", "a refused rig", __FILE__, __LINE__);
    text_free(&in);
    text_free(&got);
}

static void entries_mode(void)
{
    text in = {NULL, 0, 0}, got = {NULL, 0, 0};
    tabbed("RIG 1 1 1 0\nT 1 0 0 0 0\nB 0 1 1 1 2 1 0\nRUN\nW 1 33 2 5\nW 1 32 2 5\nD 1 33 2\nD 2 33 2\n"
           "J 127\nJ 128\nW 1 4097 2 5\nK\n", &in);
    run_bytes(MODE_ENTRIES, in.bytes, in.length, &got);
    text_add(&got, "", 1);
    unsigned lines = 0, field[10] = {0};
    for (char *line = strtok((char *)got.bytes, "\n"); line != NULL; line = strtok(NULL, "\n"))
        if (lines < 10)
            field[lines++] = line[1] == '\t' ? (unsigned)atoi(line + 2) : 99;
    CHECK_IS(lines, 9);
    CHECK(field[1] == 0 && field[2] == 10 && field[3] == 0 && field[4] == 6);
    CHECK(field[5] == 10 && field[6] == 0 && field[7] == 99 && field[8] == 0);
    text_free(&in);
    text_free(&got);
}

static bool load(const char *path, text *out)
{
    char part[4096];
    size_t n;
    FILE *f = fopen(path, "rb");
    if (f == NULL)
        return false;
    while ((n = fread(part, 1, sizeof part, f)) > 0)
        text_add(out, part, n);
    fclose(f);
    return true;
}

/* The output of a table is kept beside that of the lines. */
static void check_example(enum run_mode mode, const char *folder, const char *name)
{
    char path[1024];
    text in = {NULL, 0, 0}, want = {NULL, 0, 0}, got = {NULL, 0, 0};
    snprintf(path, sizeof path, "%s/%s.rig", folder, name);
    CHECK(load(path, &in));
    snprintf(path, sizeof path, "%s/%s.%s", folder, name, mode == MODE_WIRING_TABLE ? "table" : "out");
    CHECK(load(path, &want));
    text_add(&want, "", 1);
    run_bytes(mode, in.bytes, in.length, &got);
    check_text(&got, (const char *)want.bytes, name, __FILE__, __LINE__);
    text_free(&in);
    text_free(&want);
    text_free(&got);
}

/* Every example of a folder has the output kept beside it; answers how many there are. */
static unsigned check_examples(enum run_mode mode, const char *path)
{
    DIR *folder = opendir(path);
    unsigned found = 0;
    CHECK(folder != NULL);
    if (folder == NULL)
        return 0;
    for (struct dirent *d; (d = readdir(folder)) != NULL;) {
        char name[256];
        snprintf(name, sizeof name, "%s", d->d_name);
        char *end = strrchr(name, '.');
        if (end == NULL || strcmp(end, ".rig") != 0)
            continue;
        *end = 0;
        check_example(mode, path, name);
        found++;
    }
    closedir(folder);
    return found;
}

/* The panel prints what the runner prints where its verbs are not used. */
static void example_rigs(void)
{
    char panel[512], wiring[512];
    snprintf(panel, sizeof panel, "%s/panel", rigs_folder);
    snprintf(wiring, sizeof wiring, "%s/wiring", rigs_folder);
    CHECK(check_examples(MODE_RUN, rigs_folder) >= 4);
    CHECK(check_examples(MODE_PANEL, rigs_folder) >= 4);
    CHECK(check_examples(MODE_PANEL, panel) >= 3);
    CHECK(check_examples(MODE_WIRING, wiring) >= 1);
    CHECK(check_examples(MODE_WIRING_TABLE, wiring) >= 1);
}

void runner_tests(void)
{
    RUN(the_bench_morning);
    RUN(refused_rigs);
    RUN(where_the_rig_ends);
    RUN(script_lines);
    RUN(wrong_lines_first);
    RUN(long_inputs);
    RUN(length_of_the_rig);
    RUN(echo_rig);
    RUN(entries_mode);
    RUN(example_rigs);
}
