/*
 * An example host: a bench that keeps one record in its own memory and lends it to the library for each call.
 * It reads a rig, the line RUN and a script, and prints what the bench runner prints.
 *
 *   host             rig, RUN and script on standard input
 *   host --panel     the same, with the panel's lines of panel.h besides
 *   host --entries   the same, with the lines of blocks.h and harmed.h besides
 */
#include <inttypes.h>
#include <stdio.h>
#include <stdlib.h>
#include <string.h>

#include "algolmallet.h"
#include "blocks.h"
#include "calls.h"
#include "harmed.h"
#include "input.h"
#include "panel.h"
#include "record.h"
#include "script.h"

/* Runs a line that is not the script's, and prints its answer; false, with nothing done, if it is none of its own. */
typedef bool more_calls(algolmallet_record *record, const struct script_line *line);

static bool run_none(algolmallet_record *record, const struct script_line *line)
{
    (void)record;
    (void)line;
    return false;
}

static bool run_entries_call(algolmallet_record *record, const struct script_line *line)
{
    return run_block_call(record, line) || run_harmed_call(record, line);
}

static void print_start(const algolmallet_reply *reply)
{
    if (reply->refusal == ALGOLMALLET_ACCEPTED)
        print_reply("START", reply);
    else
        printf("START\t%" PRIu32 "\t%" PRIu32, reply->refusal, reply->line);
    putchar('\n');
}

static void run_script(algolmallet_record *record, more_calls *run_more)
{
    struct input_line text;
    struct script_line line;
    while (!ferror(stdout) && read_line(&text)) {
        bool done = take_apart(&text, &line) && (run_call(record, &line) || run_more(record, &line));
        if (!done)
            puts("?");
    }
}

static void run_bench(algolmallet_record *record, more_calls *run_more)
{
    static uint8_t rig[RIG_ROOM];
    struct rig_part part = read_rig(rig);
    if (ferror(stdin))
        return;
    algolmallet_reply reply = algolmallet_start(record, rig, part.length);
    print_start(&reply);
    if (reply.refusal == ALGOLMALLET_ACCEPTED && part.has_script)
        run_script(record, run_more);
}

static int usage(FILE *to, int status)
{
    fputs("usage: host               a rig, the line RUN and a script on standard input\n"
          "       host --panel       the same; lines V, O and Y as panel.h says\n"
          "       host --entries     the same; lines W, D, J, H, P and I as blocks.h and harmed.h say\n",
          to);
    return status;
}

/* What is run besides the script's calls, by the command's words; NULL for words that it does not take. */
static more_calls *wanted(int argc, char **argv)
{
    if (argc == 1)
        return run_none;
    if (argc == 2 && strcmp(argv[1], "--panel") == 0)
        return run_panel_call;
    if (argc == 2 && strcmp(argv[1], "--entries") == 0)
        return run_entries_call;
    return NULL;
}

int main(int argc, char **argv)
{
    if (argc == 2 && strcmp(argv[1], "--help") == 0)
        return usage(stdout, 0);
    more_calls *run_more = wanted(argc, argv);
    if (run_more == NULL)
        return usage(stderr, 2);
    algolmallet_record *record = make_room_for_record();
    fill_area();
    run_bench(record, run_more);
    free(record);
    if (ferror(stdin) || fflush(stdout) != 0 || ferror(stdout)) {
        perror("host");
        return 1;
    }
    return 0;
}
