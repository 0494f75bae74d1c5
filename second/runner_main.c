/* The bench runner as a program.  Exit status 0 unless it could not run. */
#include <stdio.h>
#include <stdlib.h>
#include <string.h>

#include "mutant.h"
#include "rigtimes.h"
#include "runner.h"
#include "wordlist.h"
#include "wordsall.h"
#include "wordsums.h"

#ifdef MUTANTS
unsigned mutant;

static void choose_mutant(void)
{
    const char *number = getenv("MUTANT");
    mutant = number != NULL ? (unsigned)strtoul(number, NULL, 10) : 0;
}
#else
static void choose_mutant(void)
{
}
#endif

static int usage(FILE *to, int status)
{
    fputs("usage: runner                 rig, RUN and script on standard input; answers on standard output\n"
          "       runner --panel         as the first, with the lines of panel.h besides\n"
          "       runner --entries       as the first, with the lines of entries.h besides\n"
          "       runner --echo-rig      read a rig and write it back\n"
          "       runner --wiring        read a rig and print its wiring sheet, as wiring.h says; with --table behind it as a table\n"
          "       runner --words         answer questions on bus words, as wordlist.h says\n"
          "       runner --sums          print sums over all words and images, as wordsums.h says\n"
          "       runner --terminal-all  print all that a terminal sends, as wordsall.h says\n"
          "       runner --monitor-all   print all that a monitor takes apart and judges, as wordsall.h says\n"
          "       runner --rig-times     read and write a rig many times over, as rigtimes.h says\n",
          to);
    return status;
}

int main(int argc, char **argv)
{
    int done;
    choose_mutant();
    if (argc == 1)
        done = runner_run(0, 1);
    else if (argc == 2 && strcmp(argv[1], "--panel") == 0)
        done = runner_run_panel(0, 1);
    else if (argc == 2 && strcmp(argv[1], "--entries") == 0)
        done = runner_run_entries(0, 1);
    else if (argc == 2 && strcmp(argv[1], "--echo-rig") == 0)
        done = runner_echo_rig(0, 1);
    else if (argc >= 2 && strcmp(argv[1], "--wiring") == 0)
        done = runner_wiring(0, 1, argv + 2);
    else if (argc == 2 && strcmp(argv[1], "--words") == 0)
        done = wordlist_print(0, 1);
    else if (argc == 2 && strcmp(argv[1], "--sums") == 0)
        done = wordsums_print();
    else if (argc == 2 && strcmp(argv[1], "--terminal-all") == 0)
        done = wordsall_terminal(1);
    else if (argc == 2 && strcmp(argv[1], "--monitor-all") == 0)
        done = wordsall_monitor(1);
    else if (argc == 2 && strcmp(argv[1], "--rig-times") == 0)
        done = rigtimes_print(0);
    else if (argc == 2 && strcmp(argv[1], "--help") == 0)
        return usage(stdout, 0);
    else
        return usage(stderr, 2);
    if (done != 0)
        perror("runner");
    return done == 0 ? 0 : 1;
}
