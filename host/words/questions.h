/*
 * What the two example programs on bus words share: questions on standard input, one a line, and their answers on standard output.
 *
 * A question is a verb and the numbers that it is about, each behind one tab. What follows them behind a tab is passed over, so that
 * lines that were printed with their answers are questions too. An answer is the question's verb and numbers, then what is asked.
 * Any other line, one without LF and one of more than 65,535 bytes are answered by `?`.
 */
#ifndef HOST_WORDS_QUESTIONS_H
#define HOST_WORDS_QUESTIONS_H

#include <stdint.h>

enum { ASKED_MAX = 4 };

struct question {
    const char *verb;
    unsigned asked;                        /* how many numbers it is about */
    uint32_t most;                         /* the largest that each may be */
    void (*answer)(const uint32_t *asked); /* prints what follows them */
};

struct word_program {
    const char *name;
    const char *usage;
    const struct question *questions; /* the last has no verb */
    void (*print_all)(void);          /* --all */
};

/* Runs the program as its command line says. Answers the exit status: 0, 1 if reading or writing failed, 2 for misuse. */
int run_word_program(const struct word_program *program, int argc, char **argv);

/* Prints a tab and the number. */
void put_field(uint32_t number);

#endif
