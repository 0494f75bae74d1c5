/*
 * Script lines and output lines of the bench runner ("A bench morning").
 */
#ifndef SECOND_SCRIPT_H
#define SECOND_SCRIPT_H

#include <stdbool.h>
#include <stddef.h>
#include <stdint.h>

#include "exec.h"
#include "rig.h"

enum {
    SCRIPT_LINE_MAX = 14,     /* of a right line without its LF: N, tab, ten digits, tab, value */
    OUTPUT_LINE_MAX = 1024    /* K with 128 words of up to five digits needs less */
};

typedef struct {
    char verb;
    uint32_t number; /* task, count, cycles or flag */
    bool value;      /* of L, N and G */
} script_call;

/* Judges one line without its LF; false means it is refused by 1 and prints ? alone. */
bool script_judge(const uint8_t *line, size_t length, script_call *out);

/* Takes a tab and a number without spare zeros, up to 4,294,967,295, and moves *at past it. */
bool script_number(const uint8_t **at, const uint8_t *end, uint32_t *out);

/* Makes the call; `words` takes a tick's bus words. */
answer script_apply(exec *e, const script_call *call, uint16_t words[TICK_WORDS]);

/* Each writes one output line with its LF and answers its length. */
size_t print_call(char *out, const script_call *call, const answer *a, const exec *e,
                  const uint16_t *words);
size_t print_wrong_line(char *out);
size_t print_started(char *out, const answer *a, const exec *e);

/* `word` is START, or what another program says in its place. */
size_t print_refused_rig(char *out, const char *word, const rig_verdict *v);

/*
 * Verb, answer, count, running task, woken and activated, as the line of every call begins; answers where the text ends.
 * "The runner prints both after the running task wherever it prints that" (request L2).
 */
char *print_head(char *out, char verb, const answer *a, const exec *e);

/* A tab and the number; answers where the text ends. */
char *print_field(char *at, uint32_t value);

#endif
