#include "wordlist.h"

#include <errno.h>
#include <stdbool.h>
#include <stddef.h>
#include <string.h>

#include "script.h"
#include "stream.h"
#include "words.h"

enum { ASKED_MAX = 4, LINE_ROOM = 128 };

/* ---- Answers: each prints what follows the fields that were asked ---- */

static char *print_word(char *at, enum refusal refusal, uint16_t word)
{
    at = print_field(at, refusal);
    return refusal == ACCEPTED ? print_field(at, word) : at;
}

static char *answer_command(char *at, const uint32_t *asked)
{
    uint16_t word = 0;
    enum refusal refusal = command_word(&(command_fields){asked[0], asked[1], asked[2], asked[3]}, &word);
    return print_word(at, refusal, word);
}

static char *answer_fields(char *at, const uint32_t *asked)
{
    command_fields c = command_apart((uint16_t)asked[0]);
    return print_field(print_field(print_field(print_field(at, c.address), c.transmit), c.subaddress), c.last);
}

static char *answer_status(char *at, const uint32_t *asked)
{
    uint16_t word = 0;
    enum refusal refusal = status_word(&(status_fields){asked[0], asked[1], asked[2], asked[3]}, &word);
    at = print_word(at, refusal, word);
    return refusal == ACCEPTED ? print_field(at, status_image(word)) : at;
}

static char *answer_bits(char *at, const uint32_t *asked)
{
    status_fields s = status_apart((uint16_t)asked[0]);
    return print_field(print_field(print_field(print_field(at, s.address), s.error), s.status), s.failure);
}

static char *answer_parity(char *at, const uint32_t *asked)
{
    return print_field(at, parity((uint16_t)asked[0]));
}

static char *answer_image(char *at, const uint32_t *asked)
{
    return print_field(at, status_image((uint16_t)asked[0]));
}

static char *answer_judge(char *at, const uint32_t *asked)
{
    static const char *const words[] = {
        [VERDICT_ERROR] = "\terror", [VERDICT_EXCEPTION] = "\texception", [VERDICT_CLEAN] = "\tclean"};
    verdict v = VERDICT_ERROR;
    enum refusal refusal = status_judge(asked[0], asked[1], &v);
    at = print_field(at, refusal);
    if (refusal != ACCEPTED)
        return at;
    size_t length = strlen(words[v]);
    memcpy(at, words[v], length);
    return at + length;
}

/* ---- Questions ---- */

typedef struct {
    const char *verb;
    unsigned asked; /* fields */
    uint32_t most;  /* of each: a word that is taken apart has 16 bits */
    char *(*answer)(char *at, const uint32_t *asked);
} question;

static const question questions[] = {
    {"command", 4, UINT32_MAX, answer_command}, {"fields", 1, UINT16_MAX, answer_fields},
    {"status", 4, UINT32_MAX, answer_status},   {"bits", 1, UINT16_MAX, answer_bits},
    {"parity", 1, UINT16_MAX, answer_parity},   {"image", 1, UINT16_MAX, answer_image},
    {"judge", 2, UINT32_MAX, answer_judge}};

static const question *question_of(const in_line *line, size_t verb_length)
{
    for (size_t i = 0; i < sizeof questions / sizeof questions[0]; i++)
        if (strlen(questions[i].verb) == verb_length && memcmp(questions[i].verb, line->text, verb_length) == 0)
            return &questions[i];
    return NULL;
}

/* The fields that are asked; more may follow behind a tab. */
static bool take_asked(const question *q, const uint8_t *at, const uint8_t *end, uint32_t asked[ASKED_MAX])
{
    for (unsigned i = 0; i < q->asked; i++)
        if (!script_number(&at, end, &asked[i]) || asked[i] > q->most)
            return false;
    return at == end || *at == '\t';
}

static size_t print_question(const in_line *line, char *out)
{
    uint32_t asked[ASKED_MAX];
    const uint8_t *end = line->text + line->length, *tab = memchr(line->text, '\t', line->length);
    size_t verb_length = tab != NULL ? (size_t)(tab - line->text) : 0;
    const question *q = question_of(line, verb_length);
    if (!line->whole || q == NULL || !take_asked(q, tab, end, asked))
        return print_wrong_line(out);
    memcpy(out, q->verb, verb_length);
    char *at = out + verb_length;
    for (unsigned i = 0; i < q->asked; i++)
        at = print_field(at, asked[i]);
    at = q->answer(at, asked);
    *at++ = '\n';
    return (size_t)(at - out);
}

int wordlist_print(int in, int out)
{
    static in_stream i;
    static out_stream o;
    in_line line;
    in_open(&i, in, &o);
    out_open(&o, out);
    while (in_next_line(&i, &line))
        out_advance(&o, print_question(&line, out_room(&o, LINE_ROOM)));
    out_flush(&o);
    errno = o.failed ? o.failed : i.failed;
    return i.failed || o.failed ? -1 : 0;
}
