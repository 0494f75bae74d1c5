#include "script.h"

#include <string.h>

#include "mutant.h"

/* ---- Judging ---- */

/* What follows the verb. */
enum line_shape { SHAPE_NONE, SHAPE_BARE, SHAPE_NUMBER, SHAPE_NUMBER_VALUE };

static enum line_shape shape_of(uint8_t verb)
{
    switch (verb) {
    case 'F':
    case 'K':
        return SHAPE_BARE;
    case 'S':
    case 'X':
    case 'Z':
    case 'U':
    case 'R':
    case 'Q':
        return SHAPE_NUMBER;
    case 'L':
    case 'N':
    case 'G':
        return SHAPE_NUMBER_VALUE;
    default:
        return SHAPE_NONE;
    }
}

bool script_number(const uint8_t **at, const uint8_t *end, uint32_t *out)
{
    const uint8_t *p = *at;
    uint64_t value = 0;
    if (p == end || *p++ != '\t')
        return false;
    const uint8_t *digits = p;
    while (p < end && *p >= '0' && *p <= '9') {
        value = value * 10 + (uint64_t)(*p++ - '0');
        if (value > UINT32_MAX)
            return false;
    }
    if (p == digits || (*digits == '0' && p - digits > 1 && !MUTATED(SPARE_ZEROS)))
        return false;
    *out = (uint32_t)value;
    *at = p;
    return true;
}

static bool take_value(const uint8_t **at, const uint8_t *end, bool *out)
{
    uint32_t value;
    if (!script_number(at, end, &value) || value > 1)
        return false;
    *out = value == 1;
    return true;
}

bool script_judge(const uint8_t *line, size_t length, script_call *out)
{
    const uint8_t *at = line, *end = line + length;
    if (length == 0 || length > SCRIPT_LINE_MAX)
        return false;
    *out = (script_call){.verb = (char)*at};
    switch (shape_of(*at++)) {
    case SHAPE_BARE:
        return at == end;
    case SHAPE_NUMBER:
        return script_number(&at, end, &out->number) && at == end;
    case SHAPE_NUMBER_VALUE:
        return script_number(&at, end, &out->number) && take_value(&at, end, &out->value) &&
               at == end;
    default:
        return false;
    }
}

/* ---- Calling ---- */

answer script_apply(exec *e, const script_call *call, uint16_t words[TICK_WORDS])
{
    switch (call->verb) {
    case 'S':
        return exec_schedule(e, call->number);
    case 'X':
        return exec_cancel(e, call->number);
    case 'Z':
        return exec_terminate(e, call->number);
    case 'F':
        return exec_finish(e);
    case 'U':
        return exec_wait_until(e, call->number);
    case 'R':
        return exec_wait_cycles(e, call->number);
    case 'L':
        return exec_wait_latched(e, call->number, call->value);
    case 'N':
        return exec_wait_unlatched(e, call->number, call->value);
    case 'G':
        return exec_signal(e, call->number, call->value);
    case 'Q':
        return exec_read_flag(e, call->number);
    default:
        return exec_tick(e, words, TICK_WORDS);
    }
}

/* ---- Printing ---- */

char *print_field(char *at, uint32_t value)
{
    char digits[10];
    unsigned n = 0;
    *at++ = '\t';
    do
        digits[n++] = (char)('0' + value % 10);
    while ((value /= 10) != 0);
    while (n > 0)
        *at++ = digits[--n];
    return at;
}

static char *print_text(char *at, const char *text)
{
    size_t length = strlen(text);
    memcpy(at, text, length);
    return at + length;
}

static size_t end_line(char *out, char *at)
{
    *at++ = '\n';
    return (size_t)(at - out);
}

/* For mutants alone: the numbers that they print for this answer, some of them those of an earlier one. */
static answer numbers_told(char verb, const answer *a)
{
    static answer before;
    bool stale = (MUTATED(REFUSAL_TELLS_LAST) && a->refusal != ACCEPTED) || (MUTATED(NUMBERS_STAND) && a->served == 0) ||
                 (MUTATED(QUESTION_TELLS_LAST) && verb == 'V') || (MUTATED(BLOCKS_TELL_LAST) && strchr("WD", verb) != NULL);
    if (stale)
        return before;
    before = *a;
    if (MUTATED(NUMBERS_SWAPPED))
        return (answer){.woken = a->activated, .activated = a->woken};
    return before;
}

/* How many tasks the services of the call woke, and how many they activated.  `verb`, the line's first letter, is for mutants. */
static char *print_heard(char *at, char verb, const answer *a)
{
    answer told = WITH_MUTANTS ? numbers_told(verb, a) : *a;
    if (MUTATED(NUMBERS_UNPRINTED))
        return at;
    at = print_field(at, told.woken);
    return print_field(at, told.activated);
}

char *print_head(char *out, char verb, const answer *a, const exec *e)
{
    char *at = out;
    *at++ = verb;
    at = print_field(at, a->refusal);
    at = print_field(at, e->count);
    at = print_field(at, e->running);
    return MUTATED(NUMBERS_BEHIND) ? at : print_heard(at, verb, a);
}

size_t print_call(char *out, const script_call *call, const answer *a, const exec *e,
                  const uint16_t *words)
{
    char *at = print_head(out, call->verb, a, e);
    if (a->refusal == ACCEPTED && call->verb == 'Q')
        at = print_field(at, a->value);
    for (unsigned i = 0; i < a->words; i++)
        at = print_field(at, words[i]);
    if (MUTATED(NUMBERS_BEHIND))
        at = print_heard(at, call->verb, a);
    return end_line(out, at);
}

size_t print_wrong_line(char *out)
{
    return end_line(out, print_text(out, "?"));
}

size_t print_started(char *out, const answer *a, const exec *e)
{
    char *at = print_text(out, "START");
    at = print_field(at, a->refusal);
    at = print_field(at, e->count);
    at = print_field(at, e->running);
    return end_line(out, print_heard(at, *out, a));
}

size_t print_refused_rig(char *out, const char *word, const rig_verdict *v)
{
    bool cut = MUTATED(LINE_UNTOLD) || (MUTATED(LINE_NUMBER_CUT) && v->line >= LINE_NUMBERS_CUT_FROM);
    char *at = print_text(out, word);
    at = print_field(at, v->refusal);
    at = print_field(at, cut ? 0 : v->line);
    return end_line(out, at);
}
