#include "panel.h"

#include "mutant.h"
#include "script.h"
#include "why.h"

bool panel_judge(const uint8_t *line, size_t length, panel_call *out)
{
    const uint8_t *at = line, *end = line + length;
    if (length == 0)
        return false;
    *out = (panel_call){.verb = (char)*at++};
    switch (out->verb) {
    case 'V':
        return at == end || (MUTATED(PANEL_TAKES_FIELDS) && *at == '\t');
    case 'O':
        return script_number(&at, end, &out->task) && (at == end || (MUTATED(SECOND_TASK_TAKEN) && *at == '\t'));
    case 'Y':
        return !MUTATED(WHY_UNKNOWN) && script_number(&at, end, &out->task) && script_number(&at, end, &out->links) &&
               (at == end || (MUTATED(THIRD_NUMBER_TAKEN) && *at == '\t'));
    default:
        return false;
    }
}

answer panel_ask(const exec *e, const panel_call *call)
{
    switch (call->verb) {
    case 'V':
        return exec_next_waking(e);
    case 'O':
        return exec_overruns(e, call->task);
    default:
        return exec_why_not(e, call->task, call->links);
    }
}

/* Whether the value is printed: V leaves out what stands for none, Y what stands for yes. */
static bool is_told(const panel_call *call, const answer *a)
{
    if (a->refusal != ACCEPTED)
        return false;
    switch (call->verb) {
    case 'V':
        return a->value != 0;
    case 'O':
        return a->value != 0 || !MUTATED(NUMBER_ZERO_UNPRINTED);
    default:
        return (a->value != CAN_START || MUTATED(YES_PRINTED)) && (a->value != 0 || !MUTATED(POSITION_0_UNPRINTED));
    }
}

size_t panel_run(const exec *e, const panel_call *call, answer *a, char *out)
{
    *a = panel_ask(e, call);
    char *at = print_head(out, call->verb, a, e);
    if (is_told(call, a))
        at = print_field(at, a->value);
    *at++ = '\n';
    return (size_t)(at - out);
}
