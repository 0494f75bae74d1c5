#include "entries.h"

#include <string.h>

#include "panel.h"
#include "script.h"

enum { LENT_MAX = ENTRIES_ROOM_MAX };

void entries_fill_area(entries_area *area)
{
    for (unsigned i = 0; i < ENTRIES_AREA_WORDS; i++)
        area->word[i] = (uint16_t)(7 * i + 1);
}

static uint32_t check_number(const uint16_t *words, size_t n)
{
    uint32_t check = 0;
    for (size_t i = 0; i < n; i++)
        check = (31 * check + words[i]) % 65521;
    return check;
}

/* ---- Judging ---- */

bool entries_judge(const uint8_t *line, size_t length, entries_call *out)
{
    const uint8_t *at = line, *end = line + length;
    if (length == 0)
        return false;
    *out = (entries_call){.verb = (char)*at++};
    switch (out->verb) {
    case 'W':
        return script_number(&at, end, &out->row) && script_number(&at, end, &out->area) &&
               script_number(&at, end, &out->words) && script_number(&at, end, &out->first) &&
               at == end && out->area <= ENTRIES_AREA_WORDS && out->words <= ENTRIES_DATA_MAX;
    case 'D':
        return script_number(&at, end, &out->row) && script_number(&at, end, &out->area) &&
               script_number(&at, end, &out->words) && at == end &&
               out->area <= ENTRIES_AREA_WORDS && out->words <= ENTRIES_DATA_MAX;
    case 'J':
        return script_number(&at, end, &out->words) && at == end &&
               out->words <= ENTRIES_ROOM_MAX;
    case 'H':
        return script_number(&at, end, &out->harm) && at == end && out->harm < HARMS;
    case 'P':
        return script_number(&at, end, &out->harm) && script_number(&at, end, &out->task) && at == end &&
               out->harm < HARMS;
    case 'I':
        return script_number(&at, end, &out->harm) && script_number(&at, end, &out->task) &&
               script_number(&at, end, &out->links) && at == end && out->harm < HARMS;
    default:
        return false;
    }
}

/* ---- Blocks and ticks ---- */

static answer run_write(exec *e, entries_area *area, const entries_call *call, uint32_t *check)
{
    uint16_t data[ENTRIES_DATA_MAX];
    for (uint32_t i = 0; i < call->words; i++)
        data[i] = (uint16_t)(call->first + i);
    answer a = exec_write_block(e, call->row, area->word, call->area, data, call->words);
    *check = check_number(area->word, ENTRIES_AREA_WORDS);
    return a;
}

static answer run_lent(exec *e, const entries_area *area, const entries_call *call, uint32_t *check)
{
    uint16_t lent[LENT_MAX];
    for (uint32_t i = 0; i < call->words; i++)
        lent[i] = (uint16_t)(9 * i + 2);
    answer a = call->verb == 'D'
                   ? exec_read_block(e, call->row, area->word, call->area, lent, call->words)
                   : exec_tick(e, lent, call->words);
    *check = check_number(lent, call->words);
    return a;
}

/* ---- Harmed records ---- */

/* The bytes of a record that are harmed. */
typedef struct {
    size_t from, length;
} harmed_bytes;

static harmed_bytes bytes_harmed(enum harm harm)
{
    size_t half = sizeof(exec) / 2;
    switch (harm) {
    case HARM_NONE:
        return (harmed_bytes){0, 0};
    case HARM_FIRST_HALF:
        return (harmed_bytes){0, half};
    case HARM_SECOND_HALF:
        return (harmed_bytes){half, sizeof(exec) - half};
    default:
        return (harmed_bytes){0, sizeof(exec)};
    }
}

static void do_harm(exec *e, enum harm harm)
{
    static const rig no_rig;
    harmed_bytes h = bytes_harmed(harm);
    if (harm == HARM_REFUSED_START)
        (void)exec_start(e, &no_rig);
    else
        memset((uint8_t *)e + h.from, harm == HARM_ZEROS ? 0 : 255, h.length);
}

static void undo_harm(exec *e, enum harm harm, const exec *before)
{
    harmed_bytes h = bytes_harmed(harm);
    memcpy((uint8_t *)e + h.from, (const uint8_t *)before + h.from, h.length);
}

/* The panel's question that the line has. */
static answer ask(const exec *e, const entries_call *call)
{
    char verb = call->verb == 'H' ? 'V' : call->verb == 'P' ? 'O' : 'Y';
    return panel_ask(e, &(panel_call){.verb = verb, .task = call->task, .links = call->links});
}

static size_t run_harmed(const exec *e, const entries_call *call, answer *a, char *out)
{
    static exec copy;
    char *at = out;
    copy = *e;
    do_harm(&copy, call->harm);
    *a = ask(&copy, call);
    undo_harm(&copy, call->harm, e);
    answer again = ask(&copy, call);
    *at++ = call->verb;
    at = print_field(at, a->refusal);
    at = print_field(at, a->served);
    at = print_field(at, a->words);
    at = print_field(at, a->value);
    at = print_field(at, a->woken);
    at = print_field(at, a->activated);
    at = print_field(at, again.refusal);
    at = print_field(at, again.value);
    *at++ = '\n';
    return (size_t)(at - out);
}

/* ---- All of them ---- */

size_t entries_run(exec *e, entries_area *area, const entries_call *call, answer *a, char *out)
{
    uint32_t check;
    if (strchr("HPI", call->verb) != NULL)
        return run_harmed(e, call, a, out);
    *a = call->verb == 'W' ? run_write(e, area, call, &check) : run_lent(e, area, call, &check);
    char *at = print_head(out, call->verb, a, e);
    at = print_field(at, a->served);
    at = print_field(at, check);
    *at++ = '\n';
    return (size_t)(at - out);
}
