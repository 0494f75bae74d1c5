#include "panel.h"

#include <inttypes.h>
#include <stdio.h>

#include "calls.h"

enum { NONE_WAITS = 0 }; /* no waking count is 0 */

static void tell_next_waking(algolmallet_record *record)
{
    algolmallet_reply reply = algolmallet_next_waking(record);
    print_reply("V", &reply);
    if (reply.value != NONE_WAITS)
        printf("\t%" PRIu32, reply.value);
    putchar('\n');
}

static void tell_overruns(algolmallet_record *record, uint32_t task)
{
    algolmallet_reply reply = algolmallet_overruns(record, task);
    print_reply("O", &reply);
    if (reply.refusal == ALGOLMALLET_ACCEPTED)
        printf("\t%" PRIu32, reply.value);
    putchar('\n');
}

static void tell_why_not(algolmallet_record *record, uint32_t task, uint32_t links)
{
    algolmallet_reply reply = algolmallet_why_not(record, task, links);
    print_reply("Y", &reply);
    if (reply.refusal == ALGOLMALLET_ACCEPTED && reply.value != ALGOLMALLET_CAN_START)
        printf("\t%" PRIu32, reply.value);
    putchar('\n');
}

bool run_panel_call(algolmallet_record *record, const struct script_line *line)
{
    if (line->verb == 'V' && line->numbers == 0)
        tell_next_waking(record);
    else if (line->verb == 'O' && line->numbers == 1)
        tell_overruns(record, line->number[0]);
    else if (line->verb == 'Y' && line->numbers == 2)
        tell_why_not(record, line->number[0], line->number[1]);
    else
        return false;
    return true;
}
