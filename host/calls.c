#include "calls.h"

#include <inttypes.h>
#include <stdio.h>

void print_reply(const char *verb, const algolmallet_reply *reply)
{
    printf("%s\t%" PRIu32 "\t%" PRIu32 "\t%" PRIu32, verb, reply->refusal, reply->count, reply->running);
    printf("\t%" PRIu32 "\t%" PRIu32, reply->woken, reply->activated);
}

/* Whether the verb is one of the calls and has the numbers that it takes. */
static bool is_call(const struct script_line *line)
{
    switch (line->verb) {
    case 'F':
    case 'K':
        return line->numbers == 0;
    case 'S':
    case 'X':
    case 'Z':
    case 'U':
    case 'R':
    case 'Q':
        return line->numbers == 1;
    case 'L':
    case 'N':
    case 'G':
        return line->numbers == 2 && line->number[1] <= 1;
    default:
        return false;
    }
}

/* Makes the call on the record where it stands; `words` takes a tick's bus words. */
static algolmallet_reply make_call(algolmallet_record *record, const struct script_line *line, uint16_t words[ALGOLMALLET_TICK_WORDS])
{
    uint32_t number = line->number[0];
    bool value = line->number[1] == 1;
    switch (line->verb) {
    case 'S':
        return algolmallet_schedule(record, number);
    case 'X':
        return algolmallet_cancel(record, number);
    case 'Z':
        return algolmallet_terminate(record, number);
    case 'F':
        return algolmallet_finish(record);
    case 'U':
        return algolmallet_wait_until(record, number);
    case 'R':
        return algolmallet_wait_for(record, number);
    case 'L':
        return algolmallet_wait_latched(record, number, value);
    case 'N':
        return algolmallet_wait_unlatched(record, number, value);
    case 'G':
        return algolmallet_signal(record, number, value);
    case 'Q':
        return algolmallet_read_flag(record, number);
    default:
        return algolmallet_tick(record, words, ALGOLMALLET_TICK_WORDS);
    }
}

bool run_call(algolmallet_record *record, const struct script_line *line)
{
    uint16_t words[ALGOLMALLET_TICK_WORDS] = {0};
    if (!is_call(line))
        return false;
    algolmallet_reply reply = make_call(record, line, words);
    print_reply((char[]){line->verb, 0}, &reply);
    if (reply.refusal == ALGOLMALLET_ACCEPTED && line->verb == 'Q')
        printf("\t%" PRIu32, reply.value);
    if (reply.refusal == ALGOLMALLET_ACCEPTED && line->verb == 'K')
        for (uint32_t i = 0; i < reply.words; i++)
            printf("\t%" PRIu16, words[i]);
    putchar('\n');
    return true;
}
