#include "harmed.h"

#include <inttypes.h>
#include <stdio.h>
#include <stdlib.h>
#include <string.h>

#include "record.h"

enum harm { NO_HARM, REFUSED_START, ALL_ZEROS, ALL_ONES, FIRST_HALF, SECOND_HALF, HARMS };

/* Some bytes of a record. */
struct part {
    size_t from, length;
};

static struct part harmed_part(enum harm harm)
{
    size_t size = algolmallet_record_size(), half = size / 2;
    switch (harm) {
    case NO_HARM:
        return (struct part){0, 0};
    case FIRST_HALF:
        return (struct part){0, half};
    case SECOND_HALF:
        return (struct part){half, size - half};
    default:
        return (struct part){0, size};
    }
}

static void harm_copy(algolmallet_record *copy, enum harm harm)
{
    static const uint8_t empty_file[1];
    struct part part = harmed_part(harm);
    if (harm == REFUSED_START)
        (void)algolmallet_start(copy, empty_file, 0);
    else
        memset((uint8_t *)copy + part.from, harm == ALL_ZEROS ? 0 : 255, part.length);
}

static void put_back(algolmallet_record *copy, enum harm harm, const algolmallet_record *record)
{
    struct part part = harmed_part(harm);
    memcpy((uint8_t *)copy + part.from, (const uint8_t *)record + part.from, part.length);
}

/* The question that the line has. */
static algolmallet_reply ask(algolmallet_record *copy, const struct script_line *line)
{
    switch (line->verb) {
    case 'H':
        return algolmallet_next_waking(copy);
    case 'P':
        return algolmallet_overruns(copy, line->number[1]);
    default:
        return algolmallet_why_not(copy, line->number[1], line->number[2]);
    }
}

static void ask_harmed(const algolmallet_record *record, const struct script_line *line)
{
    enum harm harm = line->number[0];
    algolmallet_record *copy = make_room_for_record();
    memcpy(copy, record, algolmallet_record_size());
    harm_copy(copy, harm);
    algolmallet_reply reply = ask(copy, line);
    put_back(copy, harm, record);
    algolmallet_reply again = ask(copy, line);
    free(copy);
    printf("%c\t%" PRIu32 "\t%" PRIu32 "\t%" PRIu32 "\t%" PRIu32, line->verb, reply.refusal, reply.served, reply.words, reply.value);
    printf("\t%" PRIu32 "\t%" PRIu32 "\t%" PRIu32 "\t%" PRIu32 "\n", reply.woken, reply.activated, again.refusal, again.value);
}

static bool is_question(const struct script_line *line)
{
    bool has_its_numbers =
        (line->verb == 'H' && line->numbers == 1) || (line->verb == 'P' && line->numbers == 2) || (line->verb == 'I' && line->numbers == 3);
    return has_its_numbers && line->number[0] < HARMS;
}

bool run_harmed_call(const algolmallet_record *record, const struct script_line *line)
{
    if (!is_question(line))
        return false;
    ask_harmed(record, line);
    return true;
}
