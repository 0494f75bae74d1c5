#include "blocks.h"

#include <inttypes.h>
#include <stdio.h>

#include "calls.h"

enum { AREA_WORDS = 4096, DATA_MAX = 64, ROOM_MAX = 256 };

static uint16_t area[AREA_WORDS];

void fill_area(void)
{
    for (unsigned i = 0; i < AREA_WORDS; i++)
        area[i] = (uint16_t)(7 * i + 1);
}

static uint32_t sum_of(const uint16_t *words, size_t count)
{
    uint32_t sum = 0;
    for (size_t i = 0; i < count; i++)
        sum = (31 * sum + words[i]) % 65521;
    return sum;
}

static void print_with_sum(const char *verb, const algolmallet_reply *reply, const uint16_t *words, size_t count)
{
    print_reply(verb, reply);
    printf("\t%" PRIu32 "\t%" PRIu32 "\n", reply->served, sum_of(words, count));
}

static void write_block(algolmallet_record *record, const uint32_t number[NUMBERS_MAX])
{
    uint32_t row = number[0], area_words = number[1], words = number[2], first = number[3];
    uint16_t data[DATA_MAX];
    for (uint32_t i = 0; i < words; i++)
        data[i] = (uint16_t)(first + i);
    algolmallet_reply reply = algolmallet_write_block(record, row, area, area_words, data, words);
    print_with_sum("W", &reply, area, AREA_WORDS);
}

static void fill_buffer(uint16_t *buffer, uint32_t words)
{
    for (uint32_t i = 0; i < words; i++)
        buffer[i] = (uint16_t)(9 * i + 2);
}

static void read_block(algolmallet_record *record, const uint32_t number[NUMBERS_MAX])
{
    uint32_t row = number[0], area_words = number[1], words = number[2];
    uint16_t buffer[DATA_MAX];
    fill_buffer(buffer, words);
    algolmallet_reply reply = algolmallet_read_block(record, row, area, area_words, buffer, words);
    print_with_sum("D", &reply, buffer, words);
}

static void tick_with_room(algolmallet_record *record, uint32_t room)
{
    uint16_t buffer[ROOM_MAX];
    fill_buffer(buffer, room);
    algolmallet_reply reply = algolmallet_tick(record, buffer, room);
    print_with_sum("J", &reply, buffer, room);
}

bool run_block_call(algolmallet_record *record, const struct script_line *line)
{
    const uint32_t *number = line->number;
    bool lends_area = number[1] <= AREA_WORDS && number[2] <= DATA_MAX;
    if (line->verb == 'W' && line->numbers == 4 && lends_area)
        write_block(record, number);
    else if (line->verb == 'D' && line->numbers == 3 && lends_area)
        read_block(record, number);
    else if (line->verb == 'J' && line->numbers == 1 && number[0] <= ROOM_MAX)
        tick_with_room(record, number[0]);
    else
        return false;
    return true;
}
