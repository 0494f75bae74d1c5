#include "wordsums.h"

#include <stdio.h>

#include "words.h"

enum { PARTS = 16, PART_WORDS = 4096, ADDRESSES = 34, SUBADDRESSES = 34, LASTS = 35, STATUSES = 520, IMAGES = 131076 };

static uint32_t mixed(uint32_t sum, uint32_t value)
{
    return (uint32_t)(((uint64_t)sum * 31 + value) % 65521);
}

static uint32_t mixed_answer(uint32_t sum, enum refusal answer, uint16_t word)
{
    sum = mixed(sum, (uint32_t)answer);
    return answer == 0 ? mixed(sum, word) : sum;
}

static uint32_t mixed_command(uint32_t sum, const command_fields *c)
{
    uint16_t word = 0;
    enum refusal answer = command_word(c, &word);
    return mixed_answer(sum, answer, word);
}

static uint32_t mixed_status(uint32_t sum, const status_fields *s)
{
    uint16_t word = 0;
    enum refusal answer = status_word(s, &word);
    return mixed_answer(sum, answer, word);
}

static void print_block(uint32_t block)
{
    uint32_t commands = 0, statuses = 0;
    for (uint32_t i = 0; i < PART_WORDS; i++) {
        uint16_t word = (uint16_t)(block * PART_WORDS + i);
        command_fields c = command_apart(word);
        commands = mixed(mixed(mixed(mixed(commands, c.address), c.transmit), c.subaddress), c.last);
        commands = mixed_command(commands, &c);
        status_fields s = status_apart(word);
        statuses = mixed(mixed(mixed(mixed(statuses, s.address), s.error), s.status), s.failure);
        statuses = mixed(mixed_status(statuses, &s), status_image(word));
    }
    printf("command\t%u\t%u\nstatus\t%u\t%u\n", block, commands, block, statuses);
}

static uint32_t all_fields(uint32_t address)
{
    uint32_t sum = 0;
    for (uint32_t sub = 0; sub < SUBADDRESSES; sub++)
        for (uint32_t last = 0; last < LASTS; last++)
            for (uint32_t transmit = 0; transmit < 2; transmit++)
                sum = mixed_command(sum, &(command_fields){address, transmit, sub, last});
    return sum;
}

static uint32_t all_bits(uint32_t address)
{
    uint32_t sum = 0;
    for (uint32_t status = 0; status < STATUSES; status++)
        for (uint32_t error = 0; error < 2; error++)
            for (uint32_t failure = 0; failure < 2; failure++)
                sum = mixed_status(sum, &(status_fields){address, error, status, failure});
    return sum;
}

static void print_judged(uint32_t address)
{
    static const uint32_t value_of[] = {[VERDICT_ERROR] = 2, [VERDICT_EXCEPTION] = 1, [VERDICT_CLEAN] = 0};
    uint32_t sum = 0, count[3] = {0, 0, 0}, refused = 0;
    for (uint32_t image = 0; image < IMAGES; image++) {
        verdict v = VERDICT_CLEAN;
        enum refusal answer = status_judge(image, address, &v);
        if (answer == 0)
            count[value_of[v]]++;
        else
            refused++;
        sum = mixed(sum, answer == 0 ? value_of[v] : (uint32_t)answer);
    }
    printf("judge\t%u\t%u\t%u\t%u\t%u\t%u\n", address, sum, refused, count[2], count[1], count[0]);
}

int wordsums_print(void)
{
    for (uint32_t block = 0; block < PARTS; block++)
        print_block(block);
    for (uint32_t address = 0; address < ADDRESSES; address++) {
        printf("fields\t%u\t%u\nbits\t%u\t%u\n", address, all_fields(address), address, all_bits(address));
        print_judged(address);
    }
    return fflush(stdout) == 0 ? 0 : -1;
}
