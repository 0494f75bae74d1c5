/*
 * An example of a bus monitor: words taken apart and images judged by the library for hosts, which looks parities up in its table.
 *
 *   monitor          questions on standard input, one a line, answers on standard output:
 *       fields WORD            address, transmit, sub-address, last field of a command
 *       bits WORD              address, error, status, failure of a status
 *       judge IMAGE ADDRESS    0 and clean, exception or error; or the refusal's 11 alone
 *
 *   monitor --all    everything it can be asked, with addresses and images in and out of their sizes:
 *       fields, bits           for each word
 *       judge ADDRESS FIRST VERDICTS: the images from FIRST on, 4,096 a line, then the four past the last; a verdict is one
 *                              character, 0 clean, 1 exception, 2 error, x refused by 11
 *       answers judge CLEAN EXCEPTION ERROR REFUSED: how many
 */
#include <stdio.h>

#include "algolmallet.h"
#include "questions.h"

enum { WORDS = 65536, IMAGES = 131072, IMAGES_PAST = 4, LINE_IMAGES = 4096, ADDRESSES = 34, VERDICTS = 3 };

struct verdict_count {
    uint32_t of[VERDICTS], refused;
};

/* ---- Questions ---- */

static void put_four(uint32_t first, uint32_t second, uint32_t third, uint32_t fourth)
{
    put_field(first);
    put_field(second);
    put_field(third);
    put_field(fourth);
}

static void answer_fields(const uint32_t *asked)
{
    algolmallet_command command = algolmallet_command_fields((uint16_t)asked[0]);
    put_four(command.address, command.transmit, command.sub_address, command.last);
}

static void answer_bits(const uint32_t *asked)
{
    algolmallet_status status = algolmallet_status_fields((uint16_t)asked[0]);
    put_four(status.address, status.error, status.status, status.failure);
}

static void answer_judge(const uint32_t *asked)
{
    static const char *const names[VERDICTS] = {
        [ALGOLMALLET_CLEAN] = "clean", [ALGOLMALLET_EXCEPTION] = "exception", [ALGOLMALLET_ERROR] = "error"};
    uint32_t answer = algolmallet_judge(asked[0], asked[1]);
    if (answer < VERDICTS)
        printf("\t0\t%s", names[answer]);
    else
        put_field(answer);
}

static const struct question questions[] = {{"fields", 1, UINT16_MAX, answer_fields},
                                            {"bits", 1, UINT16_MAX, answer_bits},
                                            {"judge", 2, UINT32_MAX, answer_judge},
                                            {NULL, 0, 0, NULL}};

/* ---- Everything ---- */

static void print_word(uint32_t word)
{
    fputs("fields", stdout);
    put_field(word);
    answer_fields(&word);
    fputs("\nbits", stdout);
    put_field(word);
    answer_bits(&word);
    putchar('\n');
}

/* An answer as one character, counted; `?` for what the header does not know. */
static char mark_of(uint32_t answer, struct verdict_count *count)
{
    if (answer < VERDICTS) {
        count->of[answer]++;
        return (char)('0' + answer);
    }
    count->refused++;
    return answer == ALGOLMALLET_WORD_OUTSIDE_SIZE ? 'x' : '?';
}

static void print_verdicts(uint32_t address, uint32_t first, uint32_t images, struct verdict_count *count)
{
    char marks[LINE_IMAGES];
    for (uint32_t i = 0; i < images; i++)
        marks[i] = mark_of(algolmallet_judge(first + i, address), count);
    fputs("judge", stdout);
    put_field(address);
    put_field(first);
    putchar('\t');
    fwrite(marks, 1, images, stdout);
    putchar('\n');
}

static void print_all(void)
{
    struct verdict_count count = {{0, 0, 0}, 0};
    for (uint32_t word = 0; word < WORDS; word++)
        print_word(word);
    for (uint32_t address = 0; address < ADDRESSES; address++) {
        for (uint32_t first = 0; first < IMAGES; first += LINE_IMAGES)
            print_verdicts(address, first, LINE_IMAGES, &count);
        print_verdicts(address, IMAGES, IMAGES_PAST, &count);
    }
    fputs("answers\tjudge", stdout);
    put_four(count.of[ALGOLMALLET_CLEAN], count.of[ALGOLMALLET_EXCEPTION], count.of[ALGOLMALLET_ERROR], count.refused);
    putchar('\n');
}

int main(int argc, char **argv)
{
    static const struct word_program monitor = {
        .name = "monitor",
        .usage = "usage: monitor          questions on standard input, one a line: fields, bits or judge, and its numbers behind tabs\n"
                 "       monitor --all    every word and image, answer by answer\n",
        .questions = questions,
        .print_all = print_all,
    };
    return run_word_program(&monitor, argc, argv);
}
