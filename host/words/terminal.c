/*
 * An example of a terminal board: the words that it sends, made by the library that has no table. It includes algolmallet_terminal.h and
 * links libalgolmallet_terminal.a, and nothing else of Algolmallet.
 *
 *   terminal          questions on standard input, one a line, answers on standard output:
 *       command ADDRESS TRANSMIT SUB-ADDRESS LAST    number [word]
 *       status ADDRESS ERROR STATUS FAILURE          number [word image]
 *       image WORD                                   image
 *     The number is 0, or the refusal's 11 alone.
 *
 *   terminal --all    everything it can be asked, with fields in and out of their sizes. An answer is the word, or -11 if refused:
 *       image WORD IMAGE                             for each word
 *       command ADDRESS TRANSMIT SUB-ADDRESS and the answers to the last field 0 to 34
 *       status ADDRESS ERROR STATUS and the answers to failure 0 to 2
 *       answers command ACCEPTED REFUSED, the same for status, answers image IMAGES: how many
 */
#include <stdio.h>

#include "algolmallet_terminal.h"
#include "questions.h"

/* For --all: each field goes past its size. */
enum { WORDS = 65536, ADDRESSES = 34, BITS = 3, SUB_ADDRESSES = 34, LASTS = 35, STATUSES = 520 };

struct answer_count {
    uint32_t accepted, refused;
};

/* ---- Questions ---- */

static void put_number_and_word(algolmallet_word made)
{
    put_field(made.refusal);
    if (made.refusal == ALGOLMALLET_WORD_MADE)
        put_field(made.word);
}

static void answer_command(const uint32_t *asked)
{
    put_number_and_word(algolmallet_command_word(asked[0], asked[1], asked[2], asked[3]));
}

static void answer_status(const uint32_t *asked)
{
    algolmallet_word made = algolmallet_status_word(asked[0], asked[1], asked[2], asked[3]);
    put_number_and_word(made);
    if (made.refusal == ALGOLMALLET_WORD_MADE)
        put_field(algolmallet_word_image(made.word));
}

static void answer_image(const uint32_t *asked)
{
    put_field(algolmallet_word_image((uint16_t)asked[0]));
}

static const struct question questions[] = {{"command", 4, UINT32_MAX, answer_command},
                                            {"status", 4, UINT32_MAX, answer_status},
                                            {"image", 1, UINT16_MAX, answer_image},
                                            {NULL, 0, 0, NULL}};

/* ---- Everything ---- */

static void print_images(void)
{
    for (uint32_t word = 0; word < WORDS; word++) {
        fputs("image", stdout);
        put_field(word);
        put_field(algolmallet_word_image((uint16_t)word));
        putchar('\n');
    }
}

/* The word, or minus its refusal. After a refusal the word is 0; one that is not would be seen. */
static void put_made(algolmallet_word made, struct answer_count *count)
{
    if (made.refusal == ALGOLMALLET_WORD_MADE) {
        count->accepted++;
        put_field(made.word);
        return;
    }
    count->refused++;
    printf("\t-%u", (unsigned)made.refusal);
    if (made.word != 0)
        put_field(made.word);
}

static void put_three(const char *verb, uint32_t first, uint32_t second, uint32_t third)
{
    fputs(verb, stdout);
    put_field(first);
    put_field(second);
    put_field(third);
}

static void print_commands_of(uint32_t address, struct answer_count *count)
{
    for (uint32_t transmit = 0; transmit < BITS; transmit++) {
        for (uint32_t sub = 0; sub < SUB_ADDRESSES; sub++) {
            put_three("command", address, transmit, sub);
            for (uint32_t last = 0; last < LASTS; last++)
                put_made(algolmallet_command_word(address, transmit, sub, last), count);
            putchar('\n');
        }
    }
}

static void print_statuses_of(uint32_t address, struct answer_count *count)
{
    for (uint32_t error = 0; error < BITS; error++) {
        for (uint32_t status = 0; status < STATUSES; status++) {
            put_three("status", address, error, status);
            for (uint32_t failure = 0; failure < BITS; failure++)
                put_made(algolmallet_status_word(address, error, status, failure), count);
            putchar('\n');
        }
    }
}

static void print_all(void)
{
    struct answer_count commands = {0, 0}, statuses = {0, 0};
    print_images();
    for (uint32_t address = 0; address < ADDRESSES; address++)
        print_commands_of(address, &commands);
    for (uint32_t address = 0; address < ADDRESSES; address++)
        print_statuses_of(address, &statuses);
    printf("answers\tcommand\t%u\t%u\n", (unsigned)commands.accepted, (unsigned)commands.refused);
    printf("answers\tstatus\t%u\t%u\n", (unsigned)statuses.accepted, (unsigned)statuses.refused);
    printf("answers\timage\t%d\n", WORDS);
}

int main(int argc, char **argv)
{
    static const struct word_program terminal = {
        .name = "terminal",
        .usage = "usage: terminal          questions on standard input, one a line: command, status or image, and its numbers behind tabs\n"
                 "       terminal --all    every word and image, answer by answer\n",
        .questions = questions,
        .print_all = print_all,
    };
    return run_word_program(&terminal, argc, argv);
}
