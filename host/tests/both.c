/*
 * Both libraries in one program: what a terminal sends is judged by the monitor.
 *
 *   both    prints how many words' images were no error at their own address, and an error with the parity bit changed. Status 1 if
 *           any word's was not.
 */
#include <stdio.h>

#include "algolmallet.h"
#include "algolmallet_terminal.h"

enum { WORDS = 65536, WORDS_OF_ADDRESS = 2048 };

static int is_heard_as_sent(uint16_t word)
{
    algolmallet_status part = algolmallet_status_fields(word);
    algolmallet_word again = algolmallet_status_word(part.address, part.error, part.status, part.failure);
    uint32_t image = algolmallet_word_image(word);
    uint32_t want = word % WORDS_OF_ADDRESS == 0 ? ALGOLMALLET_CLEAN : ALGOLMALLET_EXCEPTION;
    return again.refusal == ALGOLMALLET_WORD_MADE && again.word == word && image / 2 == word &&
           algolmallet_judge(image, part.address) == want && algolmallet_judge(image ^ 1, part.address) == ALGOLMALLET_ERROR;
}

int main(void)
{
    uint32_t heard = 0;
    for (uint32_t word = 0; word < WORDS; word++)
        heard += (uint32_t)is_heard_as_sent((uint16_t)word);
    printf("%u\n", (unsigned)heard);
    return heard == WORDS ? 0 : 1;
}
