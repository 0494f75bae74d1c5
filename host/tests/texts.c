/*
 * The library's version and its refusals' texts, as a host sees them.
 *
 *   texts    prints the version as the header and as the archive have it, then each number with its text
 */
#include <inttypes.h>
#include <stdio.h>
#include <string.h>

#include "algolmallet.h"

enum { NUMBERS = 14 }; /* 0 to 12, and one that no refusal has */

/* Nothing is written where the text and its end do not fit, and nothing behind them where they do. */
static int keeps_to_its_room(uint32_t number, size_t length)
{
    char out[ALGOLMALLET_TEXT_BYTES + 1];
    for (size_t room = 0; room <= sizeof out; room++) {
        memset(out, '#', sizeof out);
        if (algolmallet_refusal_text(number, out, room) != length)
            return 0;
        if (room <= length ? out[0] != '#' : strlen(out) != length)
            return 0;
        for (size_t i = room <= length ? 0 : length + 1; i < sizeof out; i++)
            if (out[i] != '#')
                return 0;
    }
    return 1;
}

int main(void)
{
    printf("%s\t%d\t%" PRIu32 "\n", ALGOLMALLET_VERSION, ALGOLMALLET_VERSION_NUMBER, algolmallet_version());
    for (uint32_t number = 0; number < NUMBERS; number++) {
        char out[ALGOLMALLET_TEXT_BYTES];
        size_t length = algolmallet_refusal_text(number, out, sizeof out);
        if (length >= sizeof out || !keeps_to_its_room(number, length))
            return 1;
        printf("%" PRIu32 "\t%s\n", number, out);
    }
    return 0;
}
