#include "numbers.h"

bool number_of(const char *word, uint64_t least, uint64_t most, uint64_t *out)
{
    uint64_t value = 0;
    if (word[0] == 0 || (word[0] == '0' && word[1] != 0))
        return false;
    for (const char *at = word; *at != 0; at++) {
        if (*at < '0' || *at > '9')
            return false;
        uint64_t digit = (uint64_t)(*at - '0');
        if (value > (UINT64_MAX - digit) / 10)
            return false;
        value = value * 10 + digit;
    }
    if (value < least || value > most)
        return false;
    *out = value;
    return true;
}

bool small_number_of(const char *word, unsigned least, unsigned most, unsigned *out)
{
    uint64_t value;
    if (!number_of(word, least, most, &value))
        return false;
    *out = (unsigned)value;
    return true;
}
