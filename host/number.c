#include "number.h"

bool take_number(const char **at, const char *end, uint32_t *out)
{
    const char *first = *at;
    uint64_t value = 0;
    while (*at < end && **at >= '0' && **at <= '9') {
        value = value * 10 + (uint64_t)(**at - '0');
        if (value > UINT32_MAX)
            return false;
        ++*at;
    }
    *out = (uint32_t)value;
    bool spare_zero = *at - first > 1 && *first == '0';
    return *at > first && !spare_zero;
}
