#include "script.h"

#include "number.h"

bool take_apart(const struct input_line *line, struct script_line *out)
{
    const char *at = line->text, *end = line->text + line->length;
    if (!line->whole || line->length == 0)
        return false;
    *out = (struct script_line){.verb = *at++};
    while (at < end && *at == '\t' && out->numbers < NUMBERS_MAX) {
        at++;
        if (!take_number(&at, end, &out->number[out->numbers++]))
            return false;
    }
    return at == end;
}
