#include "input.h"

#include <stdio.h>
#include <string.h>

struct rig_part read_rig(uint8_t text[RIG_ROOM])
{
    size_t length = 0, line_start = 0;
    int byte;
    while (length < RIG_ROOM && (byte = getchar()) != EOF) {
        text[length++] = (uint8_t)byte;
        if (byte != '\n')
            continue;
        if (length - line_start == RUN_LINE && memcmp(text + line_start, "RUN\n", RUN_LINE) == 0)
            return (struct rig_part){line_start, true};
        line_start = length;
    }
    return (struct rig_part){length, false};
}

bool read_line(struct input_line *line)
{
    size_t length = 0;
    int byte;
    while ((byte = getchar()) != EOF && byte != '\n') {
        if (length < LINE_ROOM)
            line->text[length] = (char)byte;
        length++;
    }
    line->whole = byte == '\n' && length <= LINE_ROOM;
    line->length = length < LINE_ROOM ? length : LINE_ROOM;
    return byte == '\n' || length > 0;
}
