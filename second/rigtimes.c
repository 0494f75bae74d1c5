#include "rigtimes.h"

#include <stdbool.h>
#include <stdio.h>
#include <string.h>

#include "rig.h"
#include "stream.h"

enum { TURNS = 1000 };

static bool reads(const in_stream *file, rig *r)
{
    return rig_read(file->text, file->length, r).refusal == ACCEPTED;
}

static bool writes_back(const in_stream *file, rig *r)
{
    uint8_t out[RIG_FILE_MAX];
    size_t length = 0;
    return reads(file, r) && rig_write(r, out, sizeof out, &length) == ACCEPTED && length == file->length &&
           memcmp(out, file->text, length) == 0;
}

int rigtimes_print(int in)
{
    static in_stream file;
    static rig r;
    unsigned accepted = 0, same = 0;
    in_open(&file, in, NULL);
    while (in_fill(&file))
        ;
    if (file.failed)
        return -1;
    for (unsigned i = 0; i < TURNS; i++)
        accepted += reads(&file, &r);
    for (unsigned i = 0; i < TURNS; i++)
        same += writes_back(&file, &r);
    return printf("%u times accepted, %u times written back the same\n", accepted, same) < 0 ? -1 : 0;
}
