#include "tally_stream.h"

#include "script.h"
#include "tally.h"

static bool is_right_line(const uint8_t *line, size_t length)
{
    script_call call;
    return script_judge(line, length, &call);
}

static bool has_right_tail(const uint8_t *line, size_t length)
{
    for (size_t at = USUAL_ROOM; at < length; at += USUAL_ROOM)
        if (is_right_line(line + at, length - at))
            return true;
    return false;
}

void tally_stream_line(stream_tally *t, const uint8_t *line, size_t length, bool has_lf, size_t place)
{
    size_t with_lf = length + (has_lf ? 1 : 0);
    bool just_in = with_lf <= USUAL_ROOM && with_lf + NEAR_ROOM > USUAL_ROOM;
    bool just_out = with_lf > USUAL_ROOM && with_lf <= USUAL_ROOM + NEAR_ROOM;
    t->tails += has_lf && has_right_tail(line, length);
    t->below += has_lf && just_in;
    t->above += has_lf && just_out;
    t->unfinished += !has_lf && length >= USUAL_ROOM;
    t->places += !t->began[place % USUAL_ROOM];
    t->began[place % USUAL_ROOM] = true;
}

void tally_stream_verdict(stream_tally *t, const rig_verdict *v)
{
    t->far_faults += v->line > FAR_LINE;
}

void tally_stream_print(const stream_tally *t, FILE *to)
{
    fprintf(to,
            "stream\n"
            "  over-long lines with a right tail %llu; lines just below a room %llu, just above %llu\n"
            "  unfinished over-long last lines %llu; rigs refused past line %d: %llu\n"
            "  places of a room at which an answer began: %llu of %d\n"
            "  inputs as files %llu, in odd pieces %llu, byte by byte %llu\n",
            (unsigned long long)t->tails, (unsigned long long)t->below, (unsigned long long)t->above,
            (unsigned long long)t->unfinished, FAR_LINE, (unsigned long long)t->far_faults,
            (unsigned long long)t->places, USUAL_ROOM, (unsigned long long)t->fed[FED_AS_FILE],
            (unsigned long long)t->fed[FED_IN_PIECES], (unsigned long long)t->fed[FED_BYTE_BY_BYTE]);
}

unsigned tally_stream_missing(const stream_tally *t, uint64_t least, FILE *to)
{
    unsigned n = tally_seldom(t->tails, least, to, "over-long line", "with a right tail");
    n += tally_seldom(t->below, least, to, "line", "just below a room");
    n += tally_seldom(t->above, least, to, "line", "just above a room");
    n += tally_seldom(t->unfinished, least / 2, to, "over-long last line", "without LF");
    n += tally_seldom(t->far_faults, least / 2, to, "rig refused", "past line 4,096");
    n += tally_seldom(t->places, USUAL_ROOM, to, "place of a room", "at which an answer begins");
    n += tally_seldom(t->fed[FED_IN_PIECES], least / 2, to, "input", "in odd pieces");
    n += tally_seldom(t->fed[FED_BYTE_BY_BYTE], least / 2, to, "input", "byte by byte");
    return n;
}
