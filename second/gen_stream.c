/* Inputs that try how a runner reads and writes: lines and outputs about the length of its rooms, and late faults. */
#include "gen.h"

enum {
    EMPTY_LINES = 34000,   /* answered by ? and LF each: past the end of a room */
    TICKS_TO_TEN = 10,     /* the tick that makes a line one byte longer */
    WIDE_TICKS = 600,      /* of some 700 bytes each */
    CYCLE_FLAGS_ALL = 128, /* M lines that a cycle has room for, by their order */
    FAR_LINES_MOST = 5000  /* so that a file of M lines stays below 40,960 bytes */
};

/* ---- Rigs and parts of scripts ---- */

/* One task that always runs, one flag, no bus row. */
static void add_plain_rig(text *out)
{
    text_print(out, "RIG\t1\t1\t1\t0\nT\t1\t0\t0\t0\t0\n");
    gen_add_run(out);
}

static void add_ticks(unsigned ticks, text *out)
{
    while (ticks-- > 0)
        text_print(out, "K\n");
}

/* Lines that the plain rig accepts, each with an answer of its own. */
static void add_right_line(chance *c, text *out)
{
    static const char *const lines[] = {"K", "Q\t1", "G\t1\t1", "G\t1\t0", "R\t0", "L\t1\t2", "S\t1", "U\t0"};
    text_print(out, "%s", lines[pick(c, 0, sizeof lines / sizeof lines[0] - 1)]);
}

static void add_right_lines(chance *c, unsigned most, text *out)
{
    for (unsigned n = pick(c, 0, most); n > 0; n--) {
        add_right_line(c, out);
        text_print(out, "\n");
    }
}

/* So many bytes that are no LF: one byte again and again, or any. */
static void add_junk(chance *c, size_t length, text *out)
{
    static const uint8_t usual[] = "xK0\t\r?";
    bool any = likely(c, 20);
    uint8_t byte = usual[pick(c, 0, sizeof usual - 2)];
    for (size_t i = 0; i < length; i++) {
        if (any)
            byte = (uint8_t)pick(c, '\n' + 1, 255);
        text_add(out, &byte, 1);
    }
}

/* A number of bytes at or about a multiple of the room, most often the first. */
static size_t about_room(chance *c, unsigned percent_exactly)
{
    size_t length = (size_t)USUAL_ROOM * (likely(c, 75) ? 1 : pick(c, 2, 3));
    return likely(c, percent_exactly) ? length : length - NEAR_ROOM + pick(c, 0, 2 * NEAR_ROOM);
}

/* ---- Kinds ---- */

/* Over-long lines whose tails are right lines: each is one wrong line. */
static void tails_input(chance *c, text *out)
{
    add_plain_rig(out);
    for (unsigned n = pick(c, 2, 3); n > 0; n--) {
        add_right_lines(c, 6, out);
        add_junk(c, about_room(c, 70), out);
        if (likely(c, 60))
            text_print(out, "K\n");
        else
            add_right_lines(c, 1, out);
    }
    text_print(out, "K\n");
}

/* Lines of a length just below, at and just above the room, ended by LF. */
static void edges_input(chance *c, text *out)
{
    add_plain_rig(out);
    for (unsigned n = pick(c, 3, 5); n > 0; n--) {
        add_junk(c, about_room(c, 10), out);
        text_print(out, "\n");
        add_right_lines(c, 4, out);
    }
    text_print(out, "K\n");
}

/* The input ends inside an over-long line. */
static void unfinished_input(chance *c, text *out)
{
    add_plain_rig(out);
    add_right_lines(c, 20, out);
    add_junk(c, about_room(c, 60), out);
    if (likely(c, 30))
        add_right_line(c, out);
}

/* Answers of two bytes, behind some ticks, through the end of the output's room. */
static void add_short_answers(unsigned ticks, text *out)
{
    add_plain_rig(out);
    add_ticks(ticks, out);
    for (unsigned n = 0; n < EMPTY_LINES; n++)
        text_add(out, "\n", 1);
    add_ticks(2 * TICKS_TO_TEN, out);
}

/* One begins at each even place of the output. */
static void even_places_input(chance *c, text *out)
{
    (void)c;
    add_short_answers(TICKS_TO_TEN - 1, out);
}

/* And at each odd one: the tenth tick's answer has thirteen bytes. */
static void odd_places_input(chance *c, text *out)
{
    (void)c;
    add_short_answers(TICKS_TO_TEN, out);
}

/* The longest answers there are, and short ones between them, through the end of the output's room. */
static void wide_input(chance *c, text *out)
{
    static rig r;
    gen_rig(c, SIZE_FULL, &r);
    r.rows = ROWS_MAX;
    for (unsigned i = 0; i < ROWS_MAX; i++)
        r.row[i] = (rig_row){.sender = 30, .sender_sub = 1, .receiver = 31, .receiver_sub = 1, .words = 32, .period = 1};
    r.master = 0;
    gen_print_rig(&r, out);
    gen_add_run(out);
    for (unsigned n = 0; n < WIDE_TICKS; n++) {
        text_print(out, "K\n");
        for (unsigned empty = pick(c, 0, 3); empty > 0; empty--)
            text_print(out, "\n");
    }
}

/* A rig file whose first faulty line stands behind more than 4,096 right ones. */
static void far_fault_input(chance *c, text *out)
{
    static const char *const faulty[] = {"M\t63\t1\t1\n", "M\t63\t01\n", "\n", "M\t63\t1",            /* 1 */
                                         "M\t64\t1\n",    "M\t63\t129\n",                             /* 2 */
                                         "M\t0\t1\n",     "T\t1\t0\t0\t0\t0\n", "RIG\t1\t1\t1\t0\n"}; /* 3 */
    unsigned lines = pick(c, FAR_LINE, FAR_LINES_MOST);
    text_print(out, "RIG\t1\t1\t128\t0\nT\t1\t0\t0\t0\t0\n");
    for (unsigned n = 0; n < lines; n++)
        text_print(out, "M\t%u\t%u\n", n / CYCLE_FLAGS_ALL, n % CYCLE_FLAGS_ALL + 1);
    text_print(out, "%s", faulty[pick(c, 0, sizeof faulty / sizeof faulty[0] - 1)]);
    if (likely(c, 50))
        gen_add_run(out);
}

/* An input of the comparison, for the way in which it is fed. */
static void any_input(chance *c, text *out)
{
    uint64_t seed = chance_next(c);
    for (uint64_t index = 0; out->length == 0 || out->length > SHORT_INPUT; index++) {
        text_clear(out);
        gen_input(seed, index, out);
    }
}

/* ---- The rounds ---- */

typedef struct {
    const char *name;
    void (*make)(chance *c, text *out);
    feeding fed;
} stream_kind;

static const stream_kind usual[] = {
    {"over-long line with a right tail", tails_input, FED_AS_FILE},
    {"over-long line with a right tail", tails_input, FED_IN_PIECES},
    {"line about the room's length", edges_input, FED_AS_FILE},
    {"line about the room's length", edges_input, FED_IN_PIECES},
    {"unfinished over-long line", unfinished_input, FED_AS_FILE},
    {"unfinished over-long line", unfinished_input, FED_IN_PIECES},
    {"fault past line 4,096", far_fault_input, FED_AS_FILE},
    {"fault past line 4,096", far_fault_input, FED_IN_PIECES},
    {"any input", any_input, FED_BYTE_BY_BYTE},
    {"any input", any_input, FED_IN_PIECES}};

/* Dear ones: one of them for each so many others. */
static const stream_kind dear[] = {
    {"short answers at even places", even_places_input, FED_AS_FILE},
    {"short answers at odd places", odd_places_input, FED_AS_FILE},
    {"long answers", wide_input, FED_AS_FILE}};

enum { USUAL = sizeof usual / sizeof usual[0], DEAR = sizeof dear / sizeof dear[0], DEAR_EVERY = 40 };

static const stream_kind *kind_of(uint64_t index)
{
    if (index % DEAR_EVERY == DEAR_EVERY - 1)
        return &dear[index / DEAR_EVERY % DEAR];
    return &usual[index % USUAL];
}

const char *gen_stream_name(uint64_t index)
{
    return kind_of(index)->name;
}

feeding gen_stream_feeding(uint64_t index)
{
    return kind_of(index)->fed;
}

void gen_stream_input(uint64_t seed, uint64_t index, text *out)
{
    chance c = chance_of(seed ^ UINT64_C(0x73747265616d7331), index);
    kind_of(index)->make(&c, out);
}
