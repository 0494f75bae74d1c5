/* Inputs for the wiring sheet: rigs made for their rows, and refused ones; alone, or with a script behind them. */
#include <string.h>

#include "gen.h"

enum {
    FEW_ROWS = 12,
    PAIRS = 2 * CYCLES - 1, /* of a period and a phase below it */
    BUS_MOST = 4            /* terminals that most rows of a rig name */
};

/* ---- Rows ---- */

/* The addresses at both ends of their range are met often. */
static uint8_t any_address(chance *c)
{
    return (uint8_t)(likely(c, 80) ? pick(c, 0, ADDRESS_MAX) : likely(c, 50) ? 0 : ADDRESS_MAX);
}

/* Few terminals, so that several rows speak to one of them in one cycle. */
typedef struct {
    unsigned terminals;
    uint8_t address[BUS_MOST];
} bus;

static bus choose_bus(chance *c)
{
    bus b = {.terminals = pick(c, 1, BUS_MOST)};
    for (unsigned i = 0; i < b.terminals; i++)
        b.address[i] = any_address(c);
    return b;
}

static uint8_t choose_end(chance *c, const rig *r, const bus *b)
{
    if (likely(c, 35))
        return r->master;
    return likely(c, 70) ? b->address[pick(c, 0, b->terminals - 1)] : any_address(c);
}

static void add_row(chance *c, rig *r, const bus *b, unsigned period, unsigned phase)
{
    rig_row row = {.sender = choose_end(c, r, b), .period = (uint8_t)period, .phase = (uint8_t)phase};
    do
        row.receiver = choose_end(c, r, b);
    while (row.receiver == row.sender);
    row.sender_sub = (uint8_t)pick(c, 1, SUBADDRESS_MAX);
    row.receiver_sub = (uint8_t)pick(c, 1, SUBADDRESS_MAX);
    row.words = (uint8_t)pick(c, 1, ROW_WORDS_MAX);
    r->row[r->rows++] = row;
}

static void add_any_rows(chance *c, unsigned rows, rig *r)
{
    bus b = choose_bus(c);
    while (r->rows < rows) {
        unsigned period = 1u << pick(c, 0, 6);
        add_row(c, r, &b, period, pick(c, 0, period - 1));
    }
}

/* Rows of these pairs, of which number n is the period that is the highest bit of n + 1, and the rest as its phase. */
static void add_pairs(chance *c, unsigned first, unsigned end, rig *r)
{
    bus b = choose_bus(c);
    for (unsigned n = first; n < end; n++) {
        unsigned period = 1;
        while (2 * period <= n + 1)
            period *= 2;
        add_row(c, r, &b, period, n + 1 - period);
    }
}

/* ---- Inputs ---- */

/*
 * What stands behind a rig: nothing, or the line RUN and what is not the rig's, though some of it looks so.  Now and then
 * that is longer than any room.
 */
static void end_input(chance *c, text *out)
{
    if (likely(c, 50))
        return;
    gen_add_run(out);
    text_print(out, likely(c, 50) ? "K\nF\n" : "B\t1\t1\t2\t1\t1\t1\t0\nRUN\n");
    if (likely(c, 10))
        for (unsigned n = 0; n < USUAL_ROOM; n++)
            text_print(out, "K\n");
}

/* A right rig without rows. */
static rig *bare_rig(chance *c)
{
    static rig r;
    gen_rig(c, SIZE_SMALL, &r);
    memset(r.row, 0, sizeof r.row);
    r.rows = 0;
    r.master = any_address(c);
    return &r;
}

static void right_input(chance *c, const rig *r, text *out)
{
    gen_print_rig(r, out);
    end_input(c, out);
}

static void rows_input(chance *c, unsigned rows, text *out)
{
    rig *r = bare_rig(c);
    add_any_rows(c, rows, r);
    right_input(c, r, out);
}

static void no_rows_input(chance *c, text *out)
{
    rows_input(c, 0, out);
}

static void one_row_input(chance *c, text *out)
{
    rows_input(c, 1, out);
}

static void few_rows_input(chance *c, text *out)
{
    rows_input(c, pick(c, 2, FEW_ROWS), out);
}

static void many_rows_input(chance *c, text *out)
{
    rows_input(c, pick(c, FEW_ROWS + 1, ROWS_MAX - 1), out);
}

static void all_rows_input(chance *c, text *out)
{
    rows_input(c, ROWS_MAX, out);
}

static void first_pairs_input(chance *c, text *out)
{
    rig *r = bare_rig(c);
    add_pairs(c, 0, ROWS_MAX, r);
    right_input(c, r, out);
}

static void last_pairs_input(chance *c, text *out)
{
    rig *r = bare_rig(c);
    add_pairs(c, ROWS_MAX, PAIRS, r);
    right_input(c, r, out);
}

static void shape_input(chance *c, text *out)
{
    if (likely(c, 20)) { /* no line RUN, and no line of a rig */
        gen_print_rig(bare_rig(c), out);
        text_print(out, likely(c, 50) ? "RUN" : "RUN\r\n");
        return;
    }
    gen_bad_line_rig(c, BAD_SHAPE, out);
    end_input(c, out);
}

static void size_input(chance *c, text *out)
{
    gen_bad_line_rig(c, BAD_SIZE, out);
    end_input(c, out);
}

static void order_input(chance *c, text *out)
{
    gen_bad_line_rig(c, BAD_ORDER, out);
    end_input(c, out);
}

/* Most often one of the rules on rows. */
static void rule_input(chance *c, text *out)
{
    rig_rule any = (rig_rule)pick(c, RULE_TASK_ABOVE, RIG_RULE_COUNT - 1);
    gen_bad_rule_rig(c, likely(c, 40) ? any : likely(c, 50) ? RULE_SAME_ENDS : RULE_B_LINES, out);
    end_input(c, out);
}

static void length_input(chance *c, text *out)
{
    if (likely(c, 80)) /* else the rig is empty */
        gen_long_rig(c, out);
    end_input(c, out);
}

/* ---- The round ---- */

static const struct {
    const char *name;
    void (*make)(chance *c, text *out);
} kinds[] = {
    {"few rows", few_rows_input},
    {"no rows", no_rows_input},
    {"line of wrong shape", shape_input},
    {"number outside its size", size_input},
    {"line out of order", order_input},
    {"rule over the whole file", rule_input},
    {"64 rows", all_rows_input},
    {"first 64 periods and phases", first_pairs_input},
    {"other periods and phases", last_pairs_input},
    {"one row", one_row_input},
    {"many rows", many_rows_input},
    {"no rows", no_rows_input},
    {"line of wrong shape", shape_input},
    {"number outside its size", size_input},
    {"line out of order", order_input},
    {"rule over the whole file", rule_input},
    {"64 rows", all_rows_input},
    {"few rows", few_rows_input},
    {"no rows", no_rows_input},
    {"line of wrong shape", shape_input},
    {"number outside its size", size_input},
    {"line out of order", order_input},
    {"rule over the whole file", rule_input},
    {"rule over the whole file", rule_input},
    {"file length", length_input}};

enum { ROUND = sizeof kinds / sizeof kinds[0], IN_PIECES_EVERY = 8 };

const char *gen_wiring_name(uint64_t index)
{
    return kinds[index % ROUND].name;
}

feeding gen_wiring_feeding(uint64_t index)
{
    return index % IN_PIECES_EVERY == IN_PIECES_EVERY - 1 ? FED_IN_PIECES : FED_AS_FILE;
}

void gen_wiring_input(uint64_t seed, uint64_t index, text *out)
{
    chance c = chance_of(seed ^ UINT64_C(0x776972696e673131), index);
    kinds[index % ROUND].make(&c, out);
}
