#include "tally_wiring.h"

#include "runner.h"
#include "script.h"
#include "tally.h"

/* ---- The right output ---- */

static rig_verdict read_input(const text *input, input_parts *parts, rig *out)
{
    static const uint8_t nothing[1];
    const uint8_t *bytes = input->length > 0 ? input->bytes : nothing;
    *parts = find_parts(bytes, input->length);
    return rig_read(bytes, parts->rig_length, out);
}

void tally_wiring_output(const text *input, wiring_form form, text *output)
{
    static char sheet[WIRING_ROOM];
    static rig r;
    input_parts parts;
    rig_verdict v = read_input(input, &parts, &r);
    size_t length = v.refusal == ACCEPTED ? wiring_print(sheet, &r, form) : print_refused_rig(sheet, "RIG", &v);
    text_add(output, sheet, length);
}

/* ---- Counting ---- */

static void count_row(wiring_tally *t, const rig *r, const rig_row *row)
{
    for (unsigned i = 0; i < PERIODS; i++)
        t->period[i] += row->period == 1u << i;
    t->phase_0 += row->phase == 0;
    t->phase_above += row->phase > 0;
    t->from_master += row->sender == r->master;
    t->to_master += row->receiver == r->master;
    t->between += row->sender != r->master && row->receiver != r->master;
}

/* Rows that are due in the cycle and name the address. */
static unsigned rows_naming(const rig *r, unsigned address, unsigned cycle)
{
    unsigned n = 0;
    for (unsigned k = 0; k < r->rows; k++) {
        const rig_row *row = &r->row[k];
        n += cycle % row->period == row->phase && (row->sender == address || row->receiver == address);
    }
    return n;
}

static void count_terminal(wiring_tally *t, const rig *r, unsigned address)
{
    unsigned commands = 0;
    for (unsigned cycle = 0; cycle < CYCLES; cycle++) {
        unsigned n = rows_naming(r, address, cycle);
        t->one_command += n == 1;
        t->more_commands += n > 1;
        commands += n;
    }
    t->one_a_frame += commands == 1;
    t->address_0 += address == 0 && commands > 0;
    t->address_31 += address == ADDRESS_MAX && commands > 0;
}

void tally_wiring_input(wiring_tally *t, const text *input)
{
    static rig r;
    input_parts parts;
    rig_verdict v = read_input(input, &parts, &r);
    t->with_run += parts.has_script;
    if (v.refusal != ACCEPTED) {
        t->refused[v.refusal]++;
        return;
    }
    t->no_rows += r.rows == 0;
    t->all_rows += r.rows == ROWS_MAX;
    for (unsigned k = 0; k < r.rows; k++)
        count_row(t, &r, &r.row[k]);
    for (unsigned address = 0; address <= ADDRESS_MAX; address++)
        if (address != r.master)
            count_terminal(t, &r, address);
}

/* ---- Printing ---- */

void tally_wiring_print(const wiring_tally *t, FILE *to)
{
    fprintf(to, "the wiring sheet\n  rows of period");
    for (unsigned i = 0; i < PERIODS; i++)
        fprintf(to, "%s %u: %llu", i > 0 ? "," : "", 1u << i, (unsigned long long)t->period[i]);
    fprintf(to,
            "; of phase 0 %llu, of another %llu\n"
            "  rows from the master %llu, to the master %llu, between terminals %llu\n"
            "  terminals with one command in a cycle %llu, with more %llu; with one in the frame %llu\n"
            "  rigs in which address 0 is spoken to %llu, address 31 %llu; with no rows %llu, with 64 rows %llu\n",
            (unsigned long long)t->phase_0, (unsigned long long)t->phase_above, (unsigned long long)t->from_master,
            (unsigned long long)t->to_master, (unsigned long long)t->between, (unsigned long long)t->one_command,
            (unsigned long long)t->more_commands, (unsigned long long)t->one_a_frame, (unsigned long long)t->address_0,
            (unsigned long long)t->address_31, (unsigned long long)t->no_rows, (unsigned long long)t->all_rows);
    fprintf(to, "  refused by");
    for (unsigned n = BAD_SHAPE; n <= BAD_RIG; n++)
        fprintf(to, "%s %u: %llu", n > BAD_SHAPE ? "," : "", n, (unsigned long long)t->refused[n]);
    fprintf(to, "; inputs with a line RUN %llu\n", (unsigned long long)t->with_run);
}

/* ---- What was hit too seldom ---- */

static unsigned missing_rows(const wiring_tally *t, uint64_t least, FILE *to)
{
    unsigned n = 0;
    for (unsigned i = 0; i < PERIODS; i++) {
        char period[16];
        snprintf(period, sizeof period, "of period %u", 1u << i);
        n += tally_seldom(t->period[i], least, to, "row", period);
    }
    n += tally_seldom(t->phase_0, least, to, "row", "of phase 0");
    n += tally_seldom(t->phase_above, least, to, "row", "of a phase above 0");
    n += tally_seldom(t->from_master, least, to, "row", "from the master");
    n += tally_seldom(t->to_master, least, to, "row", "to the master");
    n += tally_seldom(t->between, least, to, "row", "between terminals");
    return n;
}

unsigned tally_wiring_missing(const wiring_tally *t, uint64_t least, FILE *to)
{
    unsigned n = missing_rows(t, least, to);
    n += tally_seldom(t->one_command, least, to, "terminal", "with one command in a cycle");
    n += tally_seldom(t->more_commands, least, to, "terminal", "with more commands in a cycle");
    n += tally_seldom(t->one_a_frame, least, to, "terminal", "with one command in the frame");
    n += tally_seldom(t->address_0, least, to, "address 0", "spoken to");
    n += tally_seldom(t->address_31, least, to, "address 31", "spoken to");
    n += tally_seldom(t->no_rows, least, to, "sheet of a rig", "with no rows");
    n += tally_seldom(t->all_rows, least, to, "sheet of a rig", "with 64 rows");
    for (unsigned r = BAD_SHAPE; r <= BAD_RIG; r++)
        n += tally_seldom(t->refused[r], least, to, "sheet of a rig refused by", (const char *[]){"1", "2", "3", "4"}[r - 1]);
    n += tally_seldom(t->with_run, least, to, "sheet of an input", "with a line RUN");
    return n;
}
