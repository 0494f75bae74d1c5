/*
 * No cycle is asked which rows are due in it: each row steps through the frame from its phase by its period, and marks
 * the cells that it comes to, its own and those of the terminals that it speaks to.  All numbers are sums of cells.
 */
#include "wiring.h"

#include <stdbool.h>
#include <string.h>

#include "mutant.h"
#include "script.h"

/* A cell for each minor cycle of the frame. */
typedef uint8_t cells[CYCLES];

typedef struct {
    cells due[ROWS_MAX];             /* 1 where the row is due; row k is due[k - 1] */
    cells commands[ADDRESS_MAX + 1]; /* how many go to the address; at most one of each row */
} sheet;

/* ---- Marking ---- */

/* For mutants alone: whether they send a command to this end of the row. */
static bool mutant_speaks_to(const rig *r, const rig_row *row, uint8_t end)
{
    bool with_master = row->sender == r->master || row->receiver == r->master;
    if (MUTATED(RECEIVER_ALONE) && !with_master)
        return end == row->receiver;
    if (MUTATED(SENDER_ALONE) && !with_master)
        return end == row->sender;
    if (MUTATED(MASTER_FOR_TERMINAL) && with_master)
        return end == r->master;
    return MUTATED(MASTER_LISTED) || end != r->master;
}

/*
 * "From the master, a receive command to the receiver; to the master, a transmit command to the sender; else receive,
 * then transmit": one to each end but the master, who sends them.
 */
static bool speaks_to(const rig *r, const rig_row *row, uint8_t end)
{
    return WITH_MUTANTS ? mutant_speaks_to(r, row, end) : end != r->master;
}

static void mark_command(const rig *r, const rig_row *row, uint8_t end, unsigned cycle, sheet *s)
{
    uint8_t *cell = &s->commands[end][cycle];
    if (!speaks_to(r, row, end))
        return;
    if (MUTATED(ONCE_A_CYCLE))
        *cell = 1;
    else
        *cell += MUTATED(DATA_WORDS_COUNTED) ? row->words : 1;
}

static void mark_row(const rig *r, unsigned k, sheet *s)
{
    const rig_row *row = &r->row[k];
    unsigned first = MUTATED(PHASE_IGNORED) ? 0 : row->phase, end = MUTATED(FRAME_OF_63) ? CYCLES - 1 : CYCLES;
    for (unsigned step = first; step < end; step += row->period) {
        unsigned cycle = MUTATED(DUE_ONE_LATE) ? (step + 1) % CYCLES : step;
        s->due[k][cycle] = 1;
        mark_command(r, row, row->receiver, cycle, s);
        mark_command(r, row, row->sender, cycle, s);
    }
}

static uint32_t sum_of(const cells marked)
{
    uint32_t sum = 0;
    for (unsigned c = 0; c < CYCLES; c++)
        sum += marked[c];
    return sum;
}

/* ---- Printing ---- */

static char *print_word(char *at, const char *word)
{
    size_t length = strlen(word);
    memcpy(at, word, length);
    return at + length;
}

static char *print_cells(char *at, const cells marked)
{
    for (unsigned c = 0; c < CYCLES; c++) {
        if (marked[c] > 0 || MUTATED(ZEROS_IN_CELLS))
            at = print_field(at, marked[c]);
        else
            *at++ = '\t';
    }
    while (MUTATED(LAST_CELLS_CUT) && at[-1] == '\t')
        at--;
    return at;
}

static char *print_header(char *at)
{
    at = print_word(at, "KIND\tNUMBER\tTIMES");
    for (unsigned c = 0; c < CYCLES; c++)
        at = print_field(at, c);
    *at++ = '\n';
    return at;
}

static uint32_t times_of(const rig_row *row, const cells due)
{
    if (MUTATED(TIMES_FROM_PHASE))
        return (uint32_t)(CYCLES - row->phase) / row->period;
    return sum_of(due);
}

static char *print_row(char *at, const rig *r, unsigned k, const sheet *s, wiring_form form)
{
    const rig_row *row = &r->row[k];
    at = print_word(at, "ROW");
    at = print_field(at, MUTATED(ROWS_FROM_0) ? k : k + 1);
    at = print_field(at, times_of(row, s->due[k]));
    if (form == WIRING_TABLE) {
        at = print_cells(at, s->due[k]);
    } else {
        at = print_field(at, MUTATED(PERIOD_BEFORE_PHASE) ? row->period : row->phase);
        at = print_field(at, MUTATED(PERIOD_BEFORE_PHASE) ? row->phase : row->period);
    }
    *at++ = '\n';
    return at;
}

/* Whether the address has a line: it is spoken to. */
static bool is_listed(unsigned address, const sheet *s)
{
    if ((MUTATED(ADDRESS_0_UNTOLD) && address == 0) || (MUTATED(ADDRESS_31_UNTOLD) && address == ADDRESS_MAX))
        return false;
    return sum_of(s->commands[address]) > (MUTATED(ONE_COMMAND_UNTOLD) ? 1u : 0u);
}

static char *print_terminal(char *at, unsigned address, const sheet *s, wiring_form form)
{
    at = print_word(at, "TERMINAL");
    at = print_field(at, address);
    at = print_field(at, sum_of(s->commands[address]));
    if (form == WIRING_TABLE)
        at = print_cells(at, s->commands[address]);
    *at++ = '\n';
    return at;
}

size_t wiring_print(char out[WIRING_ROOM], const rig *r, wiring_form form)
{
    static sheet s;
    char *at = out;
    memset(&s, 0, sizeof s);
    for (unsigned k = 0; k < r->rows; k++)
        mark_row(r, k, &s);
    if (form == WIRING_TABLE && (r->rows > 0 || !MUTATED(HEADER_NEEDS_ROWS)))
        at = print_header(at);
    for (unsigned k = 0; k < r->rows; k++)
        at = print_row(at, r, k, &s, form);
    for (unsigned i = 0; i <= ADDRESS_MAX; i++) {
        unsigned address = MUTATED(TERMINALS_FALLING) ? ADDRESS_MAX - i : i;
        if (is_listed(address, &s))
            at = print_terminal(at, address, &s, form);
    }
    return (size_t)(at - out);
}
