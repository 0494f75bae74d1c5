/* The wiring sheet: how often each row is due in a frame, and each terminal spoken to. */
#include <string.h>

#include "check.h"
#include "gen.h"
#include "wiring.h"

/* Master 1, one task. */
#define MASTER_1 "RIG 1 1 1 1\nT 1 0 0 0 0\n"

#define MORNING_RIG \
    "RIG 1 3 4 1\nT 1 0 10 0 0\nT 2 1 20 0 3\nT 3 1 20 0 0\nC 2 0 0 1\nC 3 0 1 1\n" \
    "A 2 0 1\nA 3 0 3\nM 4 1\nB 1 5 7 2 32 2 0\n"

#define CHECK_LINES(input, output) check_run(MODE_WIRING, (input), (output), __FILE__, __LINE__)

/* ---- Sheets taken apart ---- */

enum { FIELDS = 3 + CYCLES };

/* A table's lines below its header: two numbers and the cells of each; an empty cell is 0. */
typedef struct {
    unsigned rows, terminals;
    struct {
        unsigned number, times, cell[CYCLES];
    } row[ROWS_MAX], terminal[ADDRESS_MAX + 1];
} table;

static unsigned number_at(const char *at)
{
    unsigned value = 0;
    for (; *at >= '0' && *at <= '9'; at++)
        value = value * 10 + (unsigned)(*at - '0');
    return value;
}

/* Takes one line apart, which has 67 fields. */
static void take_line(const char *line, unsigned *number, unsigned *times, unsigned cell[CYCLES])
{
    unsigned fields = 1;
    for (const char *at = line; *at != 0 && *at != '\n'; at++) {
        if (*at != '\t')
            continue;
        if (fields == 1)
            *number = number_at(at + 1);
        else if (fields == 2)
            *times = number_at(at + 1);
        else if (fields < FIELDS)
            cell[fields - 3] = number_at(at + 1);
        fields++;
    }
    CHECK_IS(fields, FIELDS);
}

static void take_table(const rig *r, table *out)
{
    static char sheet[WIRING_ROOM + 1];
    size_t length = wiring_print(sheet, r, WIRING_TABLE);
    CHECK(length <= WIRING_ROOM && length > 0 && sheet[length - 1] == '\n');
    sheet[length] = 0;
    memset(out, 0, sizeof *out);
    CHECK(strncmp(sheet, "KIND\tNUMBER\tTIMES\t0\t1\t2\t", 24) == 0);
    for (char *line = strchr(sheet, '\n') + 1; *line != 0; line = strchr(line, '\n') + 1) {
        if (strncmp(line, "ROW\t", 4) == 0) {
            unsigned n = out->rows++;
            take_line(line, &out->row[n].number, &out->row[n].times, out->row[n].cell);
            CHECK_IS(out->row[n].number, n + 1);
            CHECK_IS(out->terminals, 0); /* rows come first */
        } else {
            unsigned n = out->terminals++;
            CHECK(strncmp(line, "TERMINAL\t", 9) == 0);
            take_line(line, &out->terminal[n].number, &out->terminal[n].times, out->terminal[n].cell);
            CHECK(n == 0 || out->terminal[n - 1].number < out->terminal[n].number);
        }
    }
}

/* ---- Lines ---- */

static void the_morning(void)
{
    CHECK_LINES(MORNING_RIG, "ROW 1 32 0 2\nTERMINAL 7 32\n");
    CHECK_LINES(MORNING_RIG "RUN\nS 2\nS 3\nK\n", "ROW 1 32 0 2\nTERMINAL 7 32\n");
}

/* A command goes to each end but the master. */
static void whom_a_row_speaks_to(void)
{
    CHECK_LINES(MASTER_1 "B 1 1 9 1 1 16 3\n", "ROW 1 4 3 16\nTERMINAL 9 4\n");
    CHECK_LINES(MASTER_1 "B 9 1 1 1 1 16 3\n", "ROW 1 4 3 16\nTERMINAL 9 4\n");
    CHECK_LINES(MASTER_1 "B 9 1 2 1 1 16 3\n", "ROW 1 4 3 16\nTERMINAL 2 4\nTERMINAL 9 4\n");
    CHECK_LINES("RIG 1 1 1 0\nT 1 0 0 0 0\nB 1 1 0 1 1 64 63\n", "ROW 1 1 63 64\nTERMINAL 1 1\n");
    CHECK_LINES("RIG 1 1 1 31\nT 1 0 0 0 0\nB 31 1 0 1 1 1 0\n", "ROW 1 64 0 1\nTERMINAL 0 64\n");
    CHECK_LINES("RIG 1 1 1 7\nT 1 0 0 0 0\nB 31 1 0 1 1 1 0\n", "ROW 1 64 0 1\nTERMINAL 0 64\nTERMINAL 31 64\n");
}

static void several_rows(void)
{
    CHECK_LINES(MASTER_1 "B 1 1 5 1 1 1 0\nB 5 1 1 1 2 8 7\nB 5 1 3 1 32 32 0\nB 3 2 5 2 9 64 9\n",
                "ROW 1 64 0 1\nROW 2 8 7 8\nROW 3 2 0 32\nROW 4 1 9 64\nTERMINAL 3 3\nTERMINAL 5 75\n");
}

static void refused_rigs_have_no_sheet(void)
{
    static const struct {
        const char *input, *output;
    } refused[] = {{"", "RIG 1 1\n"},
                   {"RUN\nK\n", "RIG 1 1\n"},
                   {MASTER_1 "B 1 1 2 1 1 1\n", "RIG 1 3\n"},
                   {MASTER_1 "RUN", "RIG 1 3\n"},
                   {MASTER_1 "RUN\r\nK\n", "RIG 1 3\n"},
                   {MASTER_1 "B 1 1 2 1 1 3 0\n", "RIG 2 3\n"},
                   {MASTER_1 "B 1 1 2 1 1 4 4\nRUN\n", "RIG 2 3\n"},
                   {MASTER_1 "B 1 1 2 1 1 4 3\nM 0 1\n", "RIG 3 4\n"},
                   {MASTER_1 "B 2 1 2 1 1 4 3\n", "RIG 4 0\n"},
                   {"RIG 1 1 1 1\nRUN\n", "RIG 4 0\n"}};
    for (unsigned i = 0; i < sizeof refused / sizeof refused[0]; i++) {
        check_run(MODE_WIRING, refused[i].input, refused[i].output, __FILE__, __LINE__);
        check_run(MODE_WIRING_TABLE, refused[i].input, refused[i].output, __FILE__, __LINE__);
    }
}

/* What stands behind the line RUN is not read, though it look like more of the rig. */
static void the_rig_ends_before_run(void)
{
    CHECK_LINES(MASTER_1 "RUN\n", "");
    CHECK_LINES(MASTER_1 "B 1 1 2 1 1 8 0\nRUN\nB 1 1 3 1 1 8 0\nRUN\n?\n", "ROW 1 8 0 8\nTERMINAL 2 8\n");
}

static void check_bytes(enum run_mode mode, const text *input, const char *want)
{
    text got = {NULL, 0, 0};
    run_bytes(mode, input->bytes, input->length, &got);
    check_text(&got, want, "output", __FILE__, __LINE__);
    text_free(&got);
}

/* 40,960 bytes are those of the rig, and a script behind it may be longer than any room. */
static void long_inputs(void)
{
    text in = {NULL, 0, 0};
    tabbed(MASTER_1 "B 1 1 2 1 1 8 0\nRUN\n", &in);
    while (in.length < 400000)
        text_print(&in, "K\n");
    check_bytes(MODE_WIRING, &in, "ROW\t1\t8\t0\t8\nTERMINAL\t2\t8\n");
    in.length -= 200000;
    memset(in.bytes, 'x', in.length);
    check_bytes(MODE_WIRING, &in, "RIG\t2\t0\n");
    in.length = RIG_FILE_MAX + 1;
    check_bytes(MODE_WIRING, &in, "RIG\t2\t0\n");
    in.length = RIG_FILE_MAX;
    check_bytes(MODE_WIRING, &in, "RIG\t1\t1\n");
    text_free(&in);
}

static void other_words_are_told_the_usage(void)
{
    text in = {NULL, 0, 0};
    tabbed(MORNING_RIG, &in);
    check_bytes(MODE_WIRING_OTHER, &in, "usage: wiring [--table] < RIG\n");
    check_bytes(MODE_WIRING_MORE, &in, "usage: wiring [--table] < RIG\n");
    text_free(&in);
}

/* ---- Tables ---- */

#define HEADER \
    "KIND NUMBER TIMES 0 1 2 3 4 5 6 7 8 9 10 11 12 13 14 15 16 17 18 19 20 21 22 23 24 25 26 27 28 29 30 31 32 33 34 35 36 " \
    "37 38 39 40 41 42 43 44 45 46 47 48 49 50 51 52 53 54 55 56 57 58 59 60 61 62 63\n"
#define EMPTY_7 "       "
#define EMPTY_15 EMPTY_7 " " EMPTY_7

static void whole_tables(void)
{
    check_run(MODE_WIRING_TABLE, MASTER_1, HEADER, __FILE__, __LINE__);
    check_run(MODE_WIRING_TABLE, MASTER_1 "B 9 1 1 1 1 16 0\nB 1 1 9 1 1 32 16\n",
              HEADER "ROW 1 4 1" EMPTY_15 " 1" EMPTY_15 " 1" EMPTY_15 " 1" EMPTY_15 "\n"
                     "ROW 2 2 " EMPTY_15 " 1" EMPTY_15 " " EMPTY_15 " 1" EMPTY_15 "\n"
                     "TERMINAL 9 6 1" EMPTY_15 " 2" EMPTY_15 " 1" EMPTY_15 " 2" EMPTY_15 "\n",
              __FILE__, __LINE__);
}

/* One row from the master to terminal 2. */
static void one_row(unsigned period, unsigned phase, rig *r)
{
    read_right_rig(MASTER_1 "B 1 1 2 1 1 1 0\n", r);
    r->row[0].period = (uint8_t)period;
    r->row[0].phase = (uint8_t)phase;
}

/* "A row is due when count modulo period equals phase": 64 / period times, and so the terminal that it speaks to. */
static void all_periods_and_phases(void)
{
    static rig r;
    static table t;
    unsigned pairs = 0, wrong = 0;
    for (unsigned period = 1; period <= CYCLES; period *= 2) {
        for (unsigned phase = 0; phase < period; phase++, pairs++) {
            one_row(period, phase, &r);
            take_table(&r, &t);
            wrong += t.rows != 1 || t.terminals != 1 || t.row[0].times != CYCLES / period;
            wrong += t.terminal[0].number != 2 || t.terminal[0].times != CYCLES / period;
            for (unsigned c = 0; c < CYCLES; c++) {
                unsigned due = c % period == phase;
                wrong += t.row[0].cell[c] != due || t.terminal[0].cell[c] != due;
            }
        }
    }
    CHECK_IS(pairs, 127);
    CHECK_IS(wrong, 0);
}

/* All 64 rows to one terminal in every cycle: the largest numbers there are. */
static void the_fullest_sheet(void)
{
    static rig r;
    static table t;
    one_row(1, 0, &r);
    r.row[0].sender = 30;
    r.row[0].receiver = 31;
    for (r.rows = 1; r.rows < ROWS_MAX; r.rows++)
        r.row[r.rows] = r.row[0];
    take_table(&r, &t);
    CHECK_IS(t.rows, ROWS_MAX);
    CHECK_IS(t.terminals, 2);
    for (unsigned n = 0; n < 2; n++) {
        CHECK_IS(t.terminal[n].number, 30 + n);
        CHECK_IS(t.terminal[n].times, ROWS_MAX * CYCLES);
        CHECK_IS(t.terminal[n].cell[0], ROWS_MAX);
        CHECK_IS(t.terminal[n].cell[CYCLES - 1], ROWS_MAX);
    }
}

/* ---- Beside the bus ---- */

/* How often each address is named by the command words of 64 ticks, by cycle; from a count that is 0 modulo 64. */
static void ticked(const rig *r, unsigned named[ADDRESS_MAX + 1][CYCLES])
{
    static exec e;
    uint16_t words[TICK_WORDS];
    CHECK_IS(exec_start(&e, r).refusal, ACCEPTED);
    memset(named, 0, sizeof(unsigned[ADDRESS_MAX + 1][CYCLES]));
    for (unsigned n = 0; n < CYCLES; n++) {
        answer a = exec_tick(&e, words, TICK_WORDS);
        CHECK_IS(a.refusal, ACCEPTED);
        for (unsigned w = 0; w < a.words; w++)
            named[words[w] >> 11][e.count % CYCLES]++;
    }
}

/* Whether the table lists those addresses and no other, with just these commands. */
static bool tells(const table *t, unsigned named[ADDRESS_MAX + 1][CYCLES])
{
    unsigned n = 0;
    for (unsigned address = 0; address <= ADDRESS_MAX; address++) {
        unsigned sum = 0;
        for (unsigned c = 0; c < CYCLES; c++)
            sum += named[address][c];
        if (sum == 0)
            continue;
        if (n == t->terminals || t->terminal[n].number != address || t->terminal[n].times != sum ||
            memcmp(t->terminal[n].cell, named[address], sizeof t->terminal[n].cell) != 0)
            return false;
        n++;
    }
    return n == t->terminals;
}

/* The sheet says what the bus does: the words that the ticks of a frame write. */
static void sheets_are_what_ticks_write(void)
{
    static rig r;
    static table t;
    static unsigned named[ADDRESS_MAX + 1][CYCLES];
    for (unsigned i = 0; i < 60; i++) {
        chance c = chance_of(9, i);
        gen_rig(&c, (rig_size)(i % 3), &r);
        take_table(&r, &t);
        ticked(&r, named);
        CHECK_IS(t.rows, r.rows);
        CHECK(tells(&t, named));
    }
}

void wiring_tests(void)
{
    RUN(the_morning);
    RUN(whom_a_row_speaks_to);
    RUN(several_rows);
    RUN(refused_rigs_have_no_sheet);
    RUN(the_rig_ends_before_run);
    RUN(long_inputs);
    RUN(other_words_are_told_the_usage);
    RUN(whole_tables);
    RUN(all_periods_and_phases);
    RUN(the_fullest_sheet);
    RUN(sheets_are_what_ticks_write);
}
