#include <stdarg.h>
#include <stdio.h>
#include <stdlib.h>
#include <string.h>

#include "gen.h"
#include "rules.h"

/* ---- A rig file as lines that can be changed ---- */

enum { PAGE_LINES = 6000, LINE_ROOM = 200 };

typedef struct {
    unsigned lines;
    char line[PAGE_LINES][LINE_ROOM]; /* without LF */
} page;

static void page_of(page *p, const rig *r)
{
    static uint8_t file[RIG_FILE_MAX];
    size_t length = 0;
    (void)rig_write(r, file, sizeof file, &length);
    p->lines = 0;
    for (size_t at = 0; at < length;) {
        size_t n = (size_t)((uint8_t *)memchr(file + at, '\n', length - at) - (file + at));
        memcpy(p->line[p->lines], file + at, n);
        p->line[p->lines++][n] = 0;
        at += n + 1;
    }
}

static void page_print(const page *p, text *out)
{
    for (unsigned i = 0; i < p->lines; i++)
        text_print(out, "%s\n", p->line[i]);
}

static void remove_line(page *p, unsigned at)
{
    memmove(p->line[at], p->line[at + 1], (size_t)(p->lines - at - 1) * LINE_ROOM);
    p->lines--;
}

static void insert_line(page *p, unsigned at, const char *format, ...)
    __attribute__((format(printf, 3, 4)));

static void insert_line(page *p, unsigned at, const char *format, ...)
{
    char made[LINE_ROOM];
    va_list list;
    va_start(list, format);
    vsnprintf(made, sizeof made, format, list);
    va_end(list);
    if (p->lines == PAGE_LINES)
        return;
    memmove(p->line[at + 1], p->line[at], (size_t)(p->lines - at) * LINE_ROOM);
    memcpy(p->line[at], made, sizeof made);
    p->lines++;
}

/* The place of a kind in the file's order; the letters of all kinds but RIG, which comes first. */
static const char kind_order[] = "RTCAMB";

static unsigned kind_place(char kind)
{
    const char *at = strchr(kind_order, kind);
    return at != NULL && kind != 0 ? (unsigned)(at - kind_order) : 0;
}

/* The first line behind all of this kind and of those before it. */
static unsigned end_of(const page *p, char kind)
{
    unsigned at = 0;
    while (at < p->lines && kind_place(p->line[at][0]) <= kind_place(kind))
        at++;
    return at;
}

static unsigned start_of(const page *p, char kind)
{
    unsigned at = 0;
    while (at < p->lines && kind_place(p->line[at][0]) < kind_place(kind))
        at++;
    return at;
}

/* Any line of the kind, or 0 (the RIG line) if there is none. */
static unsigned line_of(chance *c, const page *p, char kind)
{
    unsigned from = start_of(p, kind), to = end_of(p, kind);
    return from < to ? pick(c, from, to - 1) : 0;
}

/* ---- Fields of a line ---- */

enum { FIELDS = 8, FIELDS_READ = 10, FIELD_ROOM = 40 };

typedef struct {
    unsigned n;
    char field[FIELDS_READ + 1][FIELD_ROOM]; /* field 0 is the kind; one may be added */
} parts;

static parts parts_of(const char *line)
{
    parts f = {.n = 0};
    const char *at = line;
    while (f.n < FIELDS_READ) {
        size_t n = strcspn(at, "\t");
        snprintf(f.field[f.n++], FIELD_ROOM, "%.*s", (int)(n < FIELD_ROOM ? n : FIELD_ROOM - 1), at);
        if (at[n] == 0)
            break;
        at += n + 1;
    }
    return f;
}

static void put_parts(char *line, const parts *f)
{
    size_t n = 0;
    line[0] = 0;
    for (unsigned i = 0; i < f->n && n + FIELD_ROOM < LINE_ROOM; i++)
        n += (size_t)snprintf(line + n, LINE_ROOM - n, "%s%s", i > 0 ? "\t" : "", f->field[i]);
}

static void set_field(char *line, unsigned i, const char *value)
{
    parts f = parts_of(line);
    if (i < f.n)
        snprintf(f.field[i], sizeof f.field[i], "%s", value);
    put_parts(line, &f);
}

static void set_number(char *line, unsigned i, unsigned value)
{
    char digits[16];
    snprintf(digits, sizeof digits, "%u", value);
    set_field(line, i, digits);
}

/* ---- Rigs to start from ---- */

static bool has_minor_condition(const rig *r)
{
    flag_set minor;
    mark_minor_flags(r, &minor);
    for (unsigned i = 0; i < r->a_lines; i++)
        if (minor.marked[r->a[i].flag])
            return true;
    return false;
}

/* A right rig of moderate size that has each kind of line and room above its counts. */
static void plentiful_rig(chance *c, rig *r)
{
    unsigned activations;
    do {
        gen_rig(c, likely(c, 60) ? SIZE_SMALL : SIZE_MEDIUM, r);
        activations = 0;
        for (unsigned t = 1; t <= r->tasks; t++)
            activations += r->task[t].activation != 0;
    } while (r->tasks < 3 || r->rows == 0 || activations < 1 || !has_minor_condition(r));
}

static void any_rig(chance *c, rig *r)
{
    if (likely(c, 15))
        gen_rig(c, SIZE_FULL, r);
    else
        plentiful_rig(c, r);
}

/* ---- Lines of wrong shape ---- */

static void wrong_number(chance *c, char *field)
{
    static const char *const wrong[] = {"", "-1", "+1", " 1", "1 ", "01", "00", "0x1", "1.0", "x", "1\r", "\v1", "1e1"};
    snprintf(field, FIELD_ROOM, "%s", wrong[pick(c, 0, sizeof wrong / sizeof wrong[0] - 1)]);
}

static void spoil_shape(chance *c, page *p)
{
    static const char *const lines[] = {"", " ", "\t", "T", "RUN ", " RUN", "run", "RUN\r", "X\t1", "t\t1\t0\t0\t0\t0",
                                        "RIG", "RIG\t1\t1\t1", "\xef\xbb\xbfRIG\t1\t1\t1\t0", "D\t1\t2", "TT\t1\t0\t0\t0\t0"};
    unsigned at = pick(c, 0, p->lines - 1);
    parts f = parts_of(p->line[at]);
    if (f.n < 2) /* damaged before */
        return;
    switch (pick(c, 0, 8)) {
    case 0: /* a field too few */
        f.n--;
        put_parts(p->line[at], &f);
        break;
    case 1: /* a field too many */
        snprintf(f.field[f.n++], sizeof f.field[0], "%u", pick(c, 0, 3));
        put_parts(p->line[at], &f);
        break;
    case 2: /* a space for a tab */
        p->line[at][strlen(f.field[0])] = ' ';
        break;
    case 3:
        insert_line(p, pick(c, 0, p->lines), "%s", lines[pick(c, 0, sizeof lines / sizeof lines[0] - 1)]);
        break;
    case 4: /* a wrong number behind one outside its size: still 1 */
        set_field(p->line[at], 1, "999");
        wrong_number(c, f.field[0]);
        set_field(p->line[at], f.n - 1, f.field[0]);
        break;
    case 5: /* a tab too many at the end */
        f.field[f.n++][0] = 0;
        put_parts(p->line[at], &f);
        break;
    default:
        wrong_number(c, f.field[pick(c, 1, f.n - 1)]);
        put_parts(p->line[at], &f);
        break;
    }
}

/* ---- Numbers outside their sizes ---- */

static unsigned most_of(char kind, unsigned field)
{
    static const struct {
        char kind;
        unsigned most[FIELDS];
    } sizes[] = {{'R', {1, 64, 128, 31}},
                 {'T', {64, 64, 255, 1, 128}},
                 {'C', {64, 15, 1, 1}},
                 {'A', {64, 15, 128}},
                 {'M', {63, 128}},
                 {'B', {31, 30, 31, 30, 32, 64, 63}}};
    for (unsigned i = 0; i < sizeof sizes / sizeof sizes[0]; i++)
        if (sizes[i].kind == kind)
            return sizes[i].most[field - 1];
    return 0;
}

static bool zero_is_outside(char kind, unsigned field)
{
    switch (kind) {
    case 'R':
        return field <= 3;
    case 'T':
    case 'C':
        return field == 1;
    case 'A':
        return field == 1 || field == 3;
    case 'M':
        return field == 2;
    default:
        return field == 2 || field == 4 || field == 5 || field == 6;
    }
}

/* The right number with a multiple of 2^32 or 2^64 added: it must not wrap back. */
static void add_wrap(chance *c, char *field)
{
    unsigned long long value = strtoull(field, NULL, 10);
    if (likely(c, 50))
        snprintf(field, FIELD_ROOM, "%llu", value + 4294967296ull * pick(c, 1, 9));
    else
        snprintf(field, FIELD_ROOM, "%llu%020llu", 1ull, value); /* far above 2^64 */
    if (likely(c, 30))
        snprintf(field, FIELD_ROOM, "18446744073709551%llu", 616 + value);
}

static void spoil_bus_row(chance *c, page *p)
{
    static const unsigned periods[] = {3, 5, 6, 7, 12, 24, 33, 48, 63};
    char *line = p->line[line_of(c, p, 'B')];
    if (line[0] != 'B')
        return;
    if (likely(c, 50))
        set_number(line, 6, periods[pick(c, 0, sizeof periods / sizeof periods[0] - 1)]);
    else
        set_field(line, 7, parts_of(line).field[6]); /* phase equal to period */
}

static void spoil_size(chance *c, page *p)
{
    char kind = kind_order[pick(c, 0, 5)];
    char *line = p->line[line_of(c, p, kind)];
    parts f = parts_of(line);
    if (f.n < 2 || f.n > FIELDS) /* damaged before */
        return;
    unsigned i = pick(c, 1, f.n - 1);
    kind = line[0];
    switch (pick(c, 0, 5)) {
    case 0:
        spoil_bus_row(c, p);
        return;
    case 1:
        if (zero_is_outside(kind, i)) {
            set_field(line, i, "0");
            return;
        }
        /* fall through */
    case 2:
        add_wrap(c, f.field[i]);
        break;
    case 3:
        snprintf(f.field[i], sizeof f.field[i], "%u", pick(c, most_of(kind, i) + 1, 999));
        break;
    default:
        snprintf(f.field[i], sizeof f.field[i], "%u", most_of(kind, i) + 1);
        break;
    }
    put_parts(line, &f);
}

/* ---- Lines out of order ---- */

static void spoil_order(chance *c, page *p)
{
    unsigned at = pick(c, 0, end_of(p, 'M') - 1);
    char moved[LINE_ROOM];
    memcpy(moved, p->line[at], LINE_ROOM);
    switch (pick(c, 0, 4)) {
    case 0: /* repeated */
        insert_line(p, at + 1, "%s", moved);
        break;
    case 1: /* no RIG line, or a later second one */
        if (likely(c, 40))
            remove_line(p, 0);
        else
            insert_line(p, pick(c, 1, p->lines), "%s", p->line[0]);
        break;
    case 2: /* a line moved down */
        if (at + 1 < p->lines) {
            remove_line(p, at);
            insert_line(p, pick(c, at + 1, p->lines), "%s", moved);
        }
        break;
    default: /* two lines swapped */
        at = pick(c, 0, end_of(p, 'M') - 1);
        if (at + 1 < p->lines) {
            remove_line(p, at);
            insert_line(p, at + 1, "%s", moved);
        }
        break;
    }
}

static void spoil_line(chance *c, page *p, enum refusal refusal)
{
    if (refusal == BAD_SHAPE)
        spoil_shape(c, p);
    else if (refusal == BAD_SIZE)
        spoil_size(c, p);
    else
        spoil_order(c, p);
}

void gen_bad_line_rig(chance *c, enum refusal refusal, text *out)
{
    static page p;
    static rig r;
    any_rig(c, &r);
    page_of(&p, &r);
    spoil_line(c, &p, refusal);
    page_print(&p, out);
    if (refusal == BAD_SHAPE && likely(c, 15)) /* the last line without LF */
        out->length--;
    if (refusal == BAD_SHAPE && likely(c, 10))
        text_print(out, "RUN"); /* not the RUN line either */
}

/* ---- Whole-file rules ---- */

static void break_task_above(chance *c, page *p, rig *r)
{
    unsigned above = pick(c, r->tasks + 1u, TASKS_MAX);
    switch (pick(c, 0, 3)) {
    case 0:
        insert_line(p, end_of(p, 'T'), "T\t%u\t0\t0\t0\t0", above);
        break;
    case 1:
        set_number(p->line[end_of(p, 'T') - 1], 2, above);
        break;
    case 2:
        insert_line(p, end_of(p, 'C'), "C\t%u\t0\t%u\t%u", above, pick(c, 0, 1), pick(c, 0, 1));
        insert_line(p, end_of(p, 'A'), "A\t%u\t0\t1", above);
        break;
    default:
        insert_line(p, end_of(p, 'A'), "A\t%u\t%u\t1", above, pick(c, 0, 15));
        break;
    }
}

static void break_flag_above(chance *c, page *p, rig *r)
{
    unsigned above = pick(c, r->flags + 1u, FLAGS_MAX);
    switch (pick(c, 0, 2)) {
    case 0:
        set_number(p->line[line_of(c, p, 'T')], 5, above);
        break;
    case 1:
        set_number(p->line[end_of(p, 'A') - 1], 3, above);
        break;
    default:
        set_number(p->line[end_of(p, 'M') - 1], 2, above);
        break;
    }
}

/* Conditions and their flags anew: more than 1,024 A lines on flags that are on no M line. */
static void break_a_lines(chance *c, page *p, rig *r)
{
    flag_set minor;
    unsigned wanted = A_LINES_MAX + (likely(c, 50) ? 1 : pick(c, 2, 300)), made = 0;
    mark_minor_flags(r, &minor);
    while (p->line[start_of(p, 'C')][0] == 'C')
        remove_line(p, start_of(p, 'C'));
    while (p->line[start_of(p, 'A')][0] == 'A')
        remove_line(p, start_of(p, 'A'));
    unsigned conditions = end_of(p, 'T'), flags = conditions;
    for (unsigned t = 1; t <= r->tasks && made < wanted; t++) {
        for (unsigned position = 0; position < POSITIONS && made < wanted; position++) {
            insert_line(p, conditions++, "C\t%u\t%u\t1\t0", t, position);
            flags++;
            for (unsigned f = 1; f <= r->flags && made < wanted; f++) {
                if (minor.marked[f])
                    continue;
                insert_line(p, flags++, "A\t%u\t%u\t%u", t, position, f);
                made++;
            }
        }
    }
}

static void break_b_lines(chance *c, page *p, rig *r)
{
    unsigned wanted = ROWS_MAX + (likely(c, 50) ? 1 : pick(c, 2, 200));
    for (unsigned n = r->rows; n < wanted; n++)
        insert_line(p, p->lines, "B\t1\t%u\t2\t1\t32\t64\t63", pick(c, 1, SUBADDRESS_MAX));
}

static void break_controller(chance *c, page *p, rig *r)
{
    unsigned task = pick(c, 2, r->tasks), controller;
    bool right;
    do {
        controller = pick(c, 0, r->tasks);
        right = false;
        for (unsigned up = task - 1; up != 0; up = r->task[up].controller)
            right = right || up == controller;
    } while (right);
    set_number(p->line[task], 2, controller);
}

/* No conditions, so that any flag may stand on M lines. */
static void break_cycle_crowded(chance *c, page *p, rig *r)
{
    memset(r->conditions, 0, sizeof r->conditions);
    memset(r->a, 0, sizeof r->a);
    r->a_lines = 0;
    for (unsigned t = 1; t <= r->tasks; t++)
        r->task[t].activation = 0;
    r->flags = (uint8_t)pick(c, 60, FLAGS_MAX);
    page_of(p, r);
    while (p->line[start_of(p, 'M')][0] == 'M')
        remove_line(p, start_of(p, 'M'));
    unsigned at = start_of(p, 'M'), cycle = pick(c, 0, CYCLES - 1);
    unsigned n = likely(c, 60) ? CYCLE_FLAGS_MAX + 1 : pick(c, CYCLE_FLAGS_MAX + 1, r->flags);
    for (unsigned f = 1; f <= n; f++)
        insert_line(p, at++, "M\t%u\t%u", cycle, f);
    if (likely(c, 40)) /* a later faulty line decides */
        insert_line(p, p->lines, likely(c, 50) ? "B\t1\t1\t2\t1\t33\t1\t0" : "M\t0\t1");
}

static void break_activation_shared(chance *c, page *p, rig *r)
{
    unsigned from, to;
    do
        from = pick(c, 1, r->tasks);
    while (r->task[from].activation == 0);
    do
        to = pick(c, 1, r->tasks);
    while (to == from);
    set_number(p->line[to], 5, r->task[from].activation);
}

static void break_activation_minor(chance *c, page *p, rig *r)
{
    unsigned at = line_of(c, p, 'M');
    set_field(p->line[pick(c, 1, r->tasks)], 5, parts_of(p->line[at]).field[2]);
}

static void break_t_missing(chance *c, page *p, rig *r)
{
    (void)r;
    remove_line(p, line_of(c, p, 'T'));
}

static void break_first_controller(chance *c, page *p, rig *r)
{
    set_number(p->line[1], 2, pick(c, 1, r->tasks));
}

static void break_a_without_c(chance *c, page *p, rig *r)
{
    (void)r;
    remove_line(p, line_of(c, p, 'C'));
}

/* All A lines of the last condition go. */
static void break_c_without_a(chance *c, page *p, rig *r)
{
    unsigned last = end_of(p, 'A') - 1;
    parts f = parts_of(p->line[last]);
    (void)c;
    (void)r;
    while (p->line[last][0] == 'A') {
        parts other = parts_of(p->line[last]);
        if (strcmp(other.field[1], f.field[1]) != 0 || strcmp(other.field[2], f.field[2]) != 0)
            break;
        remove_line(p, last--);
    }
}

/* The line of some A with a minor-cycle flag. */
static unsigned minor_a_line(chance *c, const page *p, const rig *r)
{
    flag_set minor;
    unsigned found = 0, seen = 0;
    mark_minor_flags(r, &minor);
    for (unsigned i = 0; i < r->a_lines; i++)
        if (minor.marked[r->a[i].flag] && pick(c, 0, seen++) == 0)
            found = start_of(p, 'A') + i;
    return found;
}

static void break_minor_not_alone(chance *c, page *p, rig *r)
{
    unsigned at = minor_a_line(c, p, r);
    parts f = parts_of(p->line[at]);
    unsigned flag = (unsigned)atoi(f.field[3]), other;
    do
        other = pick(c, 1, r->flags);
    while (other == flag);
    insert_line(p, other > flag ? at + 1 : at, "A\t%s\t%s\t%u", f.field[1], f.field[2], other);
}

static void break_minor_condition(chance *c, page *p, const rig *r, unsigned field, unsigned value)
{
    parts a = parts_of(p->line[minor_a_line(c, p, r)]);
    for (unsigned i = start_of(p, 'C'); i < end_of(p, 'C'); i++) {
        parts f = parts_of(p->line[i]);
        if (strcmp(f.field[1], a.field[1]) == 0 && strcmp(f.field[2], a.field[2]) == 0)
            set_number(p->line[i], field, value);
    }
}

static void break_minor_latched(chance *c, page *p, rig *r)
{
    break_minor_condition(c, p, r, 3, 1);
}

static void break_minor_desires_off(chance *c, page *p, rig *r)
{
    break_minor_condition(c, p, r, 4, 0);
}

static void break_same_ends(chance *c, page *p, rig *r)
{
    char *line = p->line[line_of(c, p, 'B')];
    (void)r;
    set_field(line, 3, parts_of(line).field[1]);
}

/* By rule: what breaks it, on the page of a rig. */
static void (*const breakers[RIG_RULE_COUNT])(chance *c, page *p, rig *r) = {
    [RULE_TASK_ABOVE] = break_task_above,
    [RULE_FLAG_ABOVE] = break_flag_above,
    [RULE_A_LINES] = break_a_lines,
    [RULE_B_LINES] = break_b_lines,
    [RULE_T_MISSING] = break_t_missing,
    [RULE_FIRST_CONTROLLER] = break_first_controller,
    [RULE_CONTROLLER] = break_controller,
    [RULE_CYCLE_CROWDED] = break_cycle_crowded,
    [RULE_ACTIVATION_SHARED] = break_activation_shared,
    [RULE_ACTIVATION_MINOR] = break_activation_minor,
    [RULE_A_WITHOUT_C] = break_a_without_c,
    [RULE_C_WITHOUT_A] = break_c_without_a,
    [RULE_MINOR_NOT_ALONE] = break_minor_not_alone,
    [RULE_MINOR_LATCHED] = break_minor_latched,
    [RULE_MINOR_DESIRES_OFF] = break_minor_desires_off,
    [RULE_SAME_ENDS] = break_same_ends};

void gen_bad_rule_rig(chance *c, rig_rule rule, text *out)
{
    static page p;
    static rig r;
    do
        plentiful_rig(c, &r);
    while (rule == RULE_A_LINES && r.tasks * r.flags < 120);
    page_of(&p, &r);
    breakers[rule](c, &p, &r);
    if (likely(c, 10)) /* a faulty line decides over the rule */
        spoil_line(c, &p, (enum refusal)pick(c, BAD_SHAPE, BAD_ORDER));
    page_print(&p, out);
}

/* ---- Several damages ---- */

static void spoil_byte(chance *c, text *out, size_t from)
{
    size_t at = from + pick(c, 0, (unsigned)(out->length - from - 1));
    static const uint8_t bytes[] = "\t\n 0123456789TCAMBR\r";
    out->bytes[at] = likely(c, 20) ? (uint8_t)pick(c, 0, 255) : bytes[pick(c, 0, sizeof bytes - 2)];
}

void gen_fuzzed_rig(chance *c, text *out)
{
    static page p;
    static rig r;
    size_t from = out->length;
    plentiful_rig(c, &r);
    page_of(&p, &r);
    if (likely(c, 50))
        breakers[pick(c, RULE_TASK_ABOVE, RIG_RULE_COUNT - 1)](c, &p, &r);
    for (unsigned n = pick(c, 0, 2); n > 0; n--)
        spoil_line(c, &p, (enum refusal)pick(c, BAD_SHAPE, BAD_ORDER));
    page_print(&p, out);
    for (unsigned n = pick(c, 0, 2); n > 0; n--)
        spoil_byte(c, out, from);
}

/* A B line of 16 to 23 bytes, LF included: that many of its fields have two digits. */
static void add_b_line(text *out, size_t length)
{
    size_t wide = length - 16;
    text_print(out, "B\t%s\t%s\t%s\t%s\t%s\t%s\t%s\n", wide > 0 ? "10" : "1", wide > 1 ? "10" : "1",
               wide > 2 ? "20" : "2", wide > 3 ? "10" : "1", wide > 4 ? "10" : "1", wide > 5 ? "16" : "8",
               wide > 6 ? "10" : "0");
}

static size_t at_most(size_t n, size_t most)
{
    return n < most ? n : most;
}

/* B lines up to exactly the wanted length. */
static void fill_to(text *out, size_t from, size_t wanted)
{
    while (wanted - (out->length - from) >= 64)
        add_b_line(out, 16);
    size_t left = wanted - (out->length - from); /* 48 to 63: three lines */
    size_t first = at_most(left - 32, 23), second = at_most(left - first - 16, 23);
    add_b_line(out, first);
    add_b_line(out, second);
    add_b_line(out, left - first - second);
}

void gen_long_rig(chance *c, text *out)
{
    static const size_t edges[] = {RIG_FILE_MAX, RIG_FILE_MAX, RIG_FILE_MAX + 1, RIG_FILE_MAX + 4, RIG_FILE_MAX - 1,
                                   RIG_FILE_MAX + 2000, 3 * RIG_FILE_MAX};
    size_t wanted = edges[pick(c, 0, sizeof edges / sizeof edges[0] - 1)], from = out->length;
    static rig r;
    plentiful_rig(c, &r);
    gen_print_rig(&r, out);
    if (likely(c, 30))
        text_print(out, "?\n");
    fill_to(out, from, wanted);
}
