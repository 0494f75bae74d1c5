/*
 * Reading and writing rig files.  A reader is kept over the lent text, line
 * after line; a line is judged for shape, then sizes, then order, each over
 * the whole line, so that the smallest number of the first faulty line is the
 * one given.
 */
#include "rig.h"

#include <stdbool.h>
#include <string.h>

#include "mutant.h"
#include "rules.h"

enum { FIELDS_MAX = 7 };

/* In the order of the file. */
enum kind { KIND_RIG, KIND_T, KIND_C, KIND_A, KIND_M, KIND_B, KINDS };

typedef struct {
    const char *name;
    unsigned fields;
    struct {
        uint32_t least, most;
    } size[FIELDS_MAX];
} kind_form;

static const kind_form forms[KINDS] = {
    [KIND_RIG] = {"RIG", 4, {{1, 1}, {1, TASKS_MAX}, {1, FLAGS_MAX}, {0, ADDRESS_MAX}}},
    [KIND_T] = {"T", 5, {{1, TASKS_MAX}, {0, TASKS_MAX}, {0, PRIORITY_MAX}, {0, 1}, {0, FLAGS_MAX}}},
    [KIND_C] = {"C", 4, {{1, TASKS_MAX}, {0, POSITIONS - 1}, {0, 1}, {0, 1}}},
    [KIND_A] = {"A", 3, {{1, TASKS_MAX}, {0, POSITIONS - 1}, {1, FLAGS_MAX}}},
    [KIND_M] = {"M", 2, {{0, CYCLES - 1}, {1, FLAGS_MAX}}},
    [KIND_B] = {"B", 7,
                {{0, ADDRESS_MAX},
                 {1, SUBADDRESS_MAX},
                 {0, ADDRESS_MAX},
                 {1, SUBADDRESS_MAX},
                 {1, ROW_WORDS_MAX},
                 {1, CYCLES},
                 {0, CYCLES - 1}}},
};

typedef struct {
    enum kind kind;
    uint32_t field[FIELDS_MAX];
} record;

/* The reader over the lent text: a place in it and what the lines so far mean for the next. */
typedef struct {
    const uint8_t *text;
    size_t length;
    size_t place;
    uint32_t line;      /* number of the line last taken */
    int last_kind;      /* -1 before the first line */
    uint32_t last_key;  /* of that kind */
    uint64_t t_lines;   /* bit t - 1: task t has its T line */
    rig_rule broken;    /* a whole-file rule that the rig itself cannot show */
} reader;

/* ---- Shape ---- */

/*
 * Takes a number at *at: digits without spare zeros.  A number too large for
 * 32 bits is well shaped and stays at the largest, outside every size.
 */
static bool take_number(const uint8_t **at, const uint8_t *end, uint32_t *out)
{
    const uint8_t *p = *at;
    uint64_t value = 0;
    while (p < end && *p >= '0' && *p <= '9') {
        value = value * 10 + (uint64_t)(*p - '0');
        if (MUTATED(NUMBERS_WRAP))
            value &= UINT32_MAX;
        else if (value > UINT32_MAX)
            value = UINT32_MAX;
        p++;
    }
    if (p == *at || (**at == '0' && p - *at > 1))
        return false;
    *out = (uint32_t)value;
    *at = p;
    return true;
}

static bool take_kind(const uint8_t **at, const uint8_t *end, enum kind *out)
{
    for (unsigned k = 0; k < KINDS; k++) {
        size_t length = strlen(forms[k].name);
        if ((size_t)(end - *at) > length && memcmp(*at, forms[k].name, length) == 0 &&
            (*at)[length] == '\t') {
            *at += length;
            *out = k;
            return true;
        }
    }
    return false;
}

static bool is_field_size(const record *rec, unsigned i);

static enum refusal judge_shape(const uint8_t *at, const uint8_t *end, record *out)
{
    if (!take_kind(&at, end, &out->kind))
        return BAD_SHAPE;
    for (unsigned i = 0; i < forms[out->kind].fields; i++) {
        if (at == end || *at++ != '\t' || !take_number(&at, end, &out->field[i]))
            return BAD_SHAPE;
        if (MUTATED(SIZES_BEFORE_SHAPE) && !is_field_size(out, i))
            return BAD_SIZE;
    }
    return at == end ? ACCEPTED : BAD_SHAPE;
}

/* ---- Sizes ---- */

static bool is_field_size(const record *rec, unsigned i)
{
    const kind_form *form = &forms[rec->kind];
    return rec->field[i] >= form->size[i].least && rec->field[i] <= form->size[i].most;
}

static enum refusal judge_sizes(const record *rec)
{
    for (unsigned i = 0; i < forms[rec->kind].fields; i++)
        if (!is_field_size(rec, i))
            return BAD_SIZE;
    if (rec->kind == KIND_B && (!is_period(rec->field[5]) || rec->field[6] >= rec->field[5]))
        return BAD_SIZE;
    return ACCEPTED;
}

/* ---- Order ---- */

/* "Each kind rising strictly by its leading numbers"; one RIG, B lines free. */
static uint32_t record_key(const record *rec)
{
    const uint32_t *f = rec->field;
    switch (rec->kind) {
    case KIND_T:
        return f[0];
    case KIND_C:
        return f[0] << 4 | f[1];
    case KIND_A:
        return f[0] << 12 | f[1] << 8 | f[2];
    case KIND_M:
        return f[0] << 8 | f[1];
    default:
        return 0;
    }
}

static enum refusal judge_order(reader *rd, const record *rec)
{
    int kind = (int)rec->kind;
    uint32_t key = record_key(rec);
    if (rd->last_kind < 0 && kind != KIND_RIG)
        return BAD_ORDER;
    if (kind < rd->last_kind)
        return BAD_ORDER;
    if (kind == rd->last_kind && kind != KIND_B && key <= rd->last_key)
        return BAD_ORDER;
    rd->last_kind = kind;
    rd->last_key = key;
    return ACCEPTED;
}

/* ---- Keeping what a line says ---- */

/*
 * A line past a limit breaks a whole-file rule and is not kept: the lines
 * after it are still judged, and the first faulty one of them decides.
 */
static void mark_broken(reader *rd, rig_rule rule)
{
    if (rd->broken == RULE_KEPT)
        rd->broken = rule;
}

static void keep_t(reader *rd, const uint32_t *f, rig *r)
{
    r->task[f[0]] = (rig_task){(uint8_t)f[1], (uint8_t)f[2], (uint8_t)f[3], (uint8_t)f[4]};
    rd->t_lines |= UINT64_C(1) << (f[0] - 1);
}

static void keep_c(const uint32_t *f, rig *r)
{
    rig_conditions *c = &r->conditions[f[0]];
    c->present |= (uint16_t)(1u << f[1]);
    c->latched |= (uint16_t)(f[2] << f[1]);
    c->desired |= (uint16_t)(f[3] << f[1]);
}

static void keep_a(reader *rd, const uint32_t *f, rig *r)
{
    if (r->a_lines == A_LINES_MAX)
        mark_broken(rd, RULE_A_LINES);
    else
        r->a[r->a_lines++] = (rig_line_a){(uint8_t)f[0], (uint8_t)f[1], (uint8_t)f[2]};
}

static void keep_m(reader *rd, const uint32_t *f, rig *r)
{
    rig_cycle *cycle = &r->cycle[f[0]];
    if (cycle->flags == CYCLE_FLAGS_MAX)
        mark_broken(rd, RULE_CYCLE_CROWDED);
    else
        cycle->flag[cycle->flags++] = (uint8_t)f[1];
}

static void keep_b(reader *rd, const uint32_t *f, rig *r)
{
    if (r->rows == ROWS_MAX)
        mark_broken(rd, RULE_B_LINES);
    else
        r->row[r->rows++] = (rig_row){(uint8_t)f[0], (uint8_t)f[1], (uint8_t)f[2], (uint8_t)f[3],
                                      (uint8_t)f[4], (uint8_t)f[5], (uint8_t)f[6]};
}

static void keep(reader *rd, const record *rec, rig *r)
{
    const uint32_t *f = rec->field;
    switch (rec->kind) {
    case KIND_RIG:
        r->tasks = (uint8_t)f[1];
        r->flags = (uint8_t)f[2];
        r->master = (uint8_t)f[3];
        break;
    case KIND_T:
        keep_t(rd, f, r);
        break;
    case KIND_C:
        keep_c(f, r);
        break;
    case KIND_A:
        keep_a(rd, f, r);
        break;
    case KIND_M:
        keep_m(rd, f, r);
        break;
    default:
        keep_b(rd, f, r);
        break;
    }
}

/* ---- The file ---- */

/* Judges and keeps the next line. */
static enum refusal read_line(reader *rd, rig *r)
{
    const uint8_t *start = rd->text + rd->place;
    const uint8_t *end = memchr(start, '\n', rd->length - rd->place);
    enum refusal refusal;
    record rec;
    rd->line++;
    if (end == NULL)
        return BAD_SHAPE;
    rd->place += (size_t)(end - start) + 1;
    if ((refusal = judge_shape(start, end, &rec)) || (refusal = judge_sizes(&rec)) ||
        (refusal = judge_order(rd, &rec)))
        return refusal;
    keep(rd, &rec, r);
    if (MUTATED(CROWDED_CYCLE_AT_ONCE) && rd->broken == RULE_CYCLE_CROWDED)
        return BAD_RIG;
    return ACCEPTED;
}

static rig_rule judge_t_lines(const reader *rd, const rig *r)
{
    uint64_t wanted = UINT64_MAX >> (TASKS_MAX - r->tasks);
    if (rd->t_lines & ~wanted)
        return RULE_TASK_ABOVE;
    return rd->t_lines == wanted ? RULE_KEPT : RULE_T_MISSING;
}

static rig_verdict read_all(reader *rd, rig *r)
{
    rig_verdict v = {ACCEPTED, 0, RULE_KEPT};
    if (rd->length > RIG_FILE_MAX) {
        v.refusal = BAD_SIZE;
        return v;
    }
    do { /* an empty file has one faulty line */
        v.refusal = read_line(rd, r);
        if (v.refusal != ACCEPTED) {
            v.line = rd->line;
            return v;
        }
    } while (rd->place < rd->length);
    if ((v.rule = rd->broken) || (v.rule = judge_t_lines(rd, r)) || (v.rule = rig_broken_rule(r)))
        v.refusal = BAD_RIG;
    return v;
}

rig_verdict rig_read(const uint8_t *text, size_t length, rig *out)
{
    reader rd = {.text = text, .length = length, .last_kind = -1};
    memset(out, 0, sizeof *out);
    rig_verdict v = read_all(&rd, out);
    if (v.refusal != ACCEPTED)
        memset(out, 0, sizeof *out);
    return v;
}

/* ---- Writer ---- */

typedef struct {
    uint8_t text[RIG_FILE_MAX];
    size_t length;
} page;

static void write_number(page *p, uint32_t value)
{
    uint8_t digits[10];
    unsigned n = 0;
    do
        digits[n++] = (uint8_t)('0' + value % 10);
    while ((value /= 10) != 0);
    while (n > 0)
        p->text[p->length++] = digits[--n];
}

static void write_record(page *p, enum kind kind, const uint32_t *field)
{
    size_t name = strlen(forms[kind].name);
    memcpy(p->text + p->length, forms[kind].name, name);
    p->length += name;
    for (unsigned i = 0; i < forms[kind].fields; i++) {
        p->text[p->length++] = '\t';
        write_number(p, field[i]);
    }
    p->text[p->length++] = '\n';
}

#define WRITE(p, kind, ...) write_record((p), (kind), (const uint32_t[]){__VA_ARGS__})

static void write_conditions(page *p, const rig *r, uint32_t task)
{
    const rig_conditions *c = &r->conditions[task];
    for (uint32_t at = 0; at < POSITIONS; at++)
        if (c->present >> at & 1)
            WRITE(p, KIND_C, task, at, c->latched >> at & 1u, c->desired >> at & 1u);
}

static void write_file(page *p, const rig *r)
{
    WRITE(p, KIND_RIG, 1, r->tasks, r->flags, r->master);
    for (uint32_t t = 1; t <= r->tasks; t++) {
        const rig_task *task = &r->task[t];
        WRITE(p, KIND_T, t, task->controller, task->priority, task->privileged, task->activation);
    }
    for (uint32_t t = 1; t <= r->tasks; t++)
        write_conditions(p, r, t);
    for (unsigned i = 0; i < r->a_lines; i++)
        WRITE(p, KIND_A, r->a[i].task, r->a[i].position, r->a[i].flag);
    for (uint32_t c = 0; c < CYCLES; c++)
        for (unsigned i = 0; i < r->cycle[c].flags; i++)
            WRITE(p, KIND_M, c, r->cycle[c].flag[i]);
    for (unsigned k = 0; k < r->rows; k++) {
        const rig_row *row = &r->row[k];
        WRITE(p, KIND_B, row->sender, row->sender_sub, row->receiver, row->receiver_sub, row->words,
              row->period, row->phase);
    }
}

enum refusal rig_write(const rig *r, uint8_t *buffer, size_t room, size_t *length)
{
    page p;
    p.length = 0;
    if (rig_broken_rule(r) != RULE_KEPT)
        return BAD_RIG;
    write_file(&p, r);
    if (p.length > room)
        return BAD_LENGTH;
    memcpy(buffer, p.text, p.length);
    *length = p.length;
    return ACCEPTED;
}
