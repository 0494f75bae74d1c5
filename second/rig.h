/*
 * The rig: what a rig file says, as plain data, with its reader, its judge
 * and its writer ("Rig file").
 *
 * Tasks, flags and rows are numbered from 1; arrays over tasks have an unused
 * entry 0.  Entries beyond the rig's counts, and entry 0, are 0.
 */
#ifndef SECOND_RIG_H
#define SECOND_RIG_H

#include <stddef.h>
#include <stdint.h>

#include "paper.h"

typedef struct {
    uint8_t controller; /* 0 for none */
    uint8_t priority;
    uint8_t privileged;
    uint8_t activation; /* flag, 0 for none */
} rig_task;

/* The conditions of one task: bit p stands for position p. */
typedef struct {
    uint16_t present;
    uint16_t latched;
    uint16_t desired;
} rig_conditions;

typedef struct {
    uint8_t task;
    uint8_t position;
    uint8_t flag;
} rig_line_a;

/* The M lines of one minor cycle, in file order. */
typedef struct {
    uint8_t flags;
    uint8_t flag[CYCLE_FLAGS_MAX];
} rig_cycle;

typedef struct {
    uint8_t sender;
    uint8_t sender_sub;
    uint8_t receiver;
    uint8_t receiver_sub;
    uint8_t words;
    uint8_t period;
    uint8_t phase;
} rig_row;

typedef struct {
    uint8_t tasks;
    uint8_t flags;
    uint8_t master;
    uint8_t rows;
    uint16_t a_lines;
    rig_task task[TASKS_MAX + 1];
    rig_conditions conditions[TASKS_MAX + 1];
    rig_line_a a[A_LINES_MAX];
    rig_cycle cycle[CYCLES];
    rig_row row[ROWS_MAX]; /* row k is row[k - 1] */
} rig;

/*
 * The whole-file rules by name.  RULE_SIZES is for a rig in memory only: a
 * number outside its size, lines not rising, or an entry beyond the counts
 * that is not 0.  A file with one of these is refused at its line.
 */
#define RIG_RULES(R) \
    R(RULE_KEPT, "kept") \
    R(RULE_SIZES, "sizes") \
    R(RULE_TASK_ABOVE, "task above the RIG line") \
    R(RULE_FLAG_ABOVE, "flag above the RIG line") \
    R(RULE_A_LINES, "above 1,024 A lines") \
    R(RULE_B_LINES, "above 64 B lines") \
    R(RULE_T_MISSING, "a task without T line") \
    R(RULE_FIRST_CONTROLLER, "task 1 has a controller") \
    R(RULE_CONTROLLER, "controller neither previous task nor its ancestor") \
    R(RULE_CYCLE_CROWDED, "above 15 flags a cycle") \
    R(RULE_ACTIVATION_SHARED, "activation flag of two tasks") \
    R(RULE_ACTIVATION_MINOR, "activation flag on an M line") \
    R(RULE_A_WITHOUT_C, "A without its C") \
    R(RULE_C_WITHOUT_A, "C without an A") \
    R(RULE_MINOR_NOT_ALONE, "minor-cycle flag with another in a condition") \
    R(RULE_MINOR_LATCHED, "minor-cycle flag in a latched condition") \
    R(RULE_MINOR_DESIRES_OFF, "minor-cycle flag in a condition desiring off") \
    R(RULE_SAME_ENDS, "sender equal to receiver")

#define RIG_RULE_NAME(name, text) name,
typedef enum { RIG_RULES(RIG_RULE_NAME) RIG_RULE_COUNT } rig_rule;
#undef RIG_RULE_NAME

extern const char *const rig_rule_text[RIG_RULE_COUNT];

/* refusal 0 means accepted; `rule` names the broken rule when refusal is 4. */
typedef struct {
    enum refusal refusal;
    uint32_t line;
    rig_rule rule;
} rig_verdict;

/* Reads a whole rig file.  A refused rig is all zeros. */
rig_verdict rig_read(const uint8_t *text, size_t length, rig *out);

/* The first rule that a rig in memory breaks, or RULE_KEPT. */
rig_rule rig_broken_rule(const rig *r);

/*
 * Writes the rig's file and its length.  Refused by 4 if the rig breaks a
 * rule, by 10 if the buffer is shorter than the file; bytes past it stay.
 */
enum refusal rig_write(const rig *r, uint8_t *buffer, size_t room, size_t *length);

#endif
