/* Parts of the whole-file judge that others use too. */
#ifndef SECOND_RULES_H
#define SECOND_RULES_H

#include <stdbool.h>
#include <stddef.h>
#include <stdint.h>

#include "rig.h"

/* A set of flags: marked[f] is 1 for each member. */
typedef struct {
    uint8_t marked[FLAGS_MAX + 1];
} flag_set;

bool all_zero(const void *bytes, size_t length);

/* A listed period: 1, 2, 4, 8, 16, 32 or 64. */
bool is_period(uint32_t period);

/* The flags on M lines. */
void mark_minor_flags(const rig *r, flag_set *minor);

/* As rig_broken_rule; a rig that keeps the rules also has its minor-cycle flags marked. */
rig_rule judge_rig(const rig *r, flag_set *minor);

#endif
