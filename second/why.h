/*
 * "Why won't it start?" (request L13): whether an inactive task can start
 * within some links, and if not, which of its conditions to look at first.
 */
#ifndef SECOND_WHY_H
#define SECOND_WHY_H

#include <stdint.h>

#include "exec.h"

/* "d from 0 to 3"; and what is answered for a task that can start, which is no condition's position. */
enum { LINKS_MAX = 3, CAN_START = POSITIONS };

/*
 * The question as a call: `value` is the position of "the lowest condition that
 * blocks", or CAN_START.  The record stays as it is, and no running task is
 * needed.  Refused by 12, 6, 8 "if the task isn't inactive", 11 "for d above 3";
 * both builds test the record.
 */
answer exec_why_not(const exec *e, uint32_t task, uint32_t links);

/*
 * The answer itself, of a task that the rig has, whatever its state.  It asks nothing of the record's soundness, so that
 * the request's words can be tested where no right rig goes: a condition without flags, a minor-cycle flag in one that
 * desires off.
 */
unsigned lowest_blocking(const exec *e, unsigned task, unsigned links);

#endif
