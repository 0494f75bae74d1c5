/*
 * Inside the executive: waiting tasks, the queue of flags and its serving,
 * activation and dispatch.  The calls of exec.h are made of these.
 */
#ifndef SECOND_SERVE_H
#define SECOND_SERVE_H

#include "exec.h"
#include "mutant.h"

/* A call serves at most 79 flags, so never queues more; a mutant may. */
enum { QUEUE_ROOM = SERVED_MAX + (WITH_MUTANTS ? TASKS_MAX : 0) };

typedef struct {
    unsigned served;
    unsigned woken, activated; /* by the services so far */
    unsigned heard;            /* services that added to either */
    unsigned waiting;
    struct {
        uint8_t flag, value;
    } entry[QUEUE_ROOM];
} serving;

/* The states of all tasks; those past the rig's are UNINVOKED. */
typedef struct {
    uint8_t of[TASKS_MAX];
} task_states;

static inline bool is_task(const exec *e, uint32_t task)
{
    return task >= 1 && task <= e->rig.tasks;
}

/* The running task begins to wait. */
void wait_on_time(exec *e, uint32_t waking);
void wait_on_flag(exec *e, uint32_t flag, bool value);

/* Takes a task out of whatever line it waits in. */
void leave_line(exec *e, unsigned task);

/* Tasks whose waking count is the count become dispatchable. */
void wake_due(exec *e);

/* Flag 0, of a task without activation flag, queues nothing. */
void queue_flag(serving *s, unsigned flag, unsigned value);
void queue_activation(serving *s, const exec *e, unsigned task, unsigned value);

/* Serves what is next in the queue, which is not empty; serves until it is. */
void serve_one(exec *e, serving *s);
void serve_all(exec *e, serving *s);

/* Counts the overruns of one service of the flag, by the tasks' states before it (overruns.c). */
void count_overruns(exec *e, const serving *s, const task_states *before, unsigned flag);

/* Unlatched conditions take the undesired value. */
void reset_unlatched(exec *e, unsigned task);

/* Dispatchable, unlatched conditions undesired again, activation flag queued on. */
void activate(exec *e, serving *s, unsigned task);

/* Who runs after an accepted call; `stayed` tells of the running task. */
void dispatch(exec *e, bool stayed);

#endif
