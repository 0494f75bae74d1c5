/*
 * Sizes and refusal numbers of the build paper ("Sizes", "Refusal numbers").
 *
 * The second program is written from the paper alone and shares nothing with
 * the verified one: it is the outside check of it, and its speed peer.
 */
#ifndef SECOND_PAPER_H
#define SECOND_PAPER_H

enum {
    TASKS_MAX = 64,
    FLAGS_MAX = 128,
    POSITIONS = 16,      /* conditions of a task stand at positions 0 to 15 */
    PRIORITY_MAX = 255,
    CYCLES = 64,         /* minor cycles of a major frame */
    CYCLE_FLAGS_MAX = 15,
    A_LINES_MAX = 1024,
    ROWS_MAX = 64,
    ROW_WORDS_MAX = 32,
    ADDRESS_MAX = 31,
    SUBADDRESS_MAX = 30, /* of data; 1 is the lowest */
    RIG_FILE_MAX = 40960,
    BLOCK_WORDS = 33,    /* a tag word, then up to 32 words of data */
    TICK_WORDS = 128,    /* the least buffer a tick is lent */
    SERVED_MAX = 79,     /* 15 minor-cycle flags and 64 activations */
    OVERRUNS_MAX = 65535 /* where a task's number of overruns stops (request L6) */
};

#define COUNT_MAX UINT32_C(2147483647)

enum refusal {
    ACCEPTED = 0,
    BAD_SHAPE = 1,
    BAD_SIZE = 2,
    BAD_ORDER = 3,
    BAD_RIG = 4,
    NONE_RUNNING = 5,
    NO_SUCH = 6,
    NOT_ALLOWED = 7,
    WRONG_STATE = 8,
    COUNT_ABOVE = 9,
    BAD_LENGTH = 10,
    BAD_FIELD = 11,
    NOT_SOUND = 12
};

enum task_state { UNINVOKED = 0, INACTIVE = 1, WAITING = 2, DISPATCHABLE = 3 };

#endif
