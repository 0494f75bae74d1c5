/*
 * Each entry on a stack of just the bytes that the header states, ALGOLMALLET_STACK_BYTES, with a page below it that may not be touched:
 * an entry that needs more dies here. The stack is painted first, so that what each entry used can be told.
 *
 *   stack RIG    prints the deepest use, in bytes, and the entry that had it
 */
#define _GNU_SOURCE
#include <stdint.h>
#include <stdio.h>
#include <stdlib.h>
#include <string.h>
#include <sys/mman.h>
#include <ucontext.h>

#include "algolmallet.h"

enum {
    PAGE = 4096,
    FRAME = 512, /* the frames of the context's own function and of `call`, which are this program's */
    PAINT = 0xa5,
    RIG_ROOM = ALGOLMALLET_FILE_BYTES + 1,
    MOST_ROWS = 64,
};

static algolmallet_record *record, *kept;
static uint8_t rig[RIG_ROOM];
static size_t rig_length;
static uint16_t words[ALGOLMALLET_TICK_WORDS], area[MOST_ROWS * ALGOLMALLET_ROW_WORDS], data[ALGOLMALLET_ROW_WORDS];
static size_t rows, row_words;
static algolmallet_reply reply;
static char text[ALGOLMALLET_TEXT_BYTES];

static void start(void) { reply = algolmallet_start(record, rig, rig_length); }
static void schedule(void) { reply = algolmallet_schedule(record, 2); }
static void cancel(void) { reply = algolmallet_cancel(record, 2); }
static void terminate(void) { reply = algolmallet_terminate(record, 2); }
static void finish(void) { reply = algolmallet_finish(record); }
static void tick(void) { reply = algolmallet_tick(record, words, ALGOLMALLET_TICK_WORDS); }
static void wait_until(void) { reply = algolmallet_wait_until(record, 1000); }
static void wait_for(void) { reply = algolmallet_wait_for(record, 1000); }
static void wait_latched(void) { reply = algolmallet_wait_latched(record, 2, true); }
static void wait_unlatched(void) { reply = algolmallet_wait_unlatched(record, 2, false); }
static void signal_flag(void) { reply = algolmallet_signal(record, 2, true); }
static void read_flag(void) { reply = algolmallet_read_flag(record, 2); }
static void next_waking(void) { reply = algolmallet_next_waking(record); }
static void overruns(void) { reply = algolmallet_overruns(record, 2); }
static void why_not(void) { reply = algolmallet_why_not(record, 2, 3); }
static void read_block(void) { reply = algolmallet_read_block(record, 1, area, rows * ALGOLMALLET_ROW_WORDS, data, row_words); }
static void write_block(void) { reply = algolmallet_write_block(record, 1, area, rows * ALGOLMALLET_ROW_WORDS, data, row_words); }
static void numbers(void) { reply.refusal = algolmallet_version() && algolmallet_record_size() && algolmallet_record_align() ? 0 : 1; }
static void refusal_text(void) { reply.refusal = algolmallet_refusal_text(ALGOLMALLET_NOT_ALLOWED, text, sizeof text) == 0; }
static void command_fields(void) { reply.refusal = algolmallet_command_fields(14400).last != 32; }
static void status_fields(void) { reply.refusal = algolmallet_status_fields(15360).error != 1; }
static void judge(void) { reply.refusal = algolmallet_judge(30721, 7) != ALGOLMALLET_EXCEPTION; }

static const struct {
    const char *name;
    void (*call)(void);
} entries[] = {
    {"start", start},           {"schedule", schedule},         {"cancel", cancel},
    {"terminate", terminate},   {"finish", finish},             {"tick", tick},
    {"wait_until", wait_until}, {"wait_for", wait_for},         {"wait_latched", wait_latched},
    {"wait_unlatched", wait_unlatched}, {"signal", signal_flag}, {"read_flag", read_flag},
    {"read_block", read_block}, {"write_block", write_block},   {"record_size", numbers},
    {"refusal_text", refusal_text}, {"command_fields", command_fields}, {"status_fields", status_fields},
    {"judge", judge},           {"next_waking", next_waking},     {"overruns", overruns},
    {"why_not", why_not},
};

static ucontext_t here, there;
static void (*wanted)(void);

static void call(void)
{
    wanted();
}

/* Calls the entry on a stack of its own, and answers how many of its bytes were written. */
static size_t depth_of(void (*entry)(void), uint8_t *stack, size_t size)
{
    memset(stack, PAINT, size);
    getcontext(&there);
    there.uc_stack.ss_sp = stack;
    there.uc_stack.ss_size = size;
    there.uc_link = &here;
    wanted = entry;
    makecontext(&there, call, 0);
    swapcontext(&here, &there);
    size_t untouched = 0;
    while (untouched < size && stack[untouched] == PAINT)
        untouched++;
    return size - untouched;
}

/* The row's words are the fifth number of the first B line. */
static void read_rig(const char *name)
{
    FILE *file = fopen(name, "rb");
    if (!file)
        exit(2);
    rig_length = fread(rig, 1, sizeof rig, file);
    fclose(file);
    for (size_t i = 0; i + 1 < rig_length; i++)
        if ((i == 0 || rig[i - 1] == '\n') && rig[i] == 'B' && rows++ == 0)
            row_words = strtoul(strchr(strchr(strchr(strchr((char *)rig + i + 2, '\t') + 1, '\t') + 1, '\t') + 1, '\t') + 1, NULL, 10);
}

int main(int count, char **argument)
{
    size_t size = ALGOLMALLET_STACK_BYTES + FRAME, deepest = 0;
    const char *name = "";
    if (count != 2) {
        fprintf(stderr, "usage: stack RIG\n");
        return 2;
    }
    read_rig(argument[1]);
    record = malloc(algolmallet_record_size());
    kept = malloc(algolmallet_record_size());
    uint8_t *memory = mmap(NULL, PAGE + (size + PAGE - 1) / PAGE * PAGE, PROT_READ | PROT_WRITE, MAP_PRIVATE | MAP_ANONYMOUS, -1, 0);
    if (!record || !kept || memory == MAP_FAILED || mprotect(memory, PAGE, PROT_NONE) != 0)
        return 2;
    for (int lap = 0; lap < 2; lap++) { /* the second lap with task 2 scheduled, so that calls on it are accepted */
        start();
        if (reply.refusal != ALGOLMALLET_ACCEPTED)
            return 2;
        if (lap == 1)
            schedule();
        memcpy(kept, record, algolmallet_record_size());
        for (size_t i = 0; i < sizeof entries / sizeof *entries; i++) {
            size_t used = depth_of(entries[i].call, memory + PAGE, size);
            if (used > deepest) {
                deepest = used;
                name = entries[i].name;
            }
            if (getenv("ALGOLMALLET_TELL"))
                printf("%d %s %zu %u\n", lap, entries[i].name, used, reply.refusal);
            memcpy(record, kept, algolmallet_record_size());
        }
    }
    printf("%zu bytes of stack at most, by %s, of the %d that the header states\n", deepest, name, ALGOLMALLET_STACK_BYTES);
    return 0;
}
