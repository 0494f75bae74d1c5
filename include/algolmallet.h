/* Algolmallet for C hosts: the executive of an avionics training bench, on a record that the host keeps, and the monitor's side of the bus.
 *
 * Link with libalgolmallet.a, which `./install PREFIX` puts beside this header's folder (pkg-config algolmallet); in the repository it
 * is target/staticlib/libhost.a, which `tools/archive host` proves and writes. It is for x86-64. The archive has the entries below and
 * nothing else that can be seen from outside, keeps no memory of its own, uses no heap, and needs of the host only
 *     memcpy memmove memset
 * The words in quotes are the build paper's, or those of a request that came after it, where one is named.
 *
 * WHAT A HOST DOES. It keeps memory for one record, has algolmallet_start fill it from a rig file, and lends it to each
 * call, "to be changed where it stands". Any bytes may be handed in as a record: what is no sound record, as memory that was
 * never started or that was overwritten, is refused by 12 and left as it is.
 *
 * WHAT A HOST OWES. No entry can test these, and the proofs rest on them:
 *   - every pointer is valid and not null (also of a buffer with 0 words) and aligned for what it points to, the record by
 *     algolmallet_record_align();
 *   - behind a pointer is as much memory as the entry is told, and algolmallet_record_size() bytes behind the record's;
 *   - the record and the buffers of one call lie apart;
 *   - one caller at a time for each record; calls on different records do not touch each other;
 *   - a bool is true or false;
 *   - a call finds ALGOLMALLET_STACK_BYTES of stack free: a start holds the rig file's lines there, and every call some copies of
 *     the record.
 *
 * WHAT IS PROVED of each entry, for every record and every argument: the record after it, its reply and every word of the
 * lent buffers are those that the paper's rules give (crates/host_replies/specs/Told.antt; of the word entries
 * crates/word_numbers/specs/Numbers.antt and crates/word_judging/specs/Judging.antt). "A refused call returns the record
 * unchanged and writes nothing." No call traps.
 *
 * A terminal's side of the bus, which makes words and sends them, is another library: algolmallet_terminal.h. Both may be used in one
 * program.
 */
#ifndef ALGOLMALLET_H
#define ALGOLMALLET_H

#include <stdbool.h>
#include <stddef.h>
#include <stdint.h>

#ifdef __cplusplus
extern "C" {
#endif

/* The version of this header: first, second and third number, and all three as one, which rises. */
#define ALGOLMALLET_VERSION "0.8.0"
#define ALGOLMALLET_VERSION_NUMBER 8000 /* 1,000,000 times the first, 1,000 times the second, and the third */

/* The version of the archive: ALGOLMALLET_VERSION_NUMBER, if this header belongs to it. */
uint32_t algolmallet_version(void);

/* Sizes that the paper fixes: the least room of a tick's buffer, in words; words of the compool area for each row (B line) of the
 * rig; bytes of the longest rig file. */
#define ALGOLMALLET_TICK_WORDS 128
#define ALGOLMALLET_ROW_WORDS 33
#define ALGOLMALLET_FILE_BYTES 40960

/* What algolmallet_why_not answers of a task that can start: above every position of a condition, 0 to 15. */
#define ALGOLMALLET_CAN_START 16

/* Room for the longest text of a refusal, with the byte 0 that ends it; and the stack that a call may use. */
#define ALGOLMALLET_TEXT_BYTES 144
#define ALGOLMALLET_STACK_BYTES 184320

/* Opaque: what is in it is the library's. A host may copy it as bytes, to keep a state and come back to it; the few bytes that
 * alignment leaves between fields hold anything, so equal states need not be equal bytes. A copy is of use to the same version of the library
 * alone: a record of 0.6.0 is longer than one of 0.5.0, by each task's number of overruns. */
typedef struct algolmallet_record algolmallet_record;

/* The paper's refusal numbers, each "given exactly when". "For a call, 12 comes first, then the smallest number." */
enum algolmallet_refusal {
    ALGOLMALLET_ACCEPTED = 0,
    /* "a line .. has the wrong shape, or no LF; empty file (line 1)" */
    ALGOLMALLET_WRONG_SHAPE = 1,
    /* "a number is outside its size; file too long (line 0, tested first)" */
    ALGOLMALLET_OUTSIDE_SIZE = 2,
    /* "a record is out of order or repeated" */
    ALGOLMALLET_OUT_OF_ORDER = 3,
    /* "a whole-file rule is broken (line 0)" */
    ALGOLMALLET_RULE_BROKEN = 4,
    /* "any call on a record but the tick .., while no task is running"; algolmallet_next_waking, algolmallet_overruns and algolmallet_why_not need none either */
    ALGOLMALLET_NOBODY_RUNS = 5,
    /* "no such task, flag or row" */
    ALGOLMALLET_NO_SUCH = 6,
    /* "caller is not the named task's controller; signal of an activation or minor-cycle flag; wait on or reading of a
     * minor-cycle flag" */
    ALGOLMALLET_NOT_ALLOWED = 7,
    /* "schedule of an invoked task, cancel of an uninvoked one, terminate of one not active"; of algolmallet_why_not "if the task isn't inactive" */
    ALGOLMALLET_WRONG_STATE = 8,
    /* "waking count above 2,147,483,647; tick at that count" */
    ALGOLMALLET_COUNT_TOO_HIGH = 9,
    /* "a lent buffer has not the length that this paper states for it" */
    ALGOLMALLET_WRONG_LENGTH = 10,
    /* "a word's field, an expected address or a status image is outside its size": of algolmallet_judge; and of algolmallet_why_not "for d above 3" */
    ALGOLMALLET_WORD_OUTSIDE_SIZE = 11,
    /* "the record handed in is not sound" */
    ALGOLMALLET_NOT_SOUND = 12
};

/* A refusal's text: the paper's words for its number, "accepted" for 0, "no refusal has this number" above 12. It is written to the front of
 * `out`, which has `room` bytes, with a 0 byte behind it. Answers the text's length without that byte. If `room` is not more than that length,
 * nothing is written. (The library keeps no memory of its own, so it has no text to point at.) */
size_t algolmallet_refusal_text(uint32_t number, char *out, size_t room);

/* What a call answers. After a refusal `served`, `words`, `value`, `woken` and `activated` are 0. `woken` and `activated` are what request
 * L2 asked for: "Serving a flag must also answer how many waiting tasks it made dispatchable and how many it activated, added over all services
 * of a call." Tasks that a tick wakes by its count, and the task that a schedule or a start activates itself, or that the test after finish and
 * terminate activates, are in neither. */
typedef struct {
    uint32_t refusal;   /* enum algolmallet_refusal */
    uint32_t line;      /* of a start refused by 1 to 4: the rig file's line, 0 for the whole file; else 0 */
    uint32_t served;    /* flag changes that the call served, "at most 79" */
    uint32_t words;     /* bus words written by a tick */
    uint32_t value;     /* of a flag read, 0 or 1; of algolmallet_next_waking a waking count, 0 for none; of algolmallet_overruns the number; of algolmallet_why_not a position or ALGOLMALLET_CAN_START; else 0 */
    uint32_t count;     /* the count after the call, as the record has it; 0 after a refused start */
    uint32_t running;   /* the running task after the call, as the record has it, 0 for none */
    uint32_t woken;     /* "how many waiting tasks" the call's services "made dispatchable" */
    uint32_t activated; /* "how many" tasks they "activated" */
} algolmallet_reply;

/* The library's side of these offsets is proved in crates/host_layout/proofs/Offsets.antt. */
#ifdef __cplusplus
#define ALGOLMALLET_HOLDS(fact, text) static_assert(fact, text)
#else
#define ALGOLMALLET_HOLDS(fact, text) _Static_assert(fact, text)
#endif
ALGOLMALLET_HOLDS(sizeof(algolmallet_reply) == 36, "the size of a reply");
ALGOLMALLET_HOLDS(offsetof(algolmallet_reply, served) == 8, "the layout of a reply");
ALGOLMALLET_HOLDS(offsetof(algolmallet_reply, running) == 24, "the layout of a reply");
ALGOLMALLET_HOLDS(offsetof(algolmallet_reply, woken) == 28, "the layout of a reply");
ALGOLMALLET_HOLDS(offsetof(algolmallet_reply, activated) == 32, "the layout of a reply");
ALGOLMALLET_HOLDS(sizeof(size_t) == 8, "the library is for x86-64");

/* The bytes of a record, and what its address must be a multiple of (what malloc gives always is). */
size_t algolmallet_record_size(void);
size_t algolmallet_record_align(void);

/* Reads a rig file of `length` bytes and starts: "count 0, flags and conditions off, all tasks uninvoked; then task 1 is
 * scheduled". What the memory held before does not matter. Refused by 1 to 4, with the line; then the memory holds "a record
 * of all zeros, which every call refuses by 12". */
algolmallet_reply algolmallet_start(algolmallet_record *r, const uint8_t *rig_file, size_t length);

/* "unlatched conditions take the undesired value; inactive; if all conditions are as desired, none included, the task is
 * activated". Refused by 12, 5, 6, 7, 8. */
algolmallet_reply algolmallet_schedule(algolmallet_record *r, uint32_t task);

/* "the named task and all its descendants become uninvoked and leave their chains; then activation flags of those that were
 * active are queued off, by rising task number". Refused by 12, 5, 6, 7, 8. */
algolmallet_reply algolmallet_cancel(algolmallet_record *r, uint32_t task);

/* As finish, "for the named active task, taken out of any chain"; that task is tested again too. Refused by 12, 5, 6, 7, 8. */
algolmallet_reply algolmallet_terminate(algolmallet_record *r, uint32_t task);

/* "(the running task): inactive, activation flag queued off". Then, as request L3 asked, "once the queue is empty, that task is tested again and
 * activated if it is still inactive with all conditions as desired; its flag is then served on": a task with no conditions is always active
 * again. It "has not stayed dispatchable, even if it is active again", so who runs is chosen anew. Refused by 12, 5. */
algolmallet_reply algolmallet_finish(algolmallet_record *r);

/* "the count rises by one; tasks due at it become dispatchable; the M list of cycle (count modulo 64) is queued, each flag
 * on, in file order and served; bus words are written and their number answered". The buffer has room for at least
 * ALGOLMALLET_TICK_WORDS; "words past those written stay". "A tick needs no running task." Refused by 12, 9, 10. */
algolmallet_reply algolmallet_tick(algolmallet_record *r, uint16_t *words, size_t room);

/* "if the waking count is at or below the count, no wait; else waiting": until a count, or for a number of cycles from now.
 * Refused by 12, 5, 9. */
algolmallet_reply algolmallet_wait_until(algolmallet_record *r, uint32_t count);
algolmallet_reply algolmallet_wait_for(algolmallet_record *r, uint32_t cycles);

/* A wait for a flag's value. Latched: "no wait if it has it". Unlatched: "always waits for the next service of that flag with
 * that value". Refused by 12, 5, 6, 7. */
algolmallet_reply algolmallet_wait_latched(algolmallet_record *r, uint32_t flag, bool value);
algolmallet_reply algolmallet_wait_unlatched(algolmallet_record *r, uint32_t flag, bool value);

/* "the flag and value are queued", and served. The reply's `woken` and `activated` say whether anything heard (request L2). Refused by
 * 12, 5, 6, 7. */
algolmallet_reply algolmallet_signal(algolmallet_record *r, uint32_t flag, bool value);

/* The reply's `value` is the flag's. Refused by 12, 5, 6, 7. */
algolmallet_reply algolmallet_read_flag(algolmallet_record *r, uint32_t flag);

/* "When does the bench next wake someone?" (request L4). The reply's `value` is "the lowest waking count among tasks waiting on time, read at
 * the head of the time chain; none exactly when no task so waits". 0 stands for none: a waking count is above the count, so never 0. "No
 * running task is needed." The record is as it was, and nothing is served. Refused by 12 alone. */
algolmallet_reply algolmallet_next_waking(algolmallet_record *r);

/* How many starts of the task came too soon (request L6). The reply's `value` is its "number of overruns: services of a minor-cycle flag in one of
 * its conditions with the task already active before", waiting or dispatchable. Before is before that very service: the one that starts the task does
 * not count, and one behind it in the same tick does. A service counts once for a task, however many of its conditions name the flag. "It stops at
 * 65,535. Schedule sets it to 0" (and so does a start); "cancel, terminate and finish keep it". The call "reads it for any task", in any state, "with no
 * running task needed". The record is as it was, and nothing is served. Refused by 12, 6. */
algolmallet_reply algolmallet_overruns(algolmallet_record *r, uint32_t task);

/* "Why won't it start?" (request L13). "An inactive task can start within d links .. when each condition stands as desired or can be brought there. One that
 * desires on can be brought there if one of its flags is a minor-cycle flag, a plain flag, or, with d at least 1, the activation flag of an inactive task that
 * can start within d - 1 links. One that desires off: if one of its flags is plain, or is the activation flag of an active task." `links` is d, "from 0 to 3".
 * The reply's `value` is ALGOLMALLET_CAN_START if the task can start, else the position, 0 to 15, of "the lowest condition that blocks". "A larger d never turns a
 * yes into a no." A refusal's value is 0, as a block at position 0 is: look at `refusal` first. "It needs no running task." The record is as it was, and nothing
 * is served. Refused by 12, 6, 8 "if the task isn't inactive", 11 "for d above 3". */
algolmallet_reply algolmallet_why_not(algolmallet_record *r, uint32_t task, uint32_t links);

/* "Row k's block starts at word 33(k - 1) of the lent area: a tag word, then its data. The area has exactly 33 words a row;
 * the caller's buffer has exactly the row's words." Read "copies the data out"; write "stores the data and the count modulo
 * 65,536 as tag and touches no other word". Refused by 12, 5, 6, 10. */
algolmallet_reply algolmallet_read_block(algolmallet_record *r, uint32_t row, const uint16_t *area, size_t area_words,
                                         uint16_t *buffer, size_t words);
algolmallet_reply algolmallet_write_block(algolmallet_record *r, uint32_t row, uint16_t *area, size_t area_words,
                                          const uint16_t *data, size_t words);

/* ---- The monitor's side of the bus: words that are heard. No record is needed. ---- */

/* A command word by its fields. `last` is the number of words, 1 to 32, or at sub-address 0, "a mode command", its number, 0 to 31. */
typedef struct {
    uint32_t address;
    uint32_t transmit; /* 0 receive, 1 transmit */
    uint32_t sub_address;
    uint32_t last;
} algolmallet_command;

/* A status word by its fields. */
typedef struct {
    uint32_t address;
    uint32_t error;   /* message error, 0 or 1 */
    uint32_t status;  /* the nine status bits, 0 to 511 */
    uint32_t failure; /* terminal failure, 0 or 1 */
} algolmallet_status;

/* The library's side of these offsets is proved in crates/word_numbers/proofs/Offsets.antt. */
ALGOLMALLET_HOLDS(sizeof(algolmallet_command) == 16, "the size of a command's fields");
ALGOLMALLET_HOLDS(offsetof(algolmallet_command, last) == 12, "the layout of a command's fields");
ALGOLMALLET_HOLDS(sizeof(algolmallet_status) == 16, "the size of a status's fields");
ALGOLMALLET_HOLDS(offsetof(algolmallet_status, failure) == 12, "the layout of a status's fields");
#undef ALGOLMALLET_HOLDS

/* The fields of any word. Nothing is refused: every word is a command's and a status's. What algolmallet_command_word and
 * algolmallet_status_word of the terminal's library make of these fields is this word again. */
algolmallet_command algolmallet_command_fields(uint16_t word);
algolmallet_status algolmallet_status_fields(uint16_t word);

/* What an image is "against an expected address": "an error (bad parity or another address), an exception (any other field not zero), or
 * clean". */
enum algolmallet_verdict {
    ALGOLMALLET_CLEAN = 0,
    ALGOLMALLET_EXCEPTION = 1,
    ALGOLMALLET_ERROR = 2
};

/* Judges "a 17-bit image, word times two plus parity", against the address from which it should come. The answer is an enum
 * algolmallet_verdict, or ALGOLMALLET_WORD_OUTSIDE_SIZE alone if the image is above 131,071 or the address above 31: no verdict has
 * that number. */
uint32_t algolmallet_judge(uint32_t image, uint32_t address);

#ifdef __cplusplus
}
#endif
#endif
