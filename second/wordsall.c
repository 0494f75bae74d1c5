#include "wordsall.h"

#include <errno.h>
#include <string.h>

#include "script.h"
#include "stream.h"
#include "words.h"

enum {
    WORDS = 65536,
    IMAGES = 131072,
    IMAGES_PAST = 4,
    LINE_IMAGES = 4096,
    ADDRESSES = 34,
    BITS = 3,
    SUBADDRESSES = 34,
    LASTS = 35,
    STATUSES = 520,
    LINE_ROOM = LINE_IMAGES + 64 /* no other line is as long as one of verdicts */
};

static char *print_verb(char *at, const char *verb)
{
    size_t length = strlen(verb);
    memcpy(at, verb, length);
    return at + length;
}

static void end_line(out_stream *o, char *line, char *at)
{
    *at++ = '\n';
    out_advance(o, (size_t)(at - line));
}

/* Writes the rest; 0, or -1 with errno set if anything could not be written. */
static int end_output(out_stream *o)
{
    out_flush(o);
    errno = o->failed;
    return o->failed ? -1 : 0;
}

/* ---- The terminal's side ---- */

typedef struct {
    uint32_t accepted, refused;
} answer_count;

/* A tab, and the word or minus its refusal; counted. */
static char *print_answer(char *at, enum refusal refusal, uint16_t word, answer_count *count)
{
    if (refusal == ACCEPTED) {
        count->accepted++;
        return print_field(at, word);
    }
    count->refused++;
    char *end = print_field(at + 1, refusal); /* the minus then stands where its tab was */
    memcpy(at, "\t-", 2);
    return end;
}

static void print_images(out_stream *o)
{
    for (uint32_t word = 0; word < WORDS; word++) {
        char *line = out_room(o, LINE_ROOM), *at = print_verb(line, "image");
        end_line(o, line, print_field(print_field(at, word), status_image((uint16_t)word)));
    }
}

/* The line of a command; all its last fields are answered. */
static void print_command(out_stream *o, command_fields c, answer_count *count)
{
    char *line = out_room(o, LINE_ROOM), *at = print_verb(line, "command");
    at = print_field(print_field(print_field(at, c.address), c.transmit), c.subaddress);
    for (c.last = 0; c.last < LASTS; c.last++) {
        uint16_t word = 0;
        enum refusal refusal = command_word(&c, &word);
        at = print_answer(at, refusal, word, count);
    }
    end_line(o, line, at);
}

static void print_commands(out_stream *o, answer_count *count)
{
    for (uint32_t address = 0; address < ADDRESSES; address++)
        for (uint32_t transmit = 0; transmit < BITS; transmit++)
            for (uint32_t sub = 0; sub < SUBADDRESSES; sub++)
                print_command(o, (command_fields){address, transmit, sub, 0}, count);
}

/* The line of a status; both failures, and one outside its size, are answered. */
static void print_status(out_stream *o, status_fields s, answer_count *count)
{
    char *line = out_room(o, LINE_ROOM), *at = print_verb(line, "status");
    at = print_field(print_field(print_field(at, s.address), s.error), s.status);
    for (s.failure = 0; s.failure < BITS; s.failure++) {
        uint16_t word = 0;
        enum refusal refusal = status_word(&s, &word);
        at = print_answer(at, refusal, word, count);
    }
    end_line(o, line, at);
}

static void print_statuses(out_stream *o, answer_count *count)
{
    for (uint32_t address = 0; address < ADDRESSES; address++)
        for (uint32_t error = 0; error < BITS; error++)
            for (uint32_t status = 0; status < STATUSES; status++)
                print_status(o, (status_fields){address, error, status, 0}, count);
}

static void print_count(out_stream *o, const char *verb, const answer_count *count)
{
    char *line = out_room(o, LINE_ROOM), *at = print_verb(print_verb(line, "answers\t"), verb);
    end_line(o, line, print_field(print_field(at, count->accepted), count->refused));
}

int wordsall_terminal(int out)
{
    static out_stream o;
    answer_count commands = {0, 0}, statuses = {0, 0};
    out_open(&o, out);
    print_images(&o);
    print_commands(&o, &commands);
    print_statuses(&o, &statuses);
    print_count(&o, "command", &commands);
    print_count(&o, "status", &statuses);
    char *line = out_room(&o, LINE_ROOM);
    end_line(&o, line, print_field(print_verb(line, "answers\timage"), WORDS));
    return end_output(&o);
}

/* ---- The monitor's side ---- */

typedef struct {
    uint32_t judged[3]; /* by verdict */
    uint32_t refused;
} verdict_count;

static void print_fields(out_stream *o, uint16_t word)
{
    command_fields c = command_apart(word);
    char *line = out_room(o, LINE_ROOM), *at = print_field(print_verb(line, "fields"), word);
    at = print_field(print_field(print_field(at, c.address), c.transmit), c.subaddress);
    end_line(o, line, print_field(at, c.last));
}

static void print_bits(out_stream *o, uint16_t word)
{
    status_fields s = status_apart(word);
    char *line = out_room(o, LINE_ROOM), *at = print_field(print_verb(line, "bits"), word);
    at = print_field(print_field(print_field(at, s.address), s.error), s.status);
    end_line(o, line, print_field(at, s.failure));
}

/* The verdict as one character; counted. */
static char verdict_mark(uint32_t image, uint32_t address, verdict_count *count)
{
    static const char mark[] = {[VERDICT_ERROR] = '2', [VERDICT_EXCEPTION] = '1', [VERDICT_CLEAN] = '0'};
    verdict v = VERDICT_ERROR;
    if (status_judge(image, address, &v) != ACCEPTED) {
        count->refused++;
        return 'x';
    }
    count->judged[v]++;
    return mark[v];
}

static void print_verdicts(out_stream *o, uint32_t address, uint32_t first, uint32_t images, verdict_count *count)
{
    char *line = out_room(o, LINE_ROOM), *at = print_verb(line, "judge");
    at = print_field(print_field(at, address), first);
    *at++ = '\t';
    for (uint32_t i = 0; i < images; i++)
        *at++ = verdict_mark(first + i, address, count);
    end_line(o, line, at);
}

static void print_judged(out_stream *o, uint32_t address, verdict_count *count)
{
    for (uint32_t first = 0; first < IMAGES; first += LINE_IMAGES)
        print_verdicts(o, address, first, LINE_IMAGES, count);
    print_verdicts(o, address, IMAGES, IMAGES_PAST, count);
}

int wordsall_monitor(int out)
{
    static out_stream o;
    verdict_count count = {{0, 0, 0}, 0};
    out_open(&o, out);
    for (uint32_t word = 0; word < WORDS; word++) {
        print_fields(&o, (uint16_t)word);
        print_bits(&o, (uint16_t)word);
    }
    for (uint32_t address = 0; address < ADDRESSES; address++)
        print_judged(&o, address, &count);
    char *line = out_room(&o, LINE_ROOM), *at = print_verb(line, "answers\tjudge");
    at = print_field(print_field(at, count.judged[VERDICT_CLEAN]), count.judged[VERDICT_EXCEPTION]);
    end_line(&o, line, print_field(print_field(at, count.judged[VERDICT_ERROR]), count.refused));
    return end_output(&o);
}
