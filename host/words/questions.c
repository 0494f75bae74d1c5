#include "questions.h"

#include <stdbool.h>
#include <stdio.h>
#include <string.h>

#include "../number.h"

enum {
    FRONT_ROOM = 64, /* more than the verb and the numbers of any question */
    LINE_MOST = 65535
};

struct line {
    char front[FRONT_ROOM]; /* as much as there is room for */
    size_t length;          /* of the whole line, without its LF */
    bool ended;             /* by LF */
};

void put_field(uint32_t number)
{
    char text[sizeof "\t4294967295"], *at = text + sizeof text;
    do
        *--at = (char)('0' + number % 10);
    while ((number /= 10) != 0);
    *--at = '\t';
    fwrite(at, 1, (size_t)(text + sizeof text - at), stdout);
}

/* Reads the next line; false at the end of the input. */
static bool read_line(struct line *line)
{
    int byte;
    line->length = 0;
    while ((byte = getchar()) != EOF && byte != '\n') {
        if (line->length < FRONT_ROOM)
            line->front[line->length] = (char)byte;
        line->length++;
    }
    line->ended = byte == '\n';
    return line->ended || (line->length > 0 && !ferror(stdin));
}

/* Takes the numbers that a question is about; more may follow behind a tab. */
static bool take_asked(const struct question *question, const char *at, const char *end, uint32_t asked[ASKED_MAX])
{
    for (unsigned i = 0; i < question->asked; i++) {
        if (at == end || *at++ != '\t')
            return false;
        if (!take_number(&at, end, &asked[i]) || asked[i] > question->most)
            return false;
    }
    return at == end || *at == '\t';
}

static bool has_verb(const struct question *question, const char *front, size_t length)
{
    size_t verb = strlen(question->verb);
    return verb <= length && memcmp(question->verb, front, verb) == 0;
}

static void put_answer(const struct question *question, const uint32_t asked[ASKED_MAX])
{
    fputs(question->verb, stdout);
    for (unsigned i = 0; i < question->asked; i++)
        put_field(asked[i]);
    question->answer(asked);
    putchar('\n');
}

/* Whether the line is one of the questions; its answer is printed then. */
static bool answer_line(const struct question *questions, const struct line *line)
{
    uint32_t asked[ASKED_MAX];
    size_t length = line->length < FRONT_ROOM ? line->length : FRONT_ROOM;
    const char *end = line->front + length;
    if (!line->ended || line->length > LINE_MOST)
        return false;
    for (const struct question *q = questions; q->verb != NULL; q++) {
        if (has_verb(q, line->front, length) && take_asked(q, line->front + strlen(q->verb), end, asked)) {
            put_answer(q, asked);
            return true;
        }
    }
    return false;
}

static void answer_questions(const struct question *questions)
{
    struct line line;
    while (!ferror(stdout) && read_line(&line))
        if (!answer_line(questions, &line))
            puts("?");
}

int run_word_program(const struct word_program *program, int argc, char **argv)
{
    if (argc == 1)
        answer_questions(program->questions);
    else if (argc == 2 && strcmp(argv[1], "--all") == 0)
        program->print_all();
    else if (argc == 2 && strcmp(argv[1], "--help") == 0)
        fputs(program->usage, stdout);
    else {
        fputs(program->usage, stderr);
        return 2;
    }
    if (ferror(stdin) || fflush(stdout) != 0 || ferror(stdout)) {
        perror(program->name);
        return 1;
    }
    return 0;
}
