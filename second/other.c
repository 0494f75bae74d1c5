#define _POSIX_C_SOURCE 200809L
#include "other.h"

#include <errno.h>
#include <fcntl.h>
#include <poll.h>
#include <signal.h>
#include <stdio.h>
#include <stdlib.h>
#include <string.h>
#include <sys/ioctl.h>
#include <sys/stat.h>
#include <sys/wait.h>
#include <time.h>
#include <unistd.h>

enum { SECONDS_A_RUN = 60, NOT_STARTED = 126, NOT_FOUND = 127, WAIT_MICROSECONDS = 20 };

void die(const char *what)
{
    fprintf(stderr, "compare: %s: %s\n", what, strerror(errno));
    exit(2);
}

/* ---- Commands ---- */

command command_of(char *line)
{
    command c = {{NULL}};
    unsigned n = 0;
    for (char *word = strtok(line, " "); word != NULL && n < COMMAND_WORDS; word = strtok(NULL, " "))
        c.word[n++] = word;
    return c;
}

bool is_given(const command *c)
{
    return c->word[0] != NULL;
}

command command_with(const command *c, char *word)
{
    command longer = *c;
    unsigned n = 0;
    while (longer.word[n] != NULL)
        n++;
    if (n > 0 && n < COMMAND_WORDS)
        longer.word[n] = word;
    return longer;
}

/* ---- Files ---- */

void save_file(const char *path, const uint8_t *bytes, size_t length)
{
    FILE *f = fopen(path, "wb");
    if (f == NULL || (length > 0 && fwrite(bytes, 1, length, f) != length) || fclose(f) != 0)
        die(path);
}

static void load_file(const char *path, text *out)
{
    char part[65536];
    size_t n;
    FILE *f = fopen(path, "rb");
    if (f == NULL)
        die(path);
    while ((n = fread(part, 1, sizeof part, f)) > 0)
        text_add(out, part, n);
    fclose(f);
}

void open_workplace(workplace *w)
{
    const char *place = getenv("TMPDIR");
    snprintf(w->folder, sizeof w->folder, "%s/compare-XXXXXX", place != NULL ? place : "/tmp");
    if (mkdtemp(w->folder) == NULL)
        die(w->folder);
    snprintf(w->input_path, sizeof w->input_path, "%s/in", w->folder);
    snprintf(w->output_path, sizeof w->output_path, "%s/out", w->folder);
    signal(SIGPIPE, SIG_IGN); /* a program may end before its input does */
}

void close_workplace(const workplace *w)
{
    unlink(w->input_path);
    unlink(w->output_path);
    rmdir(w->folder);
}

/* ---- Feeding ---- */

static size_t piece_length(feeding how, chance *sizes)
{
    static const unsigned most[] = {3, 3, 20, 20, 200, 5000, 40000};
    if (how == FED_BYTE_BY_BYTE)
        return 1;
    if (likely(sizes, 5))
        return USUAL_ROOM - 1 + pick(sizes, 0, 2);
    return pick(sizes, 1, most[pick(sizes, 0, sizeof most / sizeof most[0] - 1)]);
}

/* Whether all that was written has been read; false also if nobody reads any more. */
static bool wait_until_read(int to)
{
    int unread;
    struct pollfd p = {.fd = to, .events = 0};
    const struct timespec a_while = {0, 1000 * WAIT_MICROSECONDS};
    while (ioctl(to, FIONREAD, &unread) == 0 && unread > 0) {
        if (poll(&p, 1, 0) > 0 && (p.revents & POLLERR))
            return false;
        nanosleep(&a_while, NULL);
    }
    return true;
}

static bool write_piece(int to, const uint8_t *bytes, size_t length)
{
    while (length > 0) {
        ssize_t n = write(to, bytes, length);
        if (n < 0 && errno == EINTR)
            continue;
        if (n < 0)
            return false;
        bytes += n;
        length -= (size_t)n;
    }
    return true;
}

static void feed(int to, const text *input, feeding how, chance *sizes)
{
    size_t at = 0;
    while (at < input->length) {
        size_t length = piece_length(how, sizes);
        if (length > input->length - at)
            length = input->length - at;
        if (!write_piece(to, input->bytes + at, length) || !wait_until_read(to))
            break;
        at += length;
    }
    close(to);
}

/* ---- Running ---- */

static void become(const command *c, int in, const char *output)
{
    int out = open(output, O_WRONLY | O_CREAT | O_TRUNC, 0600);
    if (in < 0 || out < 0 || dup2(in, 0) < 0 || dup2(out, 1) < 0)
        _exit(NOT_STARTED);
    signal(SIGPIPE, SIG_DFL);
    alarm(SECONDS_A_RUN); /* a program that hangs is ended */
    execvp(c->word[0], c->word);
    _exit(NOT_FOUND);
}

static pid_t start_on_file(const workplace *w, const command *c, const text *input)
{
    save_file(w->input_path, input->bytes, input->length);
    pid_t child = fork();
    if (child == 0)
        become(c, open(w->input_path, O_RDONLY), w->output_path);
    return child;
}

static pid_t start_on_pipe(const workplace *w, const command *c, int *to)
{
    int ends[2];
    if (pipe(ends) != 0)
        die("pipe");
    pid_t child = fork();
    if (child == 0) {
        close(ends[1]);
        become(c, ends[0], w->output_path);
    }
    close(ends[0]);
    *to = ends[1];
    return child;
}

static bool ended_well(const command *c, int status)
{
    if (WIFEXITED(status) && WEXITSTATUS(status) == NOT_FOUND) {
        fprintf(stderr, "compare: %s could not be run\n", c->word[0]);
        exit(2);
    }
    if (WIFEXITED(status) && WEXITSTATUS(status) == 0)
        return true;
    if (WIFEXITED(status))
        printf("%s ended with status %d\n", c->word[0], WEXITSTATUS(status));
    else
        printf("%s was ended by signal %d\n", c->word[0], WTERMSIG(status));
    return false;
}

bool run_other(const workplace *w, const command *c, const text *input, feeding how, chance sizes, text *output)
{
    int status, to = -1;
    fflush(stdout);
    pid_t child = how == FED_AS_FILE ? start_on_file(w, c, input) : start_on_pipe(w, c, &to);
    if (child < 0)
        die("fork");
    if (how != FED_AS_FILE)
        feed(to, input, how, &sizes);
    if (waitpid(child, &status, 0) < 0)
        die("waitpid");
    load_file(w->output_path, output);
    return ended_well(c, status);
}
