#define _POSIX_C_SOURCE 200809L
#include "stream.h"

#include <errno.h>
#include <poll.h>
#include <string.h>
#include <unistd.h>

#include "mutant.h"

/* Whether a read or write that failed may be tried again, if need be after a wait. */
static bool may_try_again(int fd, short event)
{
    struct pollfd p = {.fd = fd, .events = event};
    if (errno == EINTR)
        return true;
    if (errno != EAGAIN && errno != EWOULDBLOCK)
        return false;
    return poll(&p, 1, -1) >= 0 || errno == EINTR;
}

/* ---- Out ---- */

void out_open(out_stream *o, int fd)
{
    o->fd = fd;
    o->failed = 0;
    o->length = 0;
}

void out_flush(out_stream *o)
{
    size_t done = 0;
    while (done < o->length && !o->failed) {
        ssize_t n = write(o->fd, o->text + done, o->length - done);
        if (n >= 0)
            done += MUTATED(REST_UNWRITTEN) ? o->length - done : (size_t)n;
        else if (MUTATED(BLOCKED_IS_WRITTEN) && errno == EAGAIN)
            done = o->length;
        else if (!may_try_again(o->fd, POLLOUT))
            o->failed = errno;
    }
    o->length = 0;
}

char *out_room(out_stream *o, size_t most)
{
    if (STREAM_ROOM - o->length < most)
        out_flush(o);
    return o->text + o->length;
}

void out_advance(out_stream *o, size_t length)
{
    o->length += length;
}

void out_write(out_stream *o, const void *text, size_t length)
{
    const char *from = text;
    while (length > 0) {
        char *room = out_room(o, 1);
        size_t part = STREAM_ROOM - o->length;
        if (part > length)
            part = length;
        memcpy(room, from, part);
        out_advance(o, part);
        from += part;
        length -= part;
    }
}

/* ---- In ---- */

void in_open(in_stream *i, int fd, out_stream *answers)
{
    i->fd = fd;
    i->failed = 0;
    i->ended = false;
    i->answers = answers;
    i->place = 0;
    i->length = 0;
}

static void move_to_front(in_stream *i)
{
    memmove(i->text, i->text + i->place, i->length - i->place);
    i->length -= i->place;
    i->place = 0;
}

/* Whether all answers could be written. */
static bool write_answers(in_stream *i)
{
    if (i->answers == NULL)
        return true;
    if (!MUTATED(ANSWERS_KEPT))
        out_flush(i->answers);
    return !i->answers->failed;
}

static void end_by_error(in_stream *i)
{
    i->ended = true;
    if (!MUTATED(FAILED_READ_ENDS))
        i->failed = errno;
}

static bool is_end_for_mutant(ssize_t read)
{
    return MUTATED(LATE_INPUT_ENDS) && read < 0 && errno == EAGAIN;
}

bool in_fill(in_stream *i)
{
    if (i->place > 0)
        move_to_front(i);
    if (i->length == STREAM_ROOM || i->ended || !write_answers(i))
        return false;
    for (;;) {
        ssize_t n = read(i->fd, i->text + i->length, STREAM_ROOM - i->length);
        if (n > 0) {
            i->length += (size_t)n;
            return true;
        }
        if (n == 0 || is_end_for_mutant(n)) {
            i->ended = true;
            return false;
        }
        if (!may_try_again(i->fd, POLLIN)) {
            end_by_error(i);
            return false;
        }
    }
}

/* Drops the rest of a line that is longer than the buffer; false if nothing more comes. */
static bool skip_line(in_stream *i)
{
    uint8_t *end;
    bool more = false;
    do {
        i->place = i->length;
        if (!in_fill(i))
            return more;
        more = true;
        end = memchr(i->text, '\n', i->length);
    } while (end == NULL);
    i->place = (size_t)(end - i->text) + 1;
    return true;
}

/* A line without LF: the last one, or one that fills the buffer. */
static bool take_cut_line(in_stream *i, in_line *out)
{
    *out = (in_line){i->text + i->place, i->length - i->place, false};
    if (out->length == 0 || i->failed)
        return false;
    if (i->ended || MUTATED(TAIL_RUNS_TOO))
        i->place = i->length;
    else if (!skip_line(i) && MUTATED(UNFINISHED_UNANSWERED)) /* overwrites the text: a cut-off line is only counted */
        return false;
    return true;
}

/* For mutants alone: whether the unread bytes, which hold no LF, are a line for it; or dropped. */
static bool is_line_for_mutant(in_stream *i, in_line *out)
{
    size_t unread = i->length - i->place;
    if (MUTATED(TAIL_RUNS) && unread == STREAM_ROOM)
        i->place = i->length;
    if (!MUTATED(PIECE_ENDS_LINE) || unread == 0)
        return false;
    *out = (in_line){i->text + i->place, unread, true};
    i->place = i->length;
    return true;
}

bool in_next_line(in_stream *i, in_line *out)
{
    size_t seen = 0; /* unread bytes known to hold no LF */
    for (;;) {
        uint8_t *start = i->text + i->place;
        size_t unread = i->length - i->place;
        uint8_t *end = memchr(start + seen, '\n', unread - seen);
        if (end != NULL) {
            *out = (in_line){start, (size_t)(end - start), true};
            i->place += out->length + 1;
            return true;
        }
        if (is_line_for_mutant(i, out))
            return true;
        seen = i->length - i->place;
        if (!in_fill(i))
            return take_cut_line(i, out);
    }
}
