/*
 * Buffered reading and writing of file descriptors.  Descriptors may be non-blocking: what would block is waited for.
 * What was put to the answers is written before more is read, so that a reader has each answer as soon as it is known.
 */
#ifndef SECOND_STREAM_H
#define SECOND_STREAM_H

#include <stdbool.h>
#include <stddef.h>
#include <stdint.h>

enum { STREAM_ROOM = 1 << 16 };

typedef struct {
    int fd;
    int failed; /* the error's number, 0 for none */
    size_t length;
    char text[STREAM_ROOM];
} out_stream;

void out_open(out_stream *o, int fd);

/* Room for at least `most` bytes, to be filled and then taken by out_advance. */
char *out_room(out_stream *o, size_t most);
void out_advance(out_stream *o, size_t length);
void out_write(out_stream *o, const void *text, size_t length);
void out_flush(out_stream *o);

typedef struct {
    int fd;
    int failed; /* the error's number, 0 for none */
    bool ended;
    out_stream *answers;
    size_t place, length; /* text[place] up to text[length] is unread */
    uint8_t text[STREAM_ROOM];
} in_stream;

/* `answers` is written before each read; NULL for none. */
void in_open(in_stream *i, int fd, out_stream *answers);

/* Gets more bytes behind the unread ones, as far as there is room; false at the end. */
bool in_fill(in_stream *i);

/* One line: found, its text (cut off if too long for the buffer) and whether it ended in LF. */
typedef struct {
    const uint8_t *text;
    size_t length;
    bool whole; /* ended by LF and not cut off */
} in_line;

/* The next line, or false at the end of the input. */
bool in_next_line(in_stream *i, in_line *out);

#endif
