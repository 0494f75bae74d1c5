#!/usr/bin/env python3
"""A bench morning as a table: `./bench --table FILE` runs it."""
import sys

from morning import NOT_A_CALL, hex_word, run_tool

HEADS = ("line", "call", "answer", "count", "runs", "woken", "activated", "words or value")
RIGHT_ALIGNED = {"line", "count", "runs", "woken", "activated"}
WORDS_A_ROW = 8


def answer_of(step):
    return "accepted" if step.refusal == 0 else "%d: %s" % (step.refusal, step.why)


def word_rows(step):
    """The last column: a value, or the bus words, some on a row."""
    if step.value is not None:
        return [step.value]
    words = [hex_word(w) for w in step.words]
    rows = [" ".join(words[i : i + WORDS_A_ROW]) for i in range(0, len(words), WORDS_A_ROW)]
    return rows or [""]


def rows_of(step):
    number = "" if step.number is None else str(step.number)
    after = (str(step.count), str(step.running) if step.running else "none", str(step.woken), str(step.activated))
    if step.verb == NOT_A_CALL:
        after = ("-",) * len(after)
    first, *more = word_rows(step)
    rows = [(number, step.call, answer_of(step), *after, first)]
    return rows + [("",) * (len(HEADS) - 1) + (row,) for row in more]


def aligned(rows):
    widths = [max(len(row[i]) for row in rows) for i in range(len(HEADS))]
    for row in rows:
        cells = [c.rjust(w) if h in RIGHT_ALIGNED else c.ljust(w) for h, c, w in zip(HEADS, row, widths)]
        yield "  ".join(cells).rstrip() + "\n"


def table(morning, title):
    del title
    if morning.refused:
        return morning.refused + "\n"
    rows = [HEADS]
    for step in morning.steps:
        rows += rows_of(step)
    return "".join(aligned(rows))


if __name__ == "__main__":
    sys.exit(run_tool("table", table))
