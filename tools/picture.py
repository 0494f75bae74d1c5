#!/usr/bin/env python3
"""A bench morning as a picture: `./bench --picture FILE > morning.svg` runs it.

Each script line is a column, read from left to right and then band by band. A lane for each task shows who runs; ticks
are lines down through the lanes, with their counts along the bottom and their bus words, in hex, below the counts. Between
the two stands how many tasks a column's flags woke and activated, where that is not 0.
"""
import sys
from html import escape

from morning import NOT_A_CALL, OF_TASKS, hex_word, run_tool

PAGE = 1240  # pixels; a band that would be wider goes on in the next one
MARGIN = 20
GUTTER = 150  # for the lanes' names
GUTTER_GAP = 10
TICK_WIDTH = 26
CALL_WIDTH = 15
LANE = 20
BAR = 12  # height of a bar in its lane
LETTER = 6.6  # width of a letter of the labels
HEAD_GAP = 8  # between the calls' names and the lanes
COUNT_ROOM = 18
WIDE_COUNT = 1000  # from here on counts are written downwards
HEARD_ROW = 15  # of the numbers of woken and of activated tasks
WORDS_SHOWN = 6  # bus words of a tick; the others are told by their number
WORD_LENGTH = 34  # pixels of a word and the gap behind it
BAND_GAP = 26
LINE = 17  # of text
NARROWEST = 700  # pixels of the whole picture
TASKS_SHOWN = 12  # rigs with more tasks show only those that take part
STEPS_SHOWN = 2000
REFUSALS_TOLD = 40
LIST_SHOWN = 140  # characters of a list of numbers

STYLE = """
text { font-family: "DejaVu Sans", Verdana, Arial, sans-serif; font-size: 11px; fill: #1c1c1c; }
.title { font-size: 17px; font-weight: bold; }
.word { font-family: "DejaVu Sans Mono", Menlo, Consolas, monospace; font-size: 11px; fill: #14532d; }
.heard { fill: #9a4b00; font-weight: bold; }
.quiet { fill: #555555; }
.bad { fill: #b3161f; font-weight: bold; }
.lane { fill: #f3f5f8; }
.runs { fill: #2f6db3; }
.privileged { fill: #8746a8; }
.none { fill: #b8bcc2; }
.tick { stroke: #9aa3ad; stroke-width: 1; }
.change { stroke: #1c1c1c; stroke-width: 1.5; }
.call { fill: #ffffff; stroke: #1c1c1c; stroke-width: 1.3; }
.refused { fill: #ffffff; stroke: #b3161f; stroke-width: 1.3; }
.cross { stroke: #b3161f; stroke-width: 2.2; }
.column { fill: #000000; fill-opacity: 0; }
.column:hover { fill-opacity: 0.08; }
""".strip()


# ---- Parts of a picture ----


def text(x, y, what, style="", more=""):
    css = ' class="%s"' % style if style else ""
    return '<text x="%g" y="%g"%s%s>%s</text>' % (x, y, css, more, escape(what))


def upwards(x, y, what, style=""):
    """Text that begins at y and is read upwards."""
    return text(x, y, what, style, ' transform="rotate(-90 %g %g)"' % (x, y))


def downwards(x, y, what, style=""):
    """Text that begins at y and is read downwards."""
    return text(x, y, what, style, ' transform="rotate(90 %g %g)"' % (x, y))


def box(x, y, width, height, style):
    return '<rect class="%s" x="%g" y="%g" width="%g" height="%g"/>' % (style, x, y, width, height)


def stroke(x1, y1, x2, y2, style):
    return '<line class="%s" x1="%g" y1="%g" x2="%g" y2="%g"/>' % (style, x1, y1, x2, y2)


def mark(x, y, refused):
    """Where a call was made: a ring, or a cross for a refused one."""
    if not refused:
        return ['<circle class="call" cx="%g" cy="%g" r="3.4"/>' % (x, y)]
    ring = '<circle class="refused" cx="%g" cy="%g" r="6"/>' % (x, y)
    return [ring, stroke(x - 3, y - 3, x + 3, y + 3, "cross"), stroke(x - 3, y + 3, x + 3, y - 3, "cross")]


# ---- What is shown ----


def is_tick(step):
    return step.verb == "K"


def is_call(step):
    return step.verb != NOT_A_CALL and step.number is not None


def is_heard(step):
    """Whether the flags that it served woke or activated anybody."""
    return step.woken > 0 or step.activated > 0


def width_of(step):
    return TICK_WIDTH if is_tick(step) else CALL_WIDTH


def label_of(step):
    """What stands above a column; a tick that is accepted has its count below instead."""
    if is_tick(step) and step.refusal == 0:
        return ""
    if step.verb == NOT_A_CALL:
        return NOT_A_CALL
    told = step.call if step.value is None else "%s: %s" % (step.call, step.value)
    return told if step.refusal == 0 else "%s (%d)" % (told, step.refusal)


def told(step):
    """A step in one sentence."""
    place = "start" if step.number is None else "line %d: %s" % (step.number, step.call)
    answer = "accepted" if step.refusal == 0 else "refused by %d, %s" % (step.refusal, step.why)
    runs = "task %d runs" % step.running if step.running else "no task runs"
    heard = "; %d woken, %d activated by flags" % (step.woken, step.activated) if is_heard(step) else ""
    words = "; bus words " + " ".join(hex_word(w) for w in step.words) if step.words else ""
    return "%s, %s; count %d, %s%s%s" % (place, answer, step.count, runs, heard, words)


def takes_part(tasks, steps):
    """The tasks that get a lane."""
    if len(tasks) <= TASKS_SHOWN:
        return [t.number for t in tasks]
    part = {s.running for s in steps} | {int(s.call.split()[1]) for s in steps if s.verb in OF_TASKS}
    return [t.number for t in tasks if t.number in part]


def spans(numbers):
    """1, 3 to 7"""
    parts = []
    for n in numbers:
        if parts and parts[-1][1] == n - 1:
            parts[-1][1] = n
        else:
            parts.append([n, n])
    return ", ".join(str(a) if a == b else "%d to %d" % (a, b) for a, b in parts)


def bands_of(steps):
    """Steps in bands that go into the page."""
    bands, width = [[]], 0
    room = PAGE - 2 * MARGIN - GUTTER - GUTTER_GAP
    for step in steps:
        if width + width_of(step) > room:
            bands.append([])
            width = 0
        bands[-1].append(step)
        width += width_of(step)
    return bands


# ---- One band ----


class Band:
    """Lanes, and columns for some steps; places are in pixels from the picture's corner."""

    def __init__(self, steps, lanes, tasks, top):
        self.steps, self.lanes, self.tasks = steps, lanes, tasks
        self.top = top + self.head_height()
        self.bottom = self.top + LANE * len(lanes)
        self.places = [MARGIN + GUTTER + GUTTER_GAP]
        for step in steps:
            self.places.append(self.places[-1] + width_of(step))

    def head_height(self):
        return HEAD_GAP + LETTER * max([len(label_of(s)) for s in self.steps] + [1])

    def has_wide_counts(self):
        return self.steps[-1].count >= WIDE_COUNT

    def heard_top(self):
        downwards_too = LETTER * len(str(self.steps[-1].count)) if self.has_wide_counts() else 0
        return self.bottom + COUNT_ROOM + downwards_too

    def words_top(self):
        return self.heard_top() + (2 * HEARD_ROW if any(is_heard(s) for s in self.steps) else 0)

    def end(self):
        most = max(len(s.words) for s in self.steps)
        words = min(most, WORDS_SHOWN) + (1 if most > WORDS_SHOWN else 0)
        return self.words_top() + WORD_LENGTH * words

    def middle(self, task):
        return self.top + LANE * self.lanes.index(task) + LANE / 2

    def draw(self):
        parts = self.draw_lanes() + self.draw_ticks() + self.draw_bars() + self.draw_changes()
        return parts + self.draw_calls() + self.draw_feet() + self.draw_heard() + self.draw_columns()

    def draw_lanes(self):
        parts = []
        for place, task in enumerate(self.lanes):
            y = self.top + LANE * place
            if place % 2 == 0:
                parts.append(box(MARGIN, y, self.places[-1] - MARGIN, LANE, "lane"))
            parts += self.draw_name(task, y + LANE - 6)
        return parts

    def draw_name(self, task, y):
        if task == 0:
            return [text(MARGIN + 4, y, "no task", "quiet")]
        rank = ("privileged %d" if self.tasks[task].privileged else "priority %d") % self.tasks[task].priority
        end = ' text-anchor="end"'
        return [text(MARGIN + 4, y, "task %d" % task), text(MARGIN + GUTTER, y, rank, "quiet", end)]

    def draw_ticks(self):
        ticks = [x for x, s in zip(self.places, self.steps) if is_tick(s)]
        return [stroke(x, self.top - 4, x, self.bottom + 4, "tick") for x in ticks]

    def style_of(self, task):
        if task == 0:
            return "none"
        return "privileged" if self.tasks[task].privileged else "runs"

    def draw_bars(self):
        parts, first = [], 0
        for i, step in enumerate(self.steps):
            is_last = i + 1 == len(self.steps) or self.steps[i + 1].running != step.running
            if not is_last:
                continue
            x, y = self.places[first], self.middle(step.running) - BAR / 2
            parts.append(box(x, y, self.places[i + 1] - x, BAR, self.style_of(step.running)))
            first = i + 1
        return parts

    def draw_changes(self):
        pairs = zip(self.places[1:], self.steps, self.steps[1:])
        changes = [(x, a.running, b.running) for x, a, b in pairs if a.running != b.running]
        return [stroke(x, self.middle(a), x, self.middle(b), "change") for x, a, b in changes]

    def draw_calls(self):
        parts = []
        for x, step in zip(self.places, self.steps):
            label, style = label_of(step), "bad" if step.refusal else ""
            if label == NOT_A_CALL:
                parts.append(text(x, self.top - HEAD_GAP, label, style, ' text-anchor="middle"'))
            elif label:
                parts.append(upwards(x + 4, self.top - HEAD_GAP, label, style))
            if is_call(step) and label:
                parts += mark(x, self.middle(step.caller), step.refusal != 0)
        return parts

    def draw_feet(self):
        parts, y = [], self.bottom + COUNT_ROOM - 4
        for x, step in zip(self.places, self.steps):
            if not is_tick(step) or step.refusal:
                continue
            if self.has_wide_counts():
                parts.append(downwards(x - 4, self.bottom + 8, str(step.count)))
            else:
                parts.append(text(x, y, str(step.count), "", ' text-anchor="middle"'))
            parts += self.draw_words(x - 4, step)
        return parts + self.draw_foot_names()

    def draw_foot_names(self):
        names = [text(MARGIN + 4, self.bottom + COUNT_ROOM - 4, "count", "quiet")]
        if any(s.words for s in self.steps):
            names.append(text(MARGIN + 4, self.words_top() + LINE, "bus words, hex", "quiet"))
        return names

    def draw_heard(self):
        """A row of numbers of woken tasks and one of activated tasks; no row where nobody was either."""
        if not any(is_heard(s) for s in self.steps):
            return []
        rows = (("woken by flags", [s.woken for s in self.steps]), ("activated by flags", [s.activated for s in self.steps]))
        parts = []
        for place, (name, numbers) in enumerate(rows):
            y = self.heard_top() + HEARD_ROW * place + 11
            parts.append(text(MARGIN + 4, y, name, "quiet"))
            parts += [text(x, y, str(n), "heard", ' text-anchor="middle"') for x, n in zip(self.places, numbers) if n]
        return parts

    def draw_words(self, x, step):
        words = [hex_word(w) for w in step.words[:WORDS_SHOWN]]
        if len(step.words) > WORDS_SHOWN:
            words.append("+%d" % (len(step.words) - WORDS_SHOWN))
        return [downwards(x, self.words_top() + 4 + i * WORD_LENGTH, w, "word") for i, w in enumerate(words)]

    def draw_columns(self):
        """What each column says in words, for the mouse."""
        parts = []
        for x, after, step in zip(self.places, self.places[1:], self.steps):
            column = box(x, self.top, after - x, self.end() - self.top, "column")
            parts.append(column.replace("/>", "><title>%s</title></rect>" % escape(told(step))))
        return parts


# ---- The whole picture ----


def summary(steps):
    calls = steps[1:]
    ticks = sum(is_tick(s) for s in calls)
    refused = sum(s.refusal != 0 for s in calls)
    return "%d script lines: %d ticks, %d others; %s" % (
        len(calls), ticks, len(calls) - ticks, "%d refused" % refused if refused else "none refused")


def told_refusals(steps):
    refused = [told(s) for s in steps if s.refusal and is_call(s)]
    more = len(refused) - REFUSALS_TOLD
    return refused[:REFUSALS_TOLD] + (["and %d refused calls more" % more] if more > 0 else [])


def told_lines(what, numbers):
    """One sentence on some lines or tasks; none if there are none."""
    if not numbers:
        return []
    listed = spans(numbers)
    if len(listed) > LIST_SHOWN:
        listed = listed[:LIST_SHOWN].rsplit(",", 1)[0] + ", .. (%d in all)" % len(numbers)
    return ["%s: %s" % (what, listed)]


def notes(tasks, lanes, steps, left_out):
    """Sentences below the bands."""
    wrong = [s.number for s in steps if s.verb == NOT_A_CALL]
    hidden = [t.number for t in tasks if t.number not in lanes]
    lines = told_refusals(steps) + told_lines("? lines that are no script lines", wrong)
    lines += told_lines("Tasks that neither ran nor were named have no lane", hidden)
    if left_out:
        lines.append("The picture ends here; %d script lines more were run" % left_out)
    return lines


def legend(y, has_privileged):
    parts, x = [], MARGIN
    for style, what in (("runs", "runs"), ("privileged", "privileged task runs"), ("none", "no task runs")):
        if style == "privileged" and not has_privileged:
            continue
        parts += [box(x, y - 9, 18, 10, style), text(x + 24, y, what)]
        x += 46 + LETTER * len(what)
    parts += mark(x + 6, y - 4, False) + [text(x + 16, y, "call")] + mark(x + 66, y - 4, True)
    return parts + [text(x + 78, y, "refused call, its number in brackets")]


def document(title, width, height, parts):
    head = '<svg xmlns="http://www.w3.org/2000/svg" width="%g" height="%g" viewBox="0 0 %g %g">' % (width, height, width, height)
    back = '<rect width="%g" height="%g" fill="#ffffff"/>' % (width, height)
    name = "<title>%s</title>" % escape(title)
    return "\n".join([head, name, "<style>", STYLE, "</style>", back] + parts + ["</svg>"]) + "\n"


def refused_picture(title, why):
    return document(title, NARROWEST, 3 * MARGIN + LINE, [text(MARGIN, MARGIN + 12, title, "title"), text(MARGIN, MARGIN + 36, why, "bad")])


def picture(morning, title):
    if morning.refused:
        return refused_picture(title, morning.refused)
    steps = morning.steps[: STEPS_SHOWN + 1]
    lanes = takes_part(morning.tasks, steps)
    lanes += [0] if any(s.running == 0 for s in steps) else []
    tasks = {t.number: t for t in morning.tasks}
    parts = [text(MARGIN, MARGIN + 12, title, "title"), text(MARGIN, MARGIN + 32, summary(morning.steps), "quiet")]
    parts += legend(MARGIN + 54, any(tasks[n].privileged for n in lanes if n))
    y, width = MARGIN + 68, NARROWEST
    for band_steps in bands_of(steps):
        band = Band(band_steps, lanes, tasks, y)
        parts += band.draw()
        y, width = band.end() + BAND_GAP, max(width, band.places[-1] + MARGIN)
    for note in notes(morning.tasks, lanes, steps, len(morning.steps) - len(steps)):
        parts.append(text(MARGIN, y, note))
        y += LINE
        width = max(width, 2 * MARGIN + LETTER * len(note))
    return document(title, width, y, parts)


if __name__ == "__main__":
    sys.exit(run_tool("picture", picture))
