"""A bench morning as it was run: the script's lines beside the answers of the runner or the panel. What the table and the picture share.

A rig and a script are those of `./bench --help` and `./bench --panel --help`; the answers are what was printed for them.
"""
import collections
import sys

STANDARD_OUTPUT = 1
RUN_LINE = b"RUN"
WORD_COLUMN = 6  # of an answer's fields: verb, refusal, count, running task, woken, activated, then words or a value
REFUSED_FILE_LINE = 2  # of a refused START's fields: START, refusal, line
SHOWN_OF_WRONG_LINE = 24  # characters

# What a call is called, and how its numbers are told.
CALLS = {
    "S": "schedule %s",
    "X": "cancel %s",
    "Z": "terminate %s",
    "F": "finish",
    "K": "tick",
    "U": "until %s",
    "R": "cycles %s",
    "L": "latched %s=%s",
    "N": "unlatched %s=%s",
    "G": "signal %s=%s",
    "Q": "read flag %s",
    "V": "next waking",
    "O": "overruns of %s",
    "Y": "why not %s, %s",
}

NOT_A_CALL = "?"

OF_VALUES = "QVOY"  # verbs that ask, and are answered by one number
SAID_OF_VALUE = {"Y": "condition %s"}  # how the number is told where it does not stand for itself
NO_VALUE = {"V": "none", "Y": "can start"}  # how it is told that an accepted question was answered by no number

OF_TASKS = "SXZ"
OF_COUNTS = "UR"

REFUSALS = {
    1: "no script line",
    5: "no task is running",
    6: "no such flag",
    7: "it is a minor-cycle flag",
    9: "the waking count is above 2,147,483,647",
    10: "a lent buffer has the wrong length",
    11: "a field is outside its size",
    12: "the record is not sound",
}

# Where the verb says more.
REFUSALS_OF_VERB = {
    ("S", 6): "no such task",
    ("X", 6): "no such task",
    ("Z", 6): "no such task",
    ("O", 6): "no such task",
    ("Y", 6): "no such task",
    ("S", 7): "the caller is not its controller",
    ("X", 7): "the caller is not its controller",
    ("Z", 7): "the caller is not its controller",
    ("G", 7): "it is an activation or minor-cycle flag",
    ("S", 8): "it is invoked already",
    ("X", 8): "it is not invoked",
    ("Z", 8): "it is not active",
    ("Y", 8): "it is not inactive",
    ("K", 9): "the count is at its last",
    ("Y", 11): "more than 3 links",
}

REFUSED_RIGS = {
    1: "a line has the wrong shape",
    2: "a number is outside its size",
    3: "a record is out of order or repeated",
    4: "a rule over the whole rig is broken",
}

TOO_LONG = "the rig is longer than 40,960 bytes"

# One line of the script and its answer. `caller` ran before it, `running` runs after it; 0 is no task. `woken` and `activated`
# are how many tasks the flags that it served woke and activated. `value` is what a question was answered by, as text, None for
# all other lines. A line that is none has no count of its own: it shows that of the line before.
Step = collections.namedtuple("Step", "number verb call refusal why count caller running woken activated words value")

Task = collections.namedtuple("Task", "number priority privileged")

Morning = collections.namedtuple("Morning", "tasks steps refused")


class Unreadable(Exception):
    """The answers are not those of the script."""


# ---- The input ----


def lines_of(text):
    """Lines without their LF; a last line without LF counts as one."""
    lines = text.split(b"\n")
    return lines[:-1] if lines[-1] == b"" else lines


def parts_of(text):
    """The rig's lines and the script's; the script is None without the line RUN."""
    lines = lines_of(text)
    if RUN_LINE not in lines or (lines.index(RUN_LINE) == len(lines) - 1 and not text.endswith(b"\n")):
        return lines, None
    at = lines.index(RUN_LINE)
    return lines[:at], lines[at + 1 :]


def tasks_of(rig):
    fields = [line.decode("ascii").split("\t") for line in rig]
    return [Task(int(f[1]), int(f[3]), f[4] == "1") for f in fields if f[0] == "T"]


def shown(line):
    """A line of any bytes, in quotes, cut if it is long."""
    text = line[: 4 * SHOWN_OF_WRONG_LINE].decode("latin-1").encode("unicode_escape").decode("ascii")
    if len(line) > len(text) or len(text) > SHOWN_OF_WRONG_LINE:
        text = text[:SHOWN_OF_WRONG_LINE] + ".."
    return '"%s"' % text


# ---- The answers ----


def why_of(verb, refusal):
    return REFUSALS_OF_VERB.get((verb, refusal)) or REFUSALS.get(refusal, "")


def wrong_step(number, line, before):
    return Step(number, NOT_A_CALL, shown(line), 1, why_of(NOT_A_CALL, 1), before.count, before.running, before.running, 0, 0, [], None)


def value_of(verb, refusal, numbers):
    if verb not in OF_VALUES or refusal != 0:
        return None
    return SAID_OF_VALUE.get(verb, "%s") % numbers[0] if numbers else NO_VALUE.get(verb)


def called_step(number, line, fields, before):
    verb, numbers = fields[0], [int(f) for f in fields[1:]]
    refusal, count, running, woken, activated = numbers[: WORD_COLUMN - 1]
    rest = numbers[WORD_COLUMN - 1 :]
    call = CALLS[verb] % tuple(line.decode("ascii").split("\t")[1:])
    words = rest if verb == "K" else []
    value = value_of(verb, refusal, rest)
    why = why_of(verb, refusal)
    return Step(number, verb, call, refusal, why, count, before.running, running, woken, activated, words, value)


def step_of(number, line, answer, before):
    fields = answer.decode("ascii").split("\t")
    if fields[0] == NOT_A_CALL:
        return wrong_step(number, line, before)
    if line[:1].decode("latin-1") != fields[0]:
        raise Unreadable("line %d is %s, its answer %r" % (number, shown(line), answer))
    return called_step(number, line, fields, before)


def started_step(fields):
    count, running, woken, activated = (int(f) for f in fields[2:WORD_COLUMN])
    return Step(None, "START", "START", 0, "", count, 0, running, woken, activated, [], None)


def refused_of(fields):
    """A refused rig in words."""
    number, line = int(fields[1]), int(fields[REFUSED_FILE_LINE])
    if line > 0:
        return "the rig is refused by %d at line %d: %s" % (number, line, REFUSED_RIGS[number])
    return "the rig is refused by %d: %s" % (number, TOO_LONG if number == 2 else REFUSED_RIGS[number])


def steps_of(first_number, script, answers, start):
    if len(script) != len(answers):
        raise Unreadable("%d script lines, %d answers" % (len(script), len(answers)))
    steps = [start]
    for place, (line, answer) in enumerate(zip(script, answers)):
        steps.append(step_of(first_number + place, line, answer, steps[-1]))
    return steps


def morning_of(text, output):
    rig, script = parts_of(text)
    answers = lines_of(output)
    if not answers or not answers[0].startswith(b"START\t"):
        raise Unreadable("there is no START line")
    fields = answers[0].decode("ascii").split("\t")
    if fields[1] != "0":
        return Morning([], [], refused_of(fields))
    steps = steps_of(len(rig) + 2, script or [], answers[1:], started_step(fields))
    return Morning(tasks_of(rig), steps, None)


def read_morning(input_path, output_path):
    with open(input_path, "rb") as f, open(output_path, "rb") as g:
        return morning_of(f.read(), g.read())


def hex_word(word):
    return "%04X" % word


def put(text):
    """Writes all of the text, also where sys.stdout is unbuffered and would drop what a first write does not take."""
    with open(STANDARD_OUTPUT, "wb", closefd=False) as out:
        out.write(text.encode("utf-8"))


def run_tool(name, write):
    """A tool's main: write(morning, title) makes the text; status 1 for a refused rig or a failure."""
    if len(sys.argv) != 4:
        print("usage: %s INPUT OUTPUT TITLE     what the runner or the panel was given and printed" % name, file=sys.stderr)
        return 2
    try:
        morning = read_morning(sys.argv[1], sys.argv[2])
        put(write(morning, sys.argv[3]))
    except BrokenPipeError:
        return 1
    except (OSError, Unreadable) as failure:
        print("%s: %s" % (name, getattr(failure, "strerror", None) or failure), file=sys.stderr)
        return 1
    return 1 if morning.refused else 0
