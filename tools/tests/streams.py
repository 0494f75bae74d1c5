#!/usr/bin/env python3
"""How a bench runner reads and writes: answers as lines come, writes that block or fail, reads that are late or fail.

usage: tools/tests/streams.py [--patience SECONDS] [--panel] COMMAND [WORD ...]

COMMAND reads a rig, the line RUN and a script from standard input and prints the answers (crates/runner/out/runner, the example
host, ./bench); it gets so many seconds for each answer, 30 if not given. With --panel it answers the panel's verbs too, as
crates/panel/out/panel does; without, it must not. A failure must be told on standard error; a run that goes well prints nothing
there. One line for each test; the last line is `streams: N passed, M failed`. Exit status 0 if all passed, 1 if one failed,
2 for misuse.
"""
import contextlib
import fcntl
import os
import resource
import select
import signal
import socket
import struct
import subprocess
import sys
import tempfile
import termios
import time

RIG = b"RIG\t1\t1\t1\t0\nT\t1\t0\t0\t0\t0\nRUN\n"
STARTED = b"START\t0\t0\t1\t0\t0\n"
LATE = 0.3  # seconds that a reader or a writer is late
STUCK_WORK = 1.0  # seconds of processor time in which a program surely comes to its next write
STUCK_SLEEP = 1.0  # seconds without any: it sleeps
MANY_TICKS = 12000  # their answers are more than a pipe holds
PIECE = 65536
SMALL_PIPE = 4096  # bytes, the least that a pipe can be made to hold
SMALL_FILE = 100000  # bytes that a file may have before writing to it fails


class Wrong(Exception):
    """What a program did that it must not do."""


class Patience:
    """How long a program may take for one answer, or to end."""

    seconds = 30


class Verbs:
    """Whether the program answers the panel's."""

    panel = False


def tick(count):
    return b"K\t0\t%d\t1\t0\t0\n" % count


def ticks(count):
    return STARTED + b"".join(tick(n) for n in range(1, count + 1))


# ---- Programs and descriptors ----


@contextlib.contextmanager
def started(command, stdin, stdout, before=None):
    """The command with these descriptors, None for a closed one; ended if it does not end by itself."""

    def prepare():
        signal.signal(signal.SIGPIPE, signal.SIG_DFL)
        for descriptor, given in ((0, stdin), (1, stdout)):
            if given is None:
                os.close(descriptor)
        if before is not None:
            before()

    errors = tempfile.TemporaryFile()
    program = subprocess.Popen(command, stdin=stdin, stdout=stdout, stderr=errors, preexec_fn=prepare, start_new_session=True)
    program.errors = errors
    try:
        yield program
    finally:
        if program.poll() is None:
            os.killpg(program.pid, signal.SIGKILL)
            program.wait()
        errors.close()


def said(program):
    program.errors.seek(0)
    return program.errors.read().decode("utf-8", "replace")


def wait_for_end(program):
    try:
        program.wait(Patience.seconds)
    except subprocess.TimeoutExpired:
        raise Wrong("it did not end") from None


def must_end_well(program):
    wait_for_end(program)
    if program.returncode != 0 or said(program):
        raise Wrong("status %d, standard error: %s" % (program.returncode, said(program) or "(empty)"))


def must_tell_failure(program):
    wait_for_end(program)
    if not said(program).strip():
        raise Wrong("status %d and nothing on standard error" % program.returncode)


@contextlib.contextmanager
def pipe():
    ends = list(os.pipe())
    try:
        yield ends
    finally:
        for end in ends:
            with contextlib.suppress(OSError):
                os.close(end)


def close(ends, which):
    os.close(ends[which])
    ends[which] = -1


def make_non_blocking(descriptor):
    fcntl.fcntl(descriptor, fcntl.F_SETFL, fcntl.fcntl(descriptor, fcntl.F_GETFL) | os.O_NONBLOCK)


@contextlib.contextmanager
def file_of(content):
    with tempfile.TemporaryFile() as f:
        f.write(content)
        f.flush()
        f.seek(0)
        yield f


# ---- Talking ----


def receive(descriptor, wanted):
    """Bytes until `wanted` have come; whatever comes too much is handed back too."""
    got = b""
    until = time.monotonic() + Patience.seconds
    while len(got) < wanted:
        left = until - time.monotonic()
        if left <= 0 or not select.select([descriptor], [], [], left)[0]:
            raise Wrong("no answer; so far %r" % got[-60:])
        piece = os.read(descriptor, PIECE)
        if not piece:
            raise Wrong("the output ended; so far %r" % got[-60:])
        got += piece
    return got


def receive_all(descriptor):
    got = b""
    while True:
        if not select.select([descriptor], [], [], Patience.seconds)[0]:
            raise Wrong("the output did not end")
        piece = os.read(descriptor, PIECE)
        if not piece:
            return got
        got += piece


def must_be(got, right):
    if got == right:
        return
    at = next((i for i, (a, b) in enumerate(zip(got, right)) if a != b), min(len(got), len(right)))
    raise Wrong("%d bytes, not %d; from byte %d: %r, not %r" % (len(got), len(right), at, got[at:at + 40], right[at:at + 40]))


def ask(to, come_from, line, right):
    os.write(to, line)
    must_be(receive(come_from, len(right)), right)


def ask_panel(to, come_from, line, right):
    ask(to, come_from, line, right if Verbs.panel else b"?\n")


def must_be_silent(descriptor):
    if select.select([descriptor], [], [], LATE)[0]:
        raise Wrong("an answer came before its line ended: %r" % os.read(descriptor, PIECE))


# ---- The tests ----


def answers_come_as_lines_come(command):
    with pipe() as there, pipe() as back, started(command, there[0], back[1]) as program:
        close(there, 0)
        close(back, 1)
        ask(there[1], back[0], RIG, STARTED)
        for count in range(1, 31):
            ask(there[1], back[0], b"K\n", tick(count))
        ask(there[1], back[0], b"Q\t1\n\nK\nQ", b"Q\t0\t30\t1\t0\t0\t0\n?\n" + tick(31))
        must_be_silent(back[0])
        ask(there[1], back[0], b"\t1\n", b"Q\t0\t31\t1\t0\t0\t0\n")
        ask_panel(there[1], back[0], b"V\n", b"V\t0\t31\t1\t0\t0\n")
        ask_panel(there[1], back[0], b"O\t1\n", b"O\t0\t31\t1\t0\t0\t0\n")
        ask_panel(there[1], back[0], b"Y\t1\t0\n", b"Y\t8\t31\t1\t0\t0\n")
        ask(there[1], back[0], b"U\t40\n", b"U\t0\t31\t0\t0\t0\n")
        ask_panel(there[1], back[0], b"V\n", b"V\t0\t31\t0\t0\t0\t40\n")
        os.write(there[1], b"K")
        close(there, 1)
        must_be(receive_all(back[0]), b"?\n")
        must_end_well(program)


def a_file_is_answered(command):
    with pipe() as back, file_of(RIG + b"K\n" * MANY_TICKS) as script, started(command, script, back[1]) as program:
        close(back, 1)
        must_be(receive_all(back[0]), ticks(MANY_TICKS))
        must_end_well(program)


def fails_with_output(command, output, before=None):
    """With an output that cannot be written the run ends at once, though the input goes on, and says so."""
    with pipe() as there, started(command, there[0], output, before) as program:
        os.write(there[1], RIG + b"K\n")
        must_tell_failure(program)


def full_output_is_told(command):
    with open("/dev/full", "wb", buffering=0) as full:
        fails_with_output(command, full)


def closed_output_is_told(command):
    fails_with_output(command, None)


def output_that_fails_later_is_told(command):
    def limit():
        signal.signal(signal.SIGXFSZ, signal.SIG_IGN)
        resource.setrlimit(resource.RLIMIT_FSIZE, (SMALL_FILE, SMALL_FILE))

    with tempfile.TemporaryFile() as output, file_of(RIG + b"K\n" * MANY_TICKS) as script:
        with started(command, script, output, limit) as program:
            must_tell_failure(program)
            output.seek(0)
            must_be(output.read(), ticks(MANY_TICKS)[:SMALL_FILE])


def ends_when_its_reader_goes(command):
    with pipe() as there, pipe() as back, started(command, there[0], back[1]) as program:
        close(there, 0)
        close(back, 1)
        ask(there[1], back[0], RIG, STARTED)
        close(back, 0)
        until = time.monotonic() + Patience.seconds
        with contextlib.suppress(BrokenPipeError):
            while program.poll() is None and time.monotonic() < until:
                os.write(there[1], b"K\n")
                time.sleep(LATE / 10)
        wait_for_end(program)


def wait_until_full(descriptor):
    """Until the pipe holds all that it can: a write to it would block."""
    until = time.monotonic() + Patience.seconds
    unread = 0
    while unread < SMALL_PIPE and time.monotonic() < until:
        time.sleep(LATE / 10)
        unread = struct.unpack("i", fcntl.ioctl(descriptor, termios.FIONREAD, b"\0\0\0\0"))[0]


def processor_seconds(program):
    with open("/proc/%d/stat" % program.pid, encoding="ascii", errors="replace") as f:
        fields = f.read().rsplit(")", 1)[1].split()
    return (int(fields[11]) + int(fields[12])) / os.sysconf("SC_CLK_TCK")


def wait_until_stuck(program):
    """Until the program has ended, sleeps, or has tried for a while: on a busy machine it may come to its next write late."""
    begin = last = processor_seconds(program)
    changed = time.monotonic()
    while program.poll() is None and last - begin < STUCK_WORK and time.monotonic() - changed < STUCK_SLEEP:
        time.sleep(LATE / 10)
        now = processor_seconds(program)
        if now != last:
            last, changed = now, time.monotonic()


def late_reader_gets_every_byte(command):
    with pipe() as back, file_of(RIG + b"K\n" * MANY_TICKS) as script:
        make_non_blocking(back[1])
        fcntl.fcntl(back[1], fcntl.F_SETPIPE_SZ, SMALL_PIPE)
        with started(command, script, back[1]) as program:
            close(back, 1)
            wait_until_full(back[0])
            wait_until_stuck(program)
            must_be(receive_all(back[0]), ticks(MANY_TICKS))
            must_end_well(program)


def late_input_is_waited_for(command):
    with pipe() as there, pipe() as back:
        make_non_blocking(there[0])
        with started(command, there[0], back[1]) as program:
            close(there, 0)
            close(back, 1)
            time.sleep(LATE)
            ask(there[1], back[0], RIG, STARTED)
            time.sleep(LATE)
            ask(there[1], back[0], b"K\n", tick(1))
            close(there, 1)
            must_be(receive_all(back[0]), b"")
            must_end_well(program)


def fails_with_input(command, stdin):
    """An input that cannot be read is told as such, and not as a rig that is refused."""
    with pipe() as back, started(command, stdin, back[1]) as program:
        close(back, 1)
        must_be(receive_all(back[0]), b"")
        must_tell_failure(program)


def directory_as_input_is_told(command):
    folder = os.open("/", os.O_RDONLY)
    try:
        fails_with_input(command, folder)
    finally:
        os.close(folder)


def closed_input_is_told(command):
    fails_with_input(command, None)


def connected_pair():
    with socket.create_server(("127.0.0.1", 0)) as server:
        ours = socket.create_connection(server.getsockname())
        theirs, _ = server.accept()
    return ours, theirs


def reset_on_close(connection):
    connection.setsockopt(socket.SOL_SOCKET, socket.SO_LINGER, struct.pack("ii", 1, 0))


def input_that_fails_later_is_told(command):
    ours, theirs = connected_pair()
    with theirs, pipe() as back, started(command, theirs.fileno(), back[1]) as program:
        close(back, 1)
        theirs.close()
        ours.sendall(RIG)
        must_be(receive(back[0], len(STARTED)), STARTED)
        reset_on_close(ours)
        ours.close()
        must_be(receive_all(back[0]), b"")
        must_tell_failure(program)


TESTS = [
    answers_come_as_lines_come,
    a_file_is_answered,
    full_output_is_told,
    closed_output_is_told,
    output_that_fails_later_is_told,
    ends_when_its_reader_goes,
    late_reader_gets_every_byte,
    late_input_is_waited_for,
    directory_as_input_is_told,
    closed_input_is_told,
    input_that_fails_later_is_told,
]


def passes(test, command):
    name = test.__name__.replace("_", " ")
    try:
        test(command)
    except (Wrong, BrokenPipeError) as wrong:
        print("FAIL %s: %s" % (name, wrong), flush=True)
        return False
    print("ok   %s" % name, flush=True)
    return True


def main(command):
    if command == ["--help"]:
        print(__doc__.strip())
        return 0
    if len(command) > 1 and command[0] == "--patience" and command[1].isdecimal():
        Patience.seconds = int(command[1])
        command = command[2:]
    if command and command[0] == "--panel":
        Verbs.panel = True
        command = command[1:]
    if not command or command[0].startswith("-"):
        print(__doc__.strip(), file=sys.stderr)
        return 2
    results = [passes(test, command) for test in TESTS]
    print("streams: %d passed, %d failed" % (results.count(True), results.count(False)))
    return 0 if all(results) else 1


if __name__ == "__main__":
    sys.exit(main(sys.argv[1:]))
