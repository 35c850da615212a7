"""Gives `wlb desk`, `wlb broker` and `wlb sim` random and mutated input.

SEED and a number make each case. Cases follow one another until the programs have accepted MEGABYTES. For the desk and the
broker a case is a stream of frames: a start, then commands in order and out of order, reports, parts of reports and deaths,
with fields at and over their limits. Most streams are mutated: flipped bits, inserted or deleted bytes, frames of other kinds,
random bodies, noise, an end within a frame. For the sim a case is a script, and one of its lines may be mutated. From
docs/PROTOCOL.md alone the tool works out the good frames of a stream, up to its first fault, and the name of that fault.

The status is 1 if there is a fault:

- A program ends by a signal, or does not end in time, or has another status than the documented one. Desk and broker end with 0
  for a stream without a fault, and else with 1 and the name of the fault on standard error. A broker ends with 0 if its
  generation has more events than steps. The sim ends with 0, or with 1 and `wlb: line N`, and N is not before the mutated line.
- The desk answers the frames before the fault otherwise than without the fault.
- A broker with one lane, which gets the stream over its socket in pieces, answers otherwise than the desk. Or a broker with
  more lanes writes anything but frames for tabs.
- The output of a script up to a bad line is not the output of the lines before it alone.
- The peak memory of a process is above 64 MiB.

Bytes count as accepted up to the first fault, once for each program that gets them. `--wrong` gives the same cases to wrong
programs, to show that the checks notice: one that crashes, one that hangs, one that ends with another status, one that loses an
answer, and one that takes too much memory. Then the status is 0 if each of them was noticed. The tool needs Linux.
"""

import argparse
import contextlib
import os
import random
import resource
import select
import shlex
import signal
import socket
import struct
import subprocess
import sys
import tempfile
import time

import argument_types

SECONDS = 30
# Bytes: the limit of peak memory, and the limit of address space, which is larger because of threads.
ROOM = 64 << 20
SPACE = 8 << 30
# The most bytes of a case.
STREAM, SCRIPT = 200_000, 40_000
NAMES = [b"", b"a", b"f", b"lock", "\u00e4\u20ac".encode(), b"x" * 255, b"f-", b"\0", b"\x7f"]
ORIGINS = ["https://a.test/", "https://b.test/x?y#z", "http://a.test:8080/", "data:,x", "about:blank", "no_url", "https://a.test"]

# ---- Grammar of frames, by docs/PROTOCOL.md


class Fault(Exception):
    """First fault of a stream. Its text is the fault's name."""


class Fields:
    """Fields of a body, from left to right."""

    def __init__(self, body, at):
        self.body, self.at = body, at

    def bytes(self, count):
        if self.at + count > len(self.body):
            raise Fault("BadField")
        self.at += count
        return self.body[self.at - count : self.at]

    def number(self, count, least=0, most=None):
        value = int.from_bytes(self.bytes(count), "big")
        if value < least or (most is not None and value > most):
            raise Fault("BadField")
        return value

    def text(self, count, most, encoding):
        try:
            return self.bytes(self.number(count, 0, most)).decode(encoding)
        except UnicodeDecodeError as error:
            raise Fault("BadField") from error

    def name(self):
        if self.text(1, 255, "utf-8").startswith("-"):
            raise Fault("BadField")

    def end(self):
        if self.at != len(self.body):
            raise Fault("LeftOver")


def read_command(fields):
    fields.number(4, 1)
    fields.number(4)
    operation = fields.number(1, 1, 4)
    if operation == 1:
        fields.number(1, 1, 2)
        fields.number(1, 0, 1)
        fields.name()
    elif operation < 4:
        fields.number(4)


def read_entries(fields):
    last = -1
    for _entry in range(fields.number(2, 0, 64)):
        last = fields.number(4, last + 1)
        fields.number(1, 1, 2)
        fields.number(1, 1, 2)
        fields.name()


def read_report(fields):
    fields.number(4, 1)
    fields.number(4)
    read_entries(fields)


def read_part(fields):
    fields.number(4, 1)
    fields.number(4)
    part = fields.number(2)
    fields.number(2, max(1, part + 1), 16)
    read_entries(fields)


def read_post(fields, has_source=False):
    if has_source:
        fields.number(2, 1)
    fields.number(4)
    fields.text(1, 255, "utf-8")
    fields.bytes(fields.number(2, 0, 16_384))


def read_hello(fields):
    fields.number(4, 1)


def read_answer(fields):
    fields.number(4, 1)
    fields.bytes(8)
    fields.number(1, 1, 4)


def read_snapshot(fields):
    fields.number(4, 1)
    fields.bytes(4)
    part = fields.number(2)
    fields.number(2, part + 1)
    for _entry in range(fields.number(2, 0, 64)):
        fields.number(1, 1, 2)
        fields.number(2, 1)
        fields.number(1, 1, 2)
        fields.name()


def read_welcome(fields, origins=1):
    fields.number(2, 1)
    for _origin in range(origins):
        fields.text(2, 4_096, "ascii")


def read_start(fields):
    fields.number(4, 1)
    last = 0
    for _tab in range(fields.number(2, 0, 1_024)):
        last = fields.number(2, last + 1)
        fields.number(2, 1)


def read_inner(fields, kinds):
    """Reads a body of one of these kinds, up to the end."""
    kind = tuple(fields.bytes(2))
    if kind not in kinds:
        raise Fault("BadField")
    BODIES[kind](fields)
    if fields.at != len(fields.body):
        raise Fault("BadField")


def read_stamped(fields):
    fields.number(2, 1)
    fields.number(2, 1)
    read_inner(fields, [(1, 1), (1, 2), (2, 2)])


def read_addressed(fields):
    fields.number(2, 1)
    read_inner(fields, [(1, 16), (1, 17), (1, 18)])


START, STAMPED, ADDRESSED, DEAD = (1, 33), (1, 32), (1, 34), (1, 35)
BODIES = {
    (1, 1): read_command,
    (1, 2): read_report,
    (1, 3): read_post,
    (1, 16): read_hello,
    (1, 17): read_answer,
    (1, 18): read_snapshot,
    (1, 19): lambda fields: read_post(fields, True),
    (1, 20): read_welcome,
    STAMPED: read_stamped,
    START: read_start,
    ADDRESSED: read_addressed,
    DEAD: lambda fields: fields.number(2, 1),
    (2, 2): read_part,
    (2, 20): lambda fields: read_welcome(fields, 2),
}


def read_body(body):
    """Returns the version and the kind of a body."""
    kind = tuple(body[:2])
    if kind[0] not in (1, 2):
        raise Fault("BadVersion")
    if kind not in BODIES:
        raise Fault("BadKind")
    fields = Fields(body, 2)
    BODIES[kind](fields)
    fields.end()
    return kind


def frames_of(stream):
    """Yields the kind, the begin and the end of each frame of a stream, up to the first fault, which it raises."""
    at = 0
    while at < len(stream):
        if len(stream) - at < 4:
            raise Fault("Truncated")
        length = int.from_bytes(stream[at : at + 4], "big")
        if not 2 <= length <= 65_536:
            raise Fault("BadLength")
        if len(stream) - at - 4 < length:
            raise Fault("Truncated")
        yield read_body(stream[at + 4 : at + 4 + length]), at, at + 4 + length
        at += 4 + length


class Worth:
    """Reading of a stream by a broker: the end of its good frames, its first fault, and the end of each event."""

    def __init__(self, stream):
        self.end, self.fault, self.events = 0, None, []
        try:
            for kind, _begin, end in frames_of(stream):
                if (kind != START) if not self.end else (kind not in (STAMPED, DEAD)):
                    raise Fault("Unexpected")
                if self.end:
                    self.events.append(end)
                self.end = end
            if not self.end:
                raise Fault("Unexpected")
        except Fault as fault:
            self.fault = str(fault)


# ---- Streams


def frame(body):
    return struct.pack(">I", len(body)) + body


def name_of(dice):
    name = dice.choice(NAMES) if dice.random() < 0.9 else b"n%d" % dice.randrange(1_000)
    return bytes([len(name)]) + name


def operation(dice, issued):
    what = dice.random()
    if what < 0.5:
        return struct.pack(">BBB", 1, dice.randrange(1, 3), dice.random() < 0.2) + name_of(dice)
    if what < 0.98:
        return struct.pack(">BI", dice.randrange(2, 4), dice.randrange(issued + 1))
    return b"\x04"


def entries(dice, base):
    count = dice.choice([0, 0, 1, 3, 64])
    numbers = sorted({dice.randrange(max(1, base)) for _ in range(count)})
    rows = b"".join(struct.pack(">IBB", number, dice.randrange(1, 3), dice.randrange(1, 3)) + name_of(dice) for number in numbers)
    return struct.pack(">H", len(numbers)) + rows


class Talk:
    """Maker of a stream's frames, with the next command number of each tab."""

    def __init__(self, dice):
        self.dice = dice
        self.generation = dice.choice([1, 2, 65_535, 2**32 - 1])
        self.next = {}
        self.tabs = sorted(dice.sample(range(1, 65_536), dice.choice([1, 2, 5, 40, 1_024])))
        self.partitions = {tab: dice.randrange(1, dice.choice([2, 4])) for tab in self.tabs}

    def start(self):
        listed = [tab for tab in self.tabs if self.dice.random() < 0.8]
        rows = b"".join(struct.pack(">HH", tab, self.partitions[tab]) for tab in listed)
        return frame(b"\x01\x21" + struct.pack(">IH", self.generation, len(listed)) + rows)

    def stamped(self, tab, body):
        partition = self.partitions.get(tab, 1) if self.dice.random() < 0.995 else self.dice.randrange(1, 5)
        return frame(b"\x01\x20" + struct.pack(">HH", tab, partition) + body)

    def report(self, tab):
        base = 0 if self.dice.random() < 0.5 else self.dice.choice([1, 5, 100, 2**32 - 1])
        self.next[tab] = base
        head = struct.pack(">II", self.generation, base)
        if self.dice.random() < 0.7:
            return self.stamped(tab, b"\x01\x02" + head + entries(self.dice, base))
        parts = self.dice.choice([1, 1, 2, 16])
        place = struct.pack(">HH", self.dice.randrange(parts), parts)
        return self.stamped(tab, b"\x02\x02" + head + place + entries(self.dice, base))

    def command(self, tab):
        number = self.next[tab]
        if self.dice.random() < 0.05:
            number = self.dice.choice([0, max(0, number - 1), min(number + 1, 2**32 - 1), 2**32 - 1])
        elif number < 2**32 - 1:
            self.next[tab] = number + 1
        generation = self.generation if self.dice.random() < 0.99 else self.dice.choice([1, 3, 2**32 - 1])
        return self.stamped(tab, b"\x01\x01" + struct.pack(">II", generation, number) + operation(self.dice, number))

    def frames(self, size):
        """Returns frames of about this many bytes."""
        made = [self.start()] + [self.report(tab) for tab in self.tabs if self.dice.random() < 0.98]
        left = size - sum(map(len, made))
        while left > 0:
            tab = self.dice.choice(self.tabs)
            what = self.dice.random()
            if what < 0.0005:
                made.append(frame(b"\x01\x23" + struct.pack(">H", tab)))
            elif what < 0.01 or tab not in self.next:
                made.append(self.report(tab))
            else:
                made.append(self.command(tab))
            left -= len(made[-1])
        return made


def odd_frame(dice):
    """Returns a frame of any kind with random fields."""
    kind = dice.choice(list(BODIES)) if dice.random() < 0.9 else (dice.randrange(256), dice.randrange(256))
    rest = bytes(dice.choice([0, 1, 1, 2, 255, dice.randrange(256)]) for _ in range(dice.choice([0, 2, 6, 10, 15, 40])))
    return frame(bytes(kind) + rest)


def mutated(dice, stream):
    """Returns the stream with a few bytes changed, inserted or deleted, mostly near its end."""
    stream = bytearray(stream)
    for _turn in range(dice.randrange(1, 4)):
        at = int(len(stream) * (1 - dice.random() ** 2))
        what = dice.randrange(5)
        if what == 0 and at < len(stream):
            stream[at] ^= 1 << dice.randrange(8)
        elif what == 1:
            stream[at:at] = dice.randbytes(dice.randrange(1, 9))
        elif what == 2:
            del stream[at : at + dice.randrange(1, 9)]
        elif what == 3:
            stream[at : at + 4] = struct.pack(">I", dice.choice([0, 1, 2, 65_536, 65_537, 2**32 - 1]))
        else:
            del stream[at:]
    return bytes(stream)


def stream_of(dice):
    what = dice.random()
    if what < 0.02:
        return dice.randbytes(dice.randrange(2_000))
    made = Talk(dice).frames(dice.randrange(STREAM) if what > 0.3 else dice.randrange(2_000))
    if what < 0.3:
        made.insert(dice.randrange(len(made) + 1), odd_frame(dice))
    elif what < 0.4:
        made.insert(dice.randrange(len(made) + 1), dice.choice(made))
    stream = b"".join(made)
    return mutated(dice, stream) if 0.4 < what < 0.85 else stream


# ---- Scripts


def word_of(dice):
    return dice.choice(["a", "f", "%", "lock", "%C3%A4", "-f", "x" * 255, "x" * 256, "%00"])


def hex_of(dice, talk):
    """Returns a body that a compromised tab sends, in hexadecimal digits."""
    body = [talk.command(1), talk.report(1)][dice.randrange(2)][10:]
    post = b"\x01\x03" + struct.pack(">IBH", dice.randrange(3), 0, 1) + b"x"
    return dice.choice([body, post]).hex().upper()


def line_of(dice, talk, messages):
    tab = dice.choice([1, 1, 2, 3, 4, 65_535])
    number = dice.choice([0, 1, 2, dice.randrange(100), 2**32 - 1])
    mode = dice.choice(["shared", "exclusive"])
    url = dice.choice(ORIGINS)
    return dice.choice(
        [f"deliver m{dice.randrange(1, messages + 3)}"] * 12
        + [f"ask {tab} {mode} {word_of(dice)}"] * 3
        + [f"probe {tab} {mode} {word_of(dice)}", f"abort {tab} {number}", f"release {tab} {number}", f"release {tab} {number}"]
        + [f"open {tab} {url}", f"open2 {tab} {dice.choice(ORIGINS)} {url}", f"query {tab}", f"resend {tab}", f"hello {tab}"]
        + ["start", "start -", f"start {tab}", "stop", f"kill {tab}", f"tell {tab}", "show", "", "# a comment"]
        + [f"channel {tab} {word_of(dice)}", f"post {tab} {number} {word_of(dice)}"]
        + [f"read {tab} {number}", f"close {tab} {number}"]
        + [f"corrupt {tab}", f"forge {tab} {hex_of(dice, talk)}"]
    )


def script_of(dice):
    """Returns the lines of a script, and the place of the mutated one, or None."""
    talk = Talk(dice)
    talk.tabs, talk.next, talk.generation = [1], {1: 0}, 1
    lines = [b"start -", b"open 1 https://a.test/", b"open 2 https://a.test/", b"deliver m1", b"deliver m2"]
    size, wanted = 0, dice.randrange(SCRIPT)
    while size < wanted:
        lines.append(line_of(dice, talk, len(lines)).encode())
        size += len(lines[-1]) + 1
    if dice.random() < 0.3:
        return lines, None
    at = int(len(lines) * (1 - dice.random() ** 2)) if dice.random() < 0.9 else 0
    at = min(at, len(lines) - 1)
    line = mutated(dice, lines[at]) if dice.random() < 0.8 else dice.randbytes(dice.choice([1, 30, 70_000]))
    return [*lines[:at], line, *lines[at + 1 :]], at


# ---- Processes


class Ended:
    """Result of a process: its status, its output and errors, and its peak of memory."""

    def __init__(self, status, out, err, memory):
        self.status, self.out, self.err, self.memory = status, out, err, memory


def limit():
    resource.setrlimit(resource.RLIMIT_AS, (SPACE, SPACE))
    resource.setrlimit(resource.RLIMIT_CORE, (0, 0))


def begin(words, source, out, err):
    return subprocess.Popen(words, stdin=source, stdout=out, stderr=err, preexec_fn=limit, start_new_session=True)


def finish(child, seconds):
    """Waits for a process at most this long. Returns its status, or None if it had to be killed, and its peak of memory."""
    handle = os.pidfd_open(child.pid)
    has_ended = bool(select.select([handle], [], [], max(0, seconds))[0])
    os.close(handle)
    if not has_ended:
        # A wrong program may be a script with children in its session.
        os.killpg(child.pid, signal.SIGKILL)
    _process, status, usage = os.wait4(child.pid, 0)
    child.returncode = os.waitstatus_to_exitcode(status)
    return (child.returncode if has_ended else None), usage.ru_maxrss * 1_024


def feed(program, word, text, place):
    """Runs a program that reads standard input."""
    paths = [os.path.join(place, name) for name in ("in", "out", "err")]
    with open(paths[0], "wb") as file:
        file.write(text)
    with open(paths[0], "rb") as source, open(paths[1], "w+b") as out, open(paths[2], "w+b") as err:
        status, memory = finish(begin([program, word], source, out, err), SECONDS)
        out.seek(0)
        err.seek(0)
        return Ended(status, out.read(), err.read().decode(errors="replace"), memory)


def converse(link, stream, dice, until):
    """Writes a stream in pieces and reads the answers until the other end closes the link. Returns the answers."""
    link.setblocking(False)
    heard, at, is_writing = [], 0, True
    while time.monotonic() < until:
        readable, writable, _ = select.select([link], [link] if is_writing else [], [], 1)
        if readable:
            try:
                piece = link.recv(65_536)
            except ConnectionResetError:
                piece = b""
            if not piece:
                return b"".join(heard)
            heard.append(piece)
        if writable:
            size = dice.choice([1, 7, 4_096, 100_000, 100_000])
            try:
                at += link.send(stream[at : at + size])
            except (BrokenPipeError, ConnectionResetError):
                is_writing = False
            if is_writing and at == len(stream):
                is_writing = False
                link.shutdown(socket.SHUT_WR)
    return b"".join(heard)


def serve(program, stream, lanes, steps, dice, place):
    """Runs a broker, as its kernel."""
    path, errors = os.path.join(place, "broker.sock"), os.path.join(place, "err")
    until = time.monotonic() + SECONDS
    with socket.socket(socket.AF_UNIX) as listener, open(errors, "w+b") as err:
        listener.bind(path)
        listener.listen(1)
        words = [program, "broker", "--socket", path, "--lanes", str(lanes), "--shards", "1", "--limit", str(steps)]
        child = begin(words, subprocess.DEVNULL, subprocess.DEVNULL, err)
        heard = b""
        if select.select([listener], [], [], 10)[0]:
            link, _address = listener.accept()
            with link, contextlib.suppress(BrokenPipeError, OSError):
                heard = converse(link, stream, dice, until)
        status, memory = finish(child, until - time.monotonic())
        os.unlink(path)
        err.seek(0)
        return Ended(status, heard, err.read().decode(errors="replace"), memory)


# ---- Checks


class Fuzz:
    """Cases of one seed for one program, with the faults that were found."""

    def __init__(self, seed, program, place):
        self.seed, self.program, self.place = seed, program, place
        self.number = 0
        self.wrong = []
        self.given = self.taken = 0
        self.cases, self.faults, self.memory = {}, {}, {}

    def fail(self, what):
        self.wrong.append(f"case {self.number}: {what}")
        print(f"Wrong: {self.wrong[-1]}", flush=True)

    def note(self, who, ended, given, taken):
        self.cases[who] = self.cases.get(who, 0) + 1
        self.given += given
        self.taken += taken
        self.memory[who] = max(self.memory.get(who, 0), ended.memory)
        if ended.memory > ROOM:
            self.fail(f"{who} took too much memory: {ended.memory >> 20} MiB")

    def expect(self, who, ended, fault):
        """Checks the documented status and error text, and returns whether they are right."""
        wanted = (1, f"wlb: {fault}\n") if fault else (0, "")
        if (ended.status, ended.err) == wanted:
            return True
        if ended.status is None:
            self.fail(f"{who} did not end in time")
        else:
            self.fail(f"{who} ended with status {ended.status} and {ended.err.strip()[:200]!r}, not with {wanted}")
        return False

    def desk(self, stream, worth):
        ended = feed(self.program, "desk", stream, self.place)
        self.note("desk", ended, len(stream), worth.end)
        if self.expect("desk", ended, worth.fault) and worth.fault and worth.end:
            alone = feed(self.program, "desk", stream[: worth.end], self.place)
            self.note("desk", alone, worth.end, worth.end)
            if self.expect("desk", alone, None) and alone.out != ended.out:
                self.fail("desk answers the frames before the fault otherwise than without the fault")
        return ended

    def broker(self, stream, worth, desk, dice):
        steps, lanes = dice.choice([1, 16, 1_000, 65_536]), dice.choice([1, 1, 2, 16])
        is_spent = len(worth.events) > steps
        ended = serve(self.program, stream, lanes, steps, dice, self.place)
        taken = worth.events[steps - 1] if is_spent else worth.end
        self.note("broker", ended, len(stream), taken)
        if not self.expect(f"broker of {lanes} lanes", ended, None if is_spent else worth.fault):
            return
        if lanes == 1:
            wanted = feed(self.program, "desk", stream[:taken], self.place).out if is_spent else desk.out
            if ended.out != wanted:
                self.fail(f"broker of one lane answers otherwise than the desk (steps used up: {is_spent})")
        else:
            self.check_answers(ended.out)

    def check_answers(self, out):
        try:
            if any(kind != ADDRESSED for kind, _begin, _end in frames_of(out)):
                self.fail("broker writes frames that are not for tabs")
        except Fault as fault:
            self.fail(f"broker writes bytes that are no frames: {fault}")

    def streams(self, dice):
        stream = stream_of(dice)
        worth = Worth(stream)
        self.faults[worth.fault] = self.faults.get(worth.fault, 0) + 1
        desk = self.desk(stream, worth)
        self.broker(stream, worth, desk, dice)

    def scripts(self, dice):
        lines, at = script_of(dice)
        text = b"\n".join(lines)
        ended = feed(self.program, "sim", text, self.place)
        lines = text.split(b"\n")
        line = len(lines)
        if ended.status == 1 and ended.err.startswith("wlb: line ") and ended.err[10:].strip().isdigit():
            line = int(ended.err[10:])
            if at is None or not at < line <= len(lines):
                self.fail(f"sim refuses line {line}, but the mutated line is {'none' if at is None else at + 1}")
        elif ended.status != 0 or ended.err:
            self.expect("sim", ended, None)
        good = b"".join(one + b"\n" for one in lines[: line - 1])
        self.note("sim", ended, len(text), len(good) if ended.status else len(text))
        self.faults["line" if ended.status else None] = self.faults.get("line" if ended.status else None, 0) + 1
        if ended.status == 1:
            alone = feed(self.program, "sim", good, self.place)
            self.note("sim", alone, len(good), len(good))
            if self.expect("sim", alone, None) and alone.out != ended.out:
                self.fail("sim answers the lines before the bad one otherwise than without it")

    def play(self):
        self.number += 1
        dice = random.Random(f"{self.seed} {self.number}")
        if dice.random() < 0.7:
            self.streams(dice)
        else:
            self.scripts(dice)


def fuzz(megabytes, seed, program):
    begun = time.monotonic()
    with tempfile.TemporaryDirectory(prefix="wlb-") as place:
        run = Fuzz(seed, program, place)
        while run.taken < megabytes * 1_000_000 and len(run.wrong) < 20:
            run.play()
    taken = time.monotonic() - begun
    print(f"seed {seed}: {run.number} cases in {taken:.0f} s, {run.given / 1e6:.1f} MB given, {run.taken / 1e6:.1f} MB accepted")
    print("runs: " + ", ".join(f"{who} {count}" for who, count in sorted(run.cases.items())))
    print("cases by fault: " + ", ".join(f"{fault or 'none'} {count}" for fault, count in sorted(run.faults.items(), key=str)))
    print("peak of memory: " + ", ".join(f"{who} {memory >> 10} KiB" for who, memory in sorted(run.memory.items())))
    print(f"{len(run.wrong)} faults")
    return 1 if run.wrong else 0


# Wrong programs, each with its script and a part of the message that it has to cause.
WRONG = {
    "a program that crashes": ("kill -SEGV $$", "status -11"),
    "a program that hangs": ("exec sleep 1000", "in time"),
    "a program that ends with another status": ('{program} "$@"; exit 2', "status 2"),
    "a program that loses an answer": ('[ "$1" = desk ] || exec {program} "$@"; {program} "$@" | head -c -19', "otherwise than"),
    "a program that takes too much memory": ("exec {python} -c 'print(len(str(1) * (300 << 20)))'", "too much memory"),
}


def show_wrong(seed, program):
    global SECONDS
    SECONDS = 3
    missed = 0
    for what, (text, said) in WRONG.items():
        with tempfile.TemporaryDirectory(prefix="wlb-") as place:
            path = os.path.join(place, "wrong")
            with open(path, "w", encoding="utf-8") as file:
                file.write("#!/bin/sh\n" + text.format(program=shlex.quote(program), python=shlex.quote(sys.executable)) + "\n")
            os.chmod(path, 0o700)
            run = Fuzz(seed, path, place)
            until = time.monotonic() + 20
            while not any(said in line for line in run.wrong) and time.monotonic() < until:
                run.play()
        is_seen = any(said in line for line in run.wrong)
        missed += not is_seen
        print(f"{what}: {'noticed' if is_seen else 'not noticed'}", flush=True)
    return 1 if missed else 0


def arguments():
    usage = "%(prog)s [-h] MEGABYTES SEED PROGRAM\n       %(prog)s [-h] --wrong SEED PROGRAM"
    parser = argparse.ArgumentParser(usage=usage, description=__doc__, formatter_class=argparse.RawDescriptionHelpFormatter)
    parser.add_argument("--wrong", action="store_true", help="give the cases to wrong programs")
    parser.add_argument("megabytes", metavar="MEGABYTES", nargs="?", type=argument_types.amount, help="megabytes of input that the programs have to accept")
    parser.add_argument("seed", metavar="SEED", help="the text from which the cases are drawn")
    parser.add_argument("program", metavar="PROGRAM", type=argument_types.program, help="the program `wlb`")
    given = parser.parse_args()
    if given.wrong == (given.megabytes is not None):
        parser.error("give either MEGABYTES or --wrong")
    return given


def main():
    # A signal that ends the tool also ends the processes that it has started.
    signal.signal(signal.SIGTERM, lambda *_: sys.exit(1))
    given = arguments()
    program = os.path.abspath(given.program)
    return show_wrong(given.seed, program) if given.wrong else fuzz(given.megabytes, given.seed, program)


if __name__ == "__main__":
    sys.exit(main())
