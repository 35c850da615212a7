"""Runs `wlb` as processes under load, and kills brokers and tabs at random moments.

Kernels run one after another until the MINUTES are over, each for some twenty seconds, with lanes, shards and `--limit` drawn
from SEED. In each, three origins have tabs that count. Each round of such a tab requests a lock of its origin, waits for it,
adds one to the number in the lock's file, and releases the lock. Other tabs request, probe, hold and wait, and never count.
SIGKILL ends each of these at a random moment, possibly while it starts. It ends the broker again and again, too, at times while
tabs still report to it. Now and then the kernel's script stops the broker and starts it.

Most tabs are the program. The others are witnesses: tabs in Python that speak the socket protocol. A witness writes each entry
and each exit of a lock's section into a file, and counts or is killed.

The status is 1 if there is a fault:

- The number in a file is not the number of additions, or a tab that counts did not end with status 0.
- By the files of the witnesses, two tabs were in one section at once, and not both in shared mode. A killed tab is in its
  section until the moment of the kill.
- A killed tab has another status than 137, or the kernel reports the end of a tab twice or never.
- The kernel's status is not 0, it prints an unexpected line, anything is written to standard error, or the kernel does not end
  in time.
- A socket or a process is left.

The tool prints a line for each kernel: brokers and tabs killed, generations, and locks granted a second, counted and witnessed.
SEED determines scripts and draws. The interleaving and the moments of the kills also depend on the machine.

`--wrong` plays one kernel with tabs that break the rules, to show that the checks notice. Tabs that are `hasty` do not request
their locks. Witnesses that are `forgetful` do not report their locks to the next broker. Then the status is 0 if the expected
checks failed.

The kernel starts a small script in place of the program. It notes the number of each child, becomes a witness for a file
`*.witness`, and the program otherwise. All files lie in a temporary directory. The tool needs `/proc` and Linux's process
descriptors.
"""

import argparse
import collections
import contextlib
import json
import os
import random
import re
import select
import shlex
import signal
import socket
import stat
import struct
import subprocess
import sys
import tempfile
import time

# The wrapper starts this file by `python -I`, which leaves the file's folder out.
sys.path.insert(0, os.path.dirname(os.path.abspath(__file__)))
import argument_types

# Seconds of a run: its usual length, the time without a granted lock after which it counts as hanging, and the limit.
TARGET = 20
PATIENCE = 60
LONGEST = 300
ORIGINS = 3
# Tabs of an origin that count: tabs of the program, and witnesses.
COUNTING, WITNESSES = 2, 2
LOCKS = ["f", "g"]
LIMITS = [256, 1_024, 8_192, 65_536]
# Mean seconds between kills of brokers, and of a tab's life.
BROKER_LIFE = 0.2
TAB_LIFE = 0.12
FIRST_ROUNDS = 500
# Rounds of a tab that is killed: more than it has time for.
CHURNS = 10_000
WITNESS = ".witness"
# Like the program's tabs: milliseconds without an answer before a tab resends, and the limit of resends.
QUIET = 20
RESENDS = 3_000

# ---- Tab that speaks the socket protocol

SHARED, EXCLUSIVE = 1, 2
MODES = {"shared": SHARED, "exclusive": EXCLUSIVE}
HELD, WAITING = 1, 2
HELLO, ANSWER, WELCOME = 16, 17, 20
GRANTED, GONE = 2, 3


def frame(body):
    return struct.pack(">I", len(body)) + body


def request(mode, name):
    """Returns the operation that requests a lock and waits for it."""
    return bytes([1, mode, 0, len(name)]) + name


def release(number):
    return b"\x02" + struct.pack(">I", number)


def command(generation, number, operation):
    return frame(b"\x01\x01" + struct.pack(">II", generation, number) + operation)


def report(generation, base, entries, is_pair):
    """Returns the report of a tab with at most 64 locks. A tab opened by `open2` sends it as part 0 of 1."""
    states = {True: HELD, False: WAITING}
    rows = b"".join(struct.pack(">IBBB", number, states[held], mode, len(name)) + name for number, held, mode, name in entries)
    parts = struct.pack(">HH", 0, 1) if is_pair else b""
    head = b"\x02\x02" if is_pair else b"\x01\x02"
    return frame(head + struct.pack(">II", generation, base) + parts + struct.pack(">H", len(entries)) + rows)


class Lock:
    """A lock that a tab has requested, and holds if `is_held`."""

    def __init__(self, mode, name):
        self.mode, self.name, self.is_held = mode, name, False


class Page:
    """Tab's end of its link, with its commands and locks."""

    def __init__(self, path, is_forgetful=False):
        self.link = socket.socket(socket.AF_UNIX)
        self.link.connect(path)
        self.bytes = b""
        self.is_forgetful = is_forgetful
        self.number, self.is_pair = None, False
        self.generation, self.has_heard = 0, False
        # Number of commands issued, and of commands that the broker has taken; unacknowledged commands, and locks, by number.
        self.issued, self.upto, self.sent, self.locks = 0, 0, {}, {}
        while self.number is None:
            self.read(1_000)

    def read(self, milliseconds):
        """Reads once, within this time, and takes each whole frame. Returns whether any byte came."""
        if not select.select([self.link], [], [], milliseconds / 1_000)[0]:
            return False
        piece = self.link.recv(65_536)
        if not piece:
            raise ConnectionError("the kernel's link has ended")
        self.bytes += piece
        while len(self.bytes) >= 4:
            end = 4 + struct.unpack_from(">I", self.bytes)[0]
            if len(self.bytes) < end:
                break
            body, self.bytes = self.bytes[4:end], self.bytes[end:]
            self.take(body)
        return True

    def take(self, body):
        version, kind = body[0], body[1]
        if kind == WELCOME:
            self.number, self.is_pair = struct.unpack_from(">H", body, 2)[0], version == 2
        elif kind == HELLO:
            generation = struct.unpack_from(">I", body, 2)[0]
            if generation > self.generation:
                self.enter(generation)
        elif kind == ANSWER:
            generation, upto, number, what = struct.unpack_from(">IIIB", body, 2)
            if generation == self.generation:
                self.hear(upto, number, what)

    def hear(self, upto, number, what):
        self.has_heard = True
        self.upto = max(self.upto, upto)
        self.sent = {place: operation for place, operation in self.sent.items() if place >= self.upto}
        lock = self.locks.get(number)
        if lock and what == GRANTED:
            lock.is_held = True
        elif lock and what == GONE:
            del self.locks[number]

    def enter(self, generation):
        """Enters a generation with a report. In the first one of the tab's life, all its commands follow."""
        is_first = self.generation == 0
        self.generation, self.has_heard = generation, False
        if not is_first:
            self.upto, self.sent = self.issued, {}
        self.link.sendall(self.own_report() + b"".join(command(generation, *sent) for sent in self.sent.items()))

    def own_report(self):
        told = [(number, lock) for number, lock in sorted(self.locks.items()) if number < self.upto]
        if self.is_forgetful:
            told = [(number, lock) for number, lock in told if not lock.is_held]
        entries = [(number, lock.is_held, lock.mode, lock.name) for number, lock in told]
        return report(self.generation, self.upto, entries, self.is_pair)

    def issue(self, operation):
        number = self.issued
        self.issued += 1
        self.sent[number] = operation
        if self.generation:
            self.link.sendall(command(self.generation, number, operation))
        return number

    def ask(self, mode, name):
        lock = Lock(mode, name)
        number = self.issue(request(mode, name))
        self.locks[number] = lock
        return number

    def resend(self):
        """Sends again whatever the broker may lack."""
        if not self.generation:
            return
        asked = {number: request(lock.mode, lock.name) for number, lock in self.locks.items() if not lock.is_held}
        due = sorted({**self.sent, **asked}.items())
        said = b"" if self.has_heard else self.own_report()
        self.link.sendall(said + b"".join(command(self.generation, *one) for one in due))

    def wait(self, number):
        for _turn in range(RESENDS):
            while not self.locks[number].is_held:
                if not self.read(QUIET):
                    break
            if self.locks[number].is_held:
                return
            self.resend()
        raise TimeoutError("the lock was not granted")

    def rest(self, seconds):
        """Keeps reading for this time, so that the tab reports to a new broker."""
        until = time.monotonic() + seconds
        while (left := until - time.monotonic()) > 0:
            self.read(1_000 * left)

    def release(self, number):
        del self.locks[number]
        self.issue(release(number))

    def close(self):
        """Closes the link once all bytes are read. The kernel would take unread bytes as a fault."""
        self.link.shutdown(socket.SHUT_RDWR)
        with contextlib.suppress(ConnectionError):
            while self.link.recv(65_536):
                pass
        self.link.close()


def add_one(path):
    """Adds one to the number in a file. It overwrites the number, like the program's tabs, so the file always has one."""
    with open(path, "r+b", buffering=0) as file:
        count = int(file.read(16)) + 1
        file.seek(0)
        file.write(b"%d\n" % count)


def note(log, what, tab, mode):
    os.write(log, f"{what} {tab} {mode} {time.monotonic_ns()}\n".encode())


def be_witness(path, script, is_hasty, is_forgetful):
    """Plays the rounds of a witness's file."""
    with open(script, encoding="utf-8") as file:
        wish = json.load(file)
    dice = random.Random(f"{wish['seed']} {path}")
    page = Page(path, is_forgetful)
    logs = [os.open(log, os.O_WRONLY | os.O_APPEND) for log in wish["logs"]]
    for turn in range(wish["rounds"]):
        place = turn % len(logs)
        if not is_hasty:
            number = page.ask(MODES[wish["mode"]], LOCKS[place].encode())
            page.wait(number)
        note(logs[place], "in", page.number, wish["mode"])
        if wish["counters"]:
            add_one(wish["counters"][place])
        if wish["hold"]:
            # A forgetful witness holds its lock until it is killed.
            page.rest(10 if is_forgetful else dice.random() ** 3 * wish["hold"])
        note(logs[place], "out", page.number, wish["mode"])
        if not is_hasty:
            page.release(number)
    page.close()


# ---- Processes


def fields_of(process):
    """Returns the fields of a process behind its name (state, parent, group, session ..), or None if there is no such process."""
    try:
        with open(f"/proc/{process}/stat", encoding="utf-8", errors="replace") as file:
            return file.read().rpartition(")")[2].split()
    except (FileNotFoundError, ProcessLookupError):
        return None


def members(session):
    """Returns the processes of a session."""
    found = []
    for name in os.listdir("/proc"):
        if name.isdigit():
            fields = fields_of(name)
            if fields and int(fields[3]) == session:
                found.append(int(name))
    return found


def words_of(process):
    try:
        with open(f"/proc/{process}/cmdline", encoding="utf-8", errors="replace") as file:
            return file.read().split("\0")[:-1]
    except (FileNotFoundError, ProcessLookupError):
        return []


def end(kernel):
    """Kills the leader of a session, and then each process that is left in the session."""
    kernel.kill()
    for child in members(kernel.pid):
        with contextlib.suppress(ProcessLookupError):
            os.kill(child, signal.SIGKILL)
    kernel.wait()


def left_over(session):
    """Returns the processes of a session that still run a little after the end of its leader."""
    for _turn in range(100):
        if not members(session):
            return []
        time.sleep(0.02)
    return members(session)


class Child:
    """Broker or tab that the wrapper noted. A process descriptor holds it, so that no other process can take its number."""

    def __init__(self, process, kind, path, script):
        self.process, self.kind, self.path, self.script = process, kind, path, script
        self.number = int(re.search(r"(\d+)\.sock$", path)[1])
        self.has_ended = False
        self.handle = None
        with contextlib.suppress(ProcessLookupError):
            self.handle = os.pidfd_open(process)
        words = words_of(process)
        # A process that becomes another program has no command line for a moment.
        while self.runs() and not words:
            time.sleep(0.001)
            words = words_of(process)
        if path not in words:
            self.close()

    def close(self):
        if self.handle is not None:
            os.close(self.handle)
        self.handle = None

    def runs(self):
        return self.handle is not None and not select.select([self.handle], [], [], 0)[0]

    def kill(self):
        """Kills it. Returns the time in nanoseconds just before the signal, or None if it had ended."""
        moment = time.monotonic_ns()
        if not self.runs():
            return None
        try:
            signal.pidfd_send_signal(self.handle, signal.SIGKILL)
        except ProcessLookupError:
            return None
        return moment


WRAPPER = """#!/bin/sh
echo "$$ $1 $3 $4" >> {starts}
case "$1 $4" in
"tab "*{witness}) exec {python} -I {tool} {option} "$@" ;;
{hasty}
esac
exec {program} "$@" 2>> "ERR_$1_$$"
"""
# A tab of the program that only counts.
HASTY = '"tab "*) grep "^add" "$4" > "$4.$$"; exec {program} tab --socket "$3" "$4.$$" ;;'


def write_wrapper(stage, program, tool, ending, wrong=None):
    """Writes the script that the kernel starts in place of the program. It becomes `tool` for a tab's file with this ending."""
    path = os.path.join(stage, "wrapper")
    quoted = {"program": shlex.quote(program), "python": shlex.quote(sys.executable), "tool": shlex.quote(os.path.abspath(tool))}
    text = WRAPPER.format(
        starts=shlex.quote(os.path.join(stage, "STARTS")),
        witness=ending,
        option=f"--{wrong}" if wrong else "",
        hasty=HASTY.format(**quoted) if wrong == "hasty" else "",
        **quoted,
    )
    write(stage, "STARTS", "")
    write(stage, "wrapper", text)
    os.chmod(path, 0o700)
    return path


class Starts:
    """Children that the wrapper has noted."""

    def __init__(self, stage):
        self.file = open(os.path.join(stage, "STARTS"), encoding="utf-8")
        self.rest = ""

    def new(self):
        """Yields the children that the wrapper has noted since the last call."""
        *lines, self.rest = (self.rest + self.file.read()).split("\n")
        for line in lines:
            process, kind, path, script = (line.split(" ") + [""])[:4]
            yield Child(int(process), kind, path, script)


# ---- Scripts


def write(stage, name, text):
    with open(os.path.join(stage, name), "w", encoding="utf-8") as file:
        file.write(text)


def counting_script(rounds, counters):
    """Returns the script of a tab that counts. Requests have even numbers, because each release takes a number, too."""
    lines = []
    for turn in range(rounds):
        place = turn % len(LOCKS)
        lines.append(f"ask exclusive {LOCKS[place]}\nwait {2 * turn}\nadd {counters[place]}\nrelease {2 * turn}\n")
    return "".join(lines)


def victim_scripts(many):
    """Returns scripts of tabs that hold, wait, or request and release, and never count."""
    gate = "ask exclusive f\nwait 0\nask exclusive f\nwait 1\n"
    waiter = "ask shared g\nwait 0\nask exclusive f\nask exclusive g\nabort 1\nwait 2\n"
    churn = "".join(f"ask exclusive {LOCKS[turn % 2]}\nwait {2 * turn}\nrelease {2 * turn}\n" for turn in range(CHURNS))
    probes = "ask exclusive own\nwait 0\nask exclusive own\nprobe exclusive f\nwait 2\nprobe shared g\nwait 3\n"
    probes += "ask shared n\nabort 4\nwait 1\n"
    crowd = "".join(f"ask exclusive lock{number}\n" for number in range(many))
    crowd += f"ask shared f\nwait {many}\nask exclusive f\nwait {many + 1}\n"
    return {"gate": gate, "waiter": waiter, "churn": churn, "probes": probes, "crowd": crowd}


class Plan:
    """Scripts of one kernel."""

    def __init__(self, stage, dice, rounds, seconds):
        self.stage, self.dice, self.rounds = stage, dice, rounds
        self.limit = dice.choice(LIMITS)
        self.lanes = dice.choice([1, 2, 4, 16])
        self.shards = dice.choice([1, 1, 2, 16])
        self.counters = {}
        self.lines = []
        # The scripts whose tabs are to be killed.
        self.victims = set()
        self.prepare()
        self.open_counting()
        self.open_victims(seconds)
        write(stage, "KERNEL", "\n".join([*self.lines, "join"]) + "\n")

    def prepare(self):
        for origin in range(ORIGINS):
            for place in range(len(LOCKS)):
                write(self.stage, f"COUNTER{origin}{place}", "0\n")
                write(self.stage, f"LOG{origin}{place}", "")
            write(self.stage, f"COUNT{origin}", counting_script(self.rounds, self.files("COUNTER", origin)))
            self.write_witness(f"COUNT{origin}", origin, "exclusive", self.rounds, 0, True)
            for mode in MODES:
                self.victims.add(self.write_witness(f"{mode}{origin}", origin, mode, 1_000_000, 0.3, False))
        for name, text in victim_scripts(max(8, min(100, self.limit // 16))).items():
            write(self.stage, name, text)
            self.victims.add(name)

    def files(self, name, origin):
        return [f"{name}{origin}{place}" for place in range(len(LOCKS))]

    def write_witness(self, name, origin, mode, rounds, hold, is_counting):
        counters = self.files("COUNTER", origin) if is_counting else []
        wish = {"mode": mode, "rounds": rounds, "hold": hold, "counters": counters, "logs": self.files("LOG", origin)}
        write(self.stage, name + WITNESS, json.dumps({**wish, "seed": self.dice.random()}))
        return name + WITNESS

    def open(self, origin, script):
        """Adds a line that opens a tab by `open` or `open2`. Both give the same partition."""
        url = f"https://o{origin}.test/"
        top = f"open2 {url}" if script == "crowd" or self.dice.random() < 0.3 else "open"
        self.lines.append(f"{top} {url} {script}")

    def open_counting(self):
        self.lines.append("start")
        for origin in range(ORIGINS):
            for _tab in range(COUNTING):
                self.open(origin, f"COUNT{origin}")
            for _tab in range(WITNESSES):
                self.open(origin, f"COUNT{origin}{WITNESS}")
            # The locks take turns, beginning with the first.
            for place, file in enumerate(self.files("COUNTER", origin)):
                self.counters[file] = (COUNTING + WITNESSES) * len(range(place, self.rounds, len(LOCKS)))

    def open_victims(self, seconds):
        kinds = sorted(name for name in self.victims if not name.endswith(WITNESS))
        left = seconds
        while left > 0:
            origin = self.dice.randrange(ORIGINS)
            is_witness = self.dice.random() < 0.5
            kind = f"{self.dice.choice(list(MODES))}{origin}{WITNESS}" if is_witness else self.dice.choice(kinds)
            self.open(origin, kind)
            pause = self.dice.randrange(200)
            self.lines.append(f"pause {pause}")
            if self.dice.random() < 0.03:
                self.lines += ["stop", f"pause {self.dice.randrange(30)}", "start"]
            # Opening a tab takes time, too.
            left -= pause / 1_000 + 0.02


# ---- Run of a kernel


class Killing:
    """Kills of one run, due and done."""

    def __init__(self, plan, dice):
        self.plan, self.dice = plan, dice
        self.tabs, self.brokers = {}, []
        # The moments at which tabs were killed, and those at which others are due, by the tab's number.
        self.killed, self.due = {}, {}
        self.brokers_killed = 0
        self.generation = 0
        self.next_broker = time.monotonic() + dice.expovariate(1 / BROKER_LIFE)
        # The moment at which the last tab that counts ended.
        self.counted = None

    def meet(self, child):
        if child.kind == "broker":
            self.generation = max(self.generation, child.number)
            for old in self.brokers:
                old.close()
            self.brokers = [child]
            # One broker in four is killed at its start, or while tabs report to it.
            if self.dice.random() < 0.25:
                self.next_broker = min(self.next_broker, time.monotonic() + self.dice.random() * 0.01)
            return
        self.tabs[child.number] = child
        if os.path.basename(child.script) in self.plan.victims:
            wait = self.dice.random() * 0.01 if self.dice.random() < 0.2 else self.dice.expovariate(1 / TAB_LIFE)
            self.due[child.number] = time.monotonic() + wait

    def kill_due(self):
        now = time.monotonic()
        for number in [number for number, moment in self.due.items() if moment <= now]:
            del self.due[number]
            moment = self.tabs[number].kill()
            if moment is not None:
                self.killed[number] = moment
        if self.next_broker <= now:
            self.next_broker = now + self.dice.expovariate(1 / BROKER_LIFE)
            self.brokers_killed += sum(broker.kill() is not None for broker in self.brokers)

    def look(self):
        """Closes the descriptors of tabs that have ended, and notes the moment at which no tab counts any more."""
        counts = False
        for child in self.tabs.values():
            if not child.has_ended and not child.runs():
                child.has_ended = True
                child.close()
            counts = counts or (not child.has_ended and child.script not in self.plan.victims)
        if not counts and self.counted is None and len(self.tabs) >= ORIGINS * (COUNTING + WITNESSES):
            self.counted = time.monotonic()

    def close(self):
        for child in [*self.tabs.values(), *self.brokers]:
            child.close()


Outcome = collections.namedtuple("Outcome", "wrong killing locks seconds rounds_a_second")


def play(stage, plan, dice, kernel, seconds):
    """Kills until the kernel has ended or its time is up. Returns the kills, and whether the kernel has ended."""
    killing = Killing(plan, dice)
    starts = Starts(stage)
    begun = looked = time.monotonic()
    until, counted = begun + seconds + PATIENCE, 0
    with starts.file:
        while kernel.poll() is None and time.monotonic() < min(until, begun + LONGEST):
            for child in starts.new():
                killing.meet(child)
            killing.kill_due()
            killing.look()
            if time.monotonic() > looked + 1:
                looked, before, counted = time.monotonic(), counted, count_locks(stage, plan)
                until = max(until, looked + PATIENCE) if counted != before else until
            time.sleep(0.002)
        for child in starts.new():
            killing.meet(child)
    killing.close()
    return killing, kernel.poll() is not None


def run(stage, dice, program, rounds, seconds, wrong=None):
    """Runs one kernel. Returns its plan and its outcome."""
    plan = Plan(stage, dice, rounds, seconds)
    wrapper = write_wrapper(stage, program, __file__, WITNESS, wrong)
    counts = ["--lanes", str(plan.lanes), "--shards", str(plan.shards), "--limit", str(plan.limit)]
    words = [wrapper, "kernel", "--dir", ".", *counts, "KERNEL"]
    begin = time.monotonic()
    with open(os.path.join(stage, "OUT"), "wb") as out, open(os.path.join(stage, "ERR"), "wb") as err:
        kernel = subprocess.Popen(
            words, executable=program, cwd=stage, stdin=subprocess.DEVNULL, stdout=out, stderr=err, start_new_session=True
        )
        try:
            killing, has_ended = play(stage, plan, dice, kernel, seconds)
            left = left_over(kernel.pid) if has_ended else members(kernel.pid)
            found = [f"{process}: {' '.join(words_of(process)) or '(ended, not waited for)'}" for process in left]
        finally:
            end(kernel)
    taken = time.monotonic() - begin
    faults = check(stage, plan, killing, kernel.returncode if has_ended else None, found)
    counting = (killing.counted or time.monotonic()) - begin
    return plan, Outcome(faults, killing, count_locks(stage, plan), taken, rounds / counting)


# ---- Checks


def text_of(stage, name):
    with open(os.path.join(stage, name), encoding="utf-8", errors="replace") as file:
        return file.read()


def check(stage, plan, killing, status, left):
    wrong = []
    if status != 0:
        last = (text_of(stage, "OUT").splitlines() or ["nothing"])[-1]
        what = f"the kernel's status is {status}" if status is not None else "the kernel did not end in time"
        wrong.append(f"{what}; its last line is: {last}")
    wrong += check_output(text_of(stage, "OUT"), killing)
    wrong += check_counters(stage, plan)
    for origin in range(ORIGINS):
        for file in plan.files("LOG", origin):
            wrong += [f"{file}: {what}" for what in check_log(text_of(stage, file), killing.killed)]
    wrong += check_errors(stage)
    sockets = [name for name in os.listdir(stage) if stat.S_ISSOCK(os.lstat(os.path.join(stage, name)).st_mode)]
    wrong += [f"a socket is left: {name}" for name in sockets]
    wrong += [f"a process is left: {what}" for what in left]
    return wrong


def check_errors(stage):
    """Returns the lines on standard error. The kernel and each child have a file of their own for it."""
    lines = [(name, line) for name in os.listdir(stage) if name.startswith("ERR") for line in text_of(stage, name).splitlines()]
    return [f"{name}: {line}" for name, line in lines if line and not line.startswith("test result: ")][:10]


def check_counters(stage, plan):
    return [
        f"{file} has {text_of(stage, file).strip()} after {count} additions"
        for file, count in plan.counters.items()
        if text_of(stage, file) != f"{count}\n"
    ]


LINES = re.compile(r"up \d+|already up|stopped \d+|already down|opened \d+( https://o\d\.test){1,2}|test result: ok")


def check_output(text, killing):
    """Checks the kernel's output: the end of each tab once, with status 137 if it was killed, and else 0."""
    wrong, ends = [], {}
    for line in text.splitlines():
        ended = re.fullmatch(r"ended (\d+) (\d+)", line)
        if ended and int(ended[1]) not in ends:
            ends[int(ended[1])] = int(ended[2])
        elif line and not LINES.fullmatch(line):
            wrong.append(f"the kernel prints: {line}")
    if ends.keys() != killing.tabs.keys():
        wrong.append(f"not both opened and ended: tabs {sorted(ends.keys() ^ killing.tabs.keys())}")
    for tab, status in ends.items():
        wanted = 137 if tab in killing.killed else 0
        if status != wanted:
            script = killing.tabs[tab].script if tab in killing.tabs else "?"
            wrong.append(f"tab {tab} with {script} ended with status {status}, not {wanted}")
    return wrong


def check_log(text, killed):
    """Checks that the sections excluded each other. `killed` has the moments at which tabs were killed."""
    wrong, inside = [], {}
    for line in text.splitlines():
        what, tab, mode, moment = line.split(" ")
        tab, moment = int(tab), int(moment)
        if what == "out":
            if inside.pop(tab, None) is None:
                wrong.append(f"tab {tab} left a section that it was not in")
            continue
        for other, theirs in list(inside.items()):
            if "exclusive" in (mode, theirs):
                if killed.get(other, moment + 1) > moment:
                    wrong.append(f"tab {tab} entered ({mode}) while tab {other} was in ({theirs})")
                del inside[other]
        inside[tab] = mode
    wrong += [f"tab {tab} never left" for tab in inside if tab not in killed]
    return wrong[:5]


def count_locks(stage, plan):
    """Returns the number of granted locks, counted or witnessed."""
    counted = sum(int(re.match(r"\d*", text_of(stage, file))[0] or 0) for file in plan.counters)
    witnessed = sum(text_of(stage, file).count("in ") for origin in range(ORIGINS) for file in plan.files("LOG", origin))
    return counted + witnessed - ORIGINS * WITNESSES * plan.rounds


# ---- Command


def play_one(seed, number, program, rounds, seconds, wrong=None):
    dice = random.Random(f"{seed} {number}")
    with tempfile.TemporaryDirectory(prefix="wlb-") as stage:
        return run(stage, dice, program, rounds, seconds, wrong)


def tell(number, plan, outcome):
    killing = outcome.killing
    print(
        f"run {number}: limit {plan.limit}, lanes {plan.lanes}, shards {plan.shards}: {outcome.seconds:.1f} s, "
        f"killed {killing.brokers_killed} brokers and {len(killing.killed)} of {len(killing.tabs)} tabs, "
        f"{killing.generation} generations, {outcome.locks / outcome.seconds:.0f} locks a second",
        flush=True,
    )
    for what in outcome.wrong:
        print(f"Wrong: {what}", flush=True)


def soak(minutes, seed, program):
    begin = time.monotonic()
    rounds, number, wrong = FIRST_ROUNDS, 0, 0
    brokers = tabs = generations = locks = 0
    while (left := begin + 60 * minutes - time.monotonic()) > 2:
        seconds = min(TARGET, left - 1) if number else min(5, left - 1)
        number += 1
        plan, outcome = play_one(seed, number, program, rounds, seconds)
        tell(number, plan, outcome)
        wrong += len(outcome.wrong)
        brokers += outcome.killing.brokers_killed
        tabs += len(outcome.killing.killed)
        generations += outcome.killing.generation
        locks += outcome.locks
        rounds = max(20, min(100_000, int(outcome.rounds_a_second * TARGET * 0.9)))
    taken = time.monotonic() - begin
    print(f"seed {seed}, {number} kernels in {taken:.0f} s: killed {brokers} brokers and {tabs} tabs, {generations} generations")
    print(f"{locks} locks granted, {locks / taken:.0f} a second; {wrong} faults")
    return 1 if wrong or not number else 0


def verdict(is_seen):
    """Prints whether the checks noticed the broken rules, and returns the status for it."""
    print("the checks notice it" if is_seen else "the checks do not notice it")
    return 0 if is_seen else 1


def end_in_order():
    """Turns SIGTERM into an exit, so that the tool also ends the processes that it has started."""
    signal.signal(signal.SIGTERM, lambda *_: sys.exit(1))


def tab_words(words):
    """Returns the arguments `[--hasty | --forgetful] tab --socket PATH SCRIPT` if the wrapper gave them, and else None."""
    if "tab" not in words[:2]:
        return None
    parser = argparse.ArgumentParser()
    parser.add_argument("--hasty", action="store_true")
    parser.add_argument("--forgetful", action="store_true")
    parser.add_argument("word", choices=["tab"])
    parser.add_argument("--socket", required=True)
    parser.add_argument("script")
    return parser.parse_args(words)


def show_wrong(what, seed, program):
    """Plays wrong tabs. The files of the witnesses have to show it, and the counters, too, if the tabs are hasty."""
    plan, outcome = play_one(seed, what, program, 10_000, 8, what)
    tell(what, plan, outcome)
    has_overlap = any("entered" in line for line in outcome.wrong)
    has_lost = any(line.startswith("COUNTER") for line in outcome.wrong)
    return verdict(has_overlap and (has_lost or what != "hasty"))


def arguments():
    usage = "%(prog)s [-h] MINUTES SEED PROGRAM\n       %(prog)s [-h] --wrong {hasty,forgetful} SEED PROGRAM"
    parser = argparse.ArgumentParser(usage=usage, description=__doc__, formatter_class=argparse.RawDescriptionHelpFormatter)
    parser.add_argument("--wrong", choices=["hasty", "forgetful"], help="play one kernel with tabs that break the rules")
    parser.add_argument("minutes", metavar="MINUTES", nargs="?", type=argument_types.amount, help="minutes that the tool runs")
    parser.add_argument("seed", metavar="SEED", help="the text from which scripts and kills are drawn")
    parser.add_argument("program", metavar="PROGRAM", type=argument_types.program, help="the program `wlb`")
    given = parser.parse_args()
    if bool(given.wrong) == (given.minutes is not None):
        parser.error("give either MINUTES or --wrong")
    return given


def main():
    end_in_order()
    tab = tab_words(sys.argv[1:])
    if tab:
        be_witness(tab.socket, tab.script, tab.hasty, tab.forgetful)
        return 0
    given = arguments()
    program = os.path.abspath(given.program)
    return show_wrong(given.wrong, given.seed, program) if given.wrong else soak(given.minutes, given.seed, program)


if __name__ == "__main__":
    sys.exit(main())
