"""Plays an example of `wlb` step by step.

A script of the sim, NAME.sim, is played line by line: each line behind `>`, and under it the sim's reply, up to the
first line that is refused. `docs/SCRIPTS.md` has the language. Any other example is a file of frames for `wlb desk`:
hexadecimal digits, with spaces, line ends, and comments from `#` on. The tool prints the frames that go in and those
that come out, each with its meaning. `docs/PROTOCOL.md` has the frames.

Without PROGRAM the tool has `rt try` compile a program, which proves nothing: for a script the sim alone, for frames
all of `wlb`.

Output to a terminal is coloured, unless the environment has NO_COLOR. The status is that of the program's last run.
"""

import argparse
import dataclasses
import os
import pathlib
import re
import shutil
import subprocess
import sys
import tempfile
import time

import argument_types
import rlibs

TOP = pathlib.Path(__file__).resolve().parent.parent

MODES = {1: "shared", 2: "exclusive"}
STANDINGS = {1: "held", 2: "waiting"}
OUTCOMES = {1: "waiting", 2: "granted", 3: "gone", 4: "taken"}

# The lines of a sim's script, as `docs/SCRIPTS.md` has them.
FORMS = """
open T URL | open2 T TOP URL | start | start - | start T .. | stop | hello T | kill T | tell T | ask T MODE NAME
probe T MODE NAME | query T | abort T K | release T K | resend T | deliver mN | channel T NAME | post T C DATA | read T C
close T C | corrupt T | forge T HEX | show
"""


# ---- The program


@dataclasses.dataclass
class Ended:
    """Result of one run of the program."""

    stdout: bytes
    stderr: str
    status: int


class Program:
    """The program `wlb`, as it was built."""

    def __init__(self, path):
        self.path = path

    def runs(self, word, inputs):
        """Runs `wlb WORD` on each input, and returns the results."""
        for given in inputs:
            ran = subprocess.run([self.path, word], input=given, capture_output=True, check=False)
            yield Ended(ran.stdout, ran.stderr.decode(), ran.returncode)


# The sim alone compiles in little more than half of the time of `wlb`. It has the output of `wlb sim`, and its statuses but for too
# many reads.
SIM, SIM_LIBRARIES = "sim_alone", ["wl_script", "wl_frames"]
SIM_MAIN = """//! Plays a script of the sim from standard input.

use std::process::ExitCode;
use wl_frames::device::{Sink, Source};
use wl_script::sim::{SimFault, sim_run};

fn main(rt: HostRuntime) -> ExitCode {
    let alloc = rt.alloc();
    let mut source = Source::new(rt.stdin());
    let mut sink = Sink::new(rt.stdout());
    match sim_run(alloc, &mut source, &mut sink) {
        Ok(()) => ExitCode::SUCCESS,
        Err(SimFault::Line(_)) => ExitCode::from(1),
        Err(_) => ExitCode::from(3),
    }
}
"""


def say(text, end="\n"):
    """Says something about the tool's own work, apart from its output."""
    print(text, end=end, file=sys.stderr, flush=True)


class Tried:
    """The program as `rt try` compiles it, once for all inputs, with nothing proved."""

    def runs(self, word, inputs):
        """Runs the program on each input, and returns the results."""
        argument_types.need_command("rt", "install the Rattle kit, or give a built program as PROGRAM")
        say("`rt try` compiles the program and proves nothing; `make verify` proves it.")
        start, results = time.monotonic(), None
        with tempfile.TemporaryDirectory(prefix="wlb-demo-") as place:
            room = pathlib.Path(place)
            cases = room / "cases"
            cases.mkdir()
            for number, given in enumerate(inputs):
                (cases / f"{number:06}").write_bytes(given)
            if word == "sim":
                results, said = tried(sim_folder(room), cases, [], len(inputs))
                if not results:
                    say(f"{said}The sim alone does not compile, so `rt try` compiles all of wlb.")
            if not results:
                results, said = tried(TOP / "crates" / "wlb", cases, ["--", word], len(inputs))
        if not results:
            sys.exit(f"{said}demo: `rt try` has not compiled and run crates/wlb")
        say(f"Compiled and run in {time.monotonic() - start:.0f} seconds.\n")
        return results


def tried(folder, cases, words, count):
    """Returns the results of a crate's program for all cases, or None, and what `rt try` says."""
    # Beside the compiled program `rt try` has an interpreter, which is slow. With one step it gives up at once.
    words = ["rt", "try", "--steps", "1", "--cases", cases, *words]
    ran = subprocess.Popen(words, cwd=folder, stdin=subprocess.DEVNULL, stdout=subprocess.PIPE, stderr=subprocess.PIPE)
    stdout, stderr = ended_with_clock(ran)
    said = stderr.decode(errors="replace")
    statuses = [int(status) for status in re.findall(r"^case=\d{6} run=ended status=(\d+) ", said, re.MULTILINE)]
    outputs = re.split(rb"^== \d{6}\n", stdout, flags=re.MULTILINE)[1:]
    if len(statuses) != count or len(outputs) != count:
        return None, said
    return [Ended(output, "", status) for output, status in zip(outputs, statuses)], said


def sim_folder(room):
    """Makes a repository with the crate of the sim alone and copies of the crates below it. Returns the crate's folder."""
    crates = {**rlibs.listed(), SIM: SIM_LIBRARIES}
    used = [*rlibs.own_below([SIM], crates), SIM]
    (room / "crates.txt").write_text("".join(f"{name}: {' '.join(crates[name])}\n" for name in used), encoding="utf-8")
    for name in used[:-1]:
        shutil.copytree(TOP / "crates" / name / "src", room / "crates" / name / "src")
    source = room / "crates" / SIM / "src"
    source.mkdir(parents=True)
    (source / "main.rt").write_text(SIM_MAIN, encoding="utf-8")
    return source.parent


def ended_with_clock(ran):
    """Returns the output of a process at its end. Meanwhile a terminal shows the seconds."""
    start = time.monotonic()
    while True:
        try:
            said = ran.communicate(timeout=1)
            break
        except subprocess.TimeoutExpired:
            if sys.stderr.isatty():
                say(f"\r{time.monotonic() - start:.0f} seconds", end="")
    if sys.stderr.isatty():
        say("\r\033[K", end="")
    return said


# ---- A script

COLORS = {"line": "1", "comment": "36", "drop": "31", "lock": "32"}
READING = """Behind > stands a line of the script, and under it the sim's reply.

  m5 1>b     message 5, from tab 1 (a renderer) to the broker (lock manager); k is the kernel between them
  1#0        command 0 of tab 1, or the lock that it requests
  hello 2    tells a tab that generation 2, the broker's second life, is up: the tab enters it and reports to it
  gen 2      belongs to generation 2
  base 3     in a report: the tab had issued 3 commands when it entered the generation; 0 in its first one
  upto 4     in an answer: the broker has taken the tab's commands below number 4
  taken      answers a release or an abort
  over       of a command: released, aborted, or ended otherwise; an answer to it is dropped

docs/SCRIPTS.md has the language.
"""


def is_coloured():
    return sys.stdout.isatty() and not os.environ.get("NO_COLOR") and os.environ.get("TERM") != "dumb"


def painted(text, kind):
    return f"\033[{COLORS[kind]}m{text}\033[0m" if text and kind and is_coloured() else text


def kind_of(reply, line):
    """Returns how a reply is coloured: a drop, a lock that is held, or neither."""
    if reply.startswith("dropped"):
        return "drop"
    is_held = line == "show" and reply != "nothing held"
    return "lock" if is_held or reply.startswith("granted") else None


def forms_of(verb):
    """Returns the forms of the lines that begin with this word."""
    forms = [form.strip() for form in FORMS.replace("\n", "|").split("|")]
    return [form for form in forms if form.split(" ")[0] == verb]


def expected_after(line):
    """Returns a sentence on the forms of lines with the first word of a refused line."""
    forms = forms_of(line.split(" ")[0])
    return f"Expected: {' or '.join(forms)}" if forms else "No line of a script begins with this word."


def tell_refused(number, line):
    """Prints a refused line, and what is expected."""
    print(f"Line {number} is refused. {expected_after(line)}")


def lines_of(script):
    """Returns the lines of a script. The text behind the last line feed is a line only if it is not empty."""
    lines = script.read_bytes().split(b"\n")
    return (lines if lines[-1] else lines[:-1]) or [b""]


def play(example, program):
    """Prints each line with what it adds to the output: the sim answers line by line, so the front of a script prints a front."""
    lines = lines_of(example)
    fronts = [b"\n".join(lines[:count]) for count in range(1, len(lines) + 1)]
    printed, done = b"", None
    for count, done in enumerate(program.runs("sim", fronts), 1):
        if count == 1:
            print(READING)
        line = lines[count - 1].decode(errors="replace")
        is_comment = not line or line.startswith("#")
        print(painted(line, "comment") if is_comment else painted(f"> {line}", "line"))
        for reply in done.stdout[len(printed) :].decode().splitlines():
            print(f"    {painted(reply, kind_of(reply, line))}")
        printed = done.stdout
        if done.status == 1:
            tell_refused(count, line)
        if done.status:
            break
    return done


# ---- Frames


class Body:
    """The fields of a body, from left to right."""

    def __init__(self, data):
        self.data = data

    def take(self, count):
        front, self.data = self.data[:count], self.data[count:]
        return front

    def number(self, count):
        return int.from_bytes(self.take(count), "big")

    def short_text(self):
        return repr(self.take(self.number(1)).decode())

    def long_text(self):
        return repr(self.take(self.number(2))).removeprefix("b")


def operation(body):
    kind = body.number(1)
    if kind == 1:
        mode, probe = MODES[body.number(1)], body.number(1) == 1
        return f"{'probe' if probe else 'request'} {mode} {body.short_text()}"
    if kind in (2, 3):
        return f"{'release' if kind == 2 else 'abort'} of #{body.number(4)}"
    return "query"


def report_entry(body):
    number, standing = body.number(4), STANDINGS[body.number(1)]
    return f"#{number} {standing} {MODES[body.number(1)]} {body.short_text()}"


def snapshot_entry(body):
    standing, tab = STANDINGS[body.number(1)], body.number(2)
    return f"{standing} by tab {tab} {MODES[body.number(1)]} {body.short_text()}"


def listed(body, entry):
    entries = [entry(body) for _ in range(body.number(2))]
    return ", ".join(entries) if entries else "none"


def meaning(body):
    version, kind = body.number(1), body.number(1)
    if (version, kind) == (2, 2):
        generation, base, part, parts = body.number(4), body.number(4), body.number(2), body.number(2)
        return f"Report: generation {generation}, base {base}, part {part} of {parts}, locks: {listed(body, report_entry)}"
    if (version, kind) == (2, 20):
        return f"Welcome: tab {body.number(2)} under {body.long_text()} of {body.long_text()}"
    if kind == 1:
        return f"Command: generation {body.number(4)}, #{body.number(4)}: {operation(body)}"
    if kind == 2:
        return f"Report: generation {body.number(4)}, base {body.number(4)}, locks: {listed(body, report_entry)}"
    if kind == 3:
        return f"Post: #{body.number(4)} on {body.short_text()}: {body.long_text()}"
    if kind == 16:
        return f"Hello: generation {body.number(4)}"
    if kind == 17:
        generation, upto, number = body.number(4), body.number(4), body.number(4)
        return f"Answer: generation {generation}, #{number} {OUTCOMES[body.number(1)]}, {upto} commands taken"
    if kind == 18:
        generation, number, part, parts = body.number(4), body.number(4), body.number(2), body.number(2)
        return f"Snapshot: generation {generation}, #{number}, part {part} of {parts}: {listed(body, snapshot_entry)}"
    if kind == 19:
        return f"Heard: from tab {body.number(2)}, #{body.number(4)} on {body.short_text()}: {body.long_text()}"
    if kind == 20:
        return f"Welcome: tab {body.number(2)} of {body.long_text()}"
    if kind == 32:
        return f"from tab {body.number(2)} of partition {body.number(2)}: {meaning(body)}"
    if kind == 33:
        generation = body.number(4)
        places = listed(body, lambda rest: f"tab {rest.number(2)} of partition {rest.number(2)}")
        return f"Start: generation {generation}, listed: {places}"
    if kind == 34:
        return f"to tab {body.number(2)}: {meaning(body)}"
    if kind == 35:
        return f"Dead: tab {body.number(2)}"
    return "?"


def frames(stream):
    while stream:
        length = int.from_bytes(stream[:4], "big")
        yield stream[: 4 + length]
        stream = stream[4 + length :]


def show(title, stream):
    print(title)
    for frame in frames(stream):
        print(f"  {frame.hex().upper()}")
        print(f"    {meaning(Body(frame[4:]))}")


def bytes_of(example):
    """Returns the bytes of a file of hexadecimal digits."""
    try:
        lines = example.read_text(encoding="utf-8").splitlines()
    except UnicodeDecodeError:
        sys.exit(f"demo: {example} is not UTF-8: expected a script NAME.sim, or hexadecimal digits with comments from # on")
    digits = ""
    for number, line in enumerate(lines, 1):
        found = re.sub(r"\s", "", line.split("#")[0])
        if re.search(r"[^0-9A-Fa-f]", found):
            sys.exit(f"demo: {example}, line {number}: expected hexadecimal digits, spaces, and a comment from # on")
        digits += found
    if len(digits) % 2:
        sys.exit(f"demo: {example}: expected an even number of hexadecimal digits")
    return bytes.fromhex(digits)


def converse(example, program):
    given = bytes_of(example)
    [done] = program.runs("desk", [given])
    show("In:", given)
    show("Out:", done.stdout)
    return done


def main():
    parser = argparse.ArgumentParser(description=__doc__, formatter_class=argparse.RawDescriptionHelpFormatter)
    parser.add_argument("example", metavar="EXAMPLE", type=argument_types.file, help="a script NAME.sim, or a file of frames")
    parser.add_argument("program", metavar="PROGRAM", type=argument_types.program, nargs="?", help="the program `wlb`")
    given = parser.parse_args()
    program = Program(given.program) if given.program else Tried()
    if given.program:
        print(f"The program is {given.program}.")
    done = (play if given.example.suffix == ".sim" else converse)(given.example, program)
    if done.stderr:
        print(done.stderr, end="")
    print(f"status {done.status}")
    return done.status


if __name__ == "__main__":
    try:
        sys.exit(main())
    except KeyboardInterrupt:
        sys.exit(130)
    except BrokenPipeError:
        # The reader of the output has ended, as `head` does.
        os.dup2(os.open(os.devnull, os.O_WRONLY), sys.stdout.fileno())
        sys.exit(141)
