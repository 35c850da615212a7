"""Runs `wlb` as its users do, and compares output, standard error and status with the expected ones.

It covers `main`, the exit statuses and standard error, which no test of a crate can call:

- the desk on whole, cut and refused input;
- desk and sim with a peer that waits for each answer;
- a million fresh names through the desk;
- each example in `examples/` with the output beside it;
- refused scripts, failing devices, wrong command lines;
- with each allocation refused in turn, the desk on the first grant and the sim on a row (needs `cc`).

It prints each difference, and nothing if there is none.
"""

import concurrent.futures
import contextlib
import os
import pathlib
import struct
import subprocess
import tempfile
import threading

import packages
import refuse
from checks import SECONDS, Ended, bytes_of, differences, ends, main_of, same
from demo import FORMS, forms_of
from sim_tests.play import rows

TOP = pathlib.Path(__file__).resolve().parent.parent

START = "00000008 01 21 00000001 0000"
REPORT = "00000012 01 20 0001 0001 01 02 00000001 00000000 0000"
REQUEST = "00000015 01 20 0001 0001 01 01 00000001 00000000 01 02 00 01 61"
GRANT = "00000013 01 22 0001 01 11 00000001 00000001 00000000 02"
# A second tab requests the same lock and waits until the first one releases it.
SECOND = [it.replace("0001 0001", "0002 0001", 1) for it in (REPORT, REQUEST)]
WAITING = "00000013 01 22 0002 01 11 00000001 00000001 00000000 01"
RELEASE = "00000015 01 20 0001 0001 01 01 00000001 00000001 02 00000000"
HANDED_OVER = [
    "00000013 01 22 0001 01 11 00000001 00000002 00000001 04",
    "00000013 01 22 0002 01 11 00000001 00000001 00000000 02",
]
# Tab 1 is listed and dies before it reports. So the desk drops the first request of tab 2, grants it when it is sent again, and then
# answers a query.
LISTED_TAB = "0000000C 01 21 00000001 0001 0001 0001"
GREETING = "0000000A 01 22 0001 01 10 00000001"
DEATH = "00000004 01 23 0001"
SECOND_GRANT = "00000013 01 22 0002 01 11 00000001 00000001 00000000 02"
QUERY = "00000011 01 20 0002 0001 01 01 00000001 00000001 04"
SNAPSHOT = "0000001A 01 22 0002 01 12 00000001 00000001 0000 0001 0001 01 0002 02 01 61"

# The count of requests and releases, and the length of an answer in bytes.
TIMES = 1_000_000
ANSWER = 23

SIZE = ["--lanes", "1", "--shards", "1", "--limit", "8"]


def check_desk(program):
    first_grant, grant = bytes_of(START, REPORT, REQUEST), bytes_of(GRANT)
    handed_over = bytes_of(WAITING, *HANDED_OVER)
    for words in ([], ["desk"]):
        ends(f"first-grant {words}", Ended(program, words, first_grant), grant, [], 0)
    ends("two tabs", Ended(program, ["desk"], first_grant + bytes_of(*SECOND, RELEASE)), grant + handed_over, [], 0)
    ends("empty", Ended(program, ["desk"]), b"", ["wlb: Unexpected"], 1)
    ends("a second start", Ended(program, ["desk"], first_grant + bytes_of(START)), grant, ["wlb: Unexpected"], 1)
    newcomer = bytes_of(START, "0000001A 01 20 0001 0001 01 02 00000001 00000001 0001 00000000 01 02 01 61")
    ends("held-newcomer", Ended(program, ["desk"], newcomer), b"", [], 0)
    for count in range(1, len(first_grant)):
        stderr, status = ([], 0) if count in (12, 34) else (["wlb: Truncated"], 1)
        ends(f"cut after {count} bytes", Ended(program, ["desk"], first_grant[:count]), b"", stderr, status)
    for frame, fault in [
        ("00000000", "BadLength"),
        ("00000001", "BadLength"),
        ("00010001", "BadLength"),
        ("00000002 03 01", "BadVersion"),
        ("00000002 01 63", "BadKind"),
        ("00000002 01 01", "BadField"),
    ]:
        ends(f"the frame {frame}", Ended(program, ["desk"], bytes_of(frame)), b"", [f"wlb: {fault}"], 1)
    with open("/dev/full", "wb") as full:
        ended = Ended(program, ["desk"], first_grant, stdout=full)
    ends("a full device", ended, None, ["wlb: Write"], 3)
    ends("a device that can't be read", read_nothing(program, "desk"), b"", ["wlb: Read"], 3)


def check_at_once(program):
    """Desk and sim answer all that they have read before they read on, so a peer that waits for each answer gets it."""
    frames = [([START, REPORT, REQUEST], [GRANT]), (SECOND, [WAITING]), ([RELEASE], HANDED_OVER)]
    frames = [(bytes_of(*sent), bytes_of(*answer)) for sent, answer in frames]
    recovery = [(LISTED_TAB, GREETING), (SECOND[0], ""), (SECOND[1], ""), (DEATH, ""), (SECOND[1], SECOND_GRANT), (QUERY, SNAPSHOT)]
    recovery = [(bytes_of(sent), bytes_of(answer)) for sent, answer in recovery]
    lines = [(b"start -\n", b"up 1\n"), (b"stop\n", b"stopped 1\n"), (b"stop\n", b"already down\n")]
    for word, turns in [("desk", frames), ("desk", recovery), ("sim", lines)]:
        ran = subprocess.Popen([program, word], stdin=subprocess.PIPE, stdout=subprocess.PIPE, stderr=subprocess.PIPE)
        guard = threading.Timer(SECONDS, ran.kill)
        guard.start()
        with contextlib.suppress(BrokenPipeError):
            for number, (text, answer) in enumerate(turns):
                ran.stdin.write(text)
                ran.stdin.flush()
                same(f"{word}, turn {number}", "the answer", ran.stdout.read(len(answer)), answer)
            ran.stdin.close()
        left = (ran.stdout.read(), ran.stderr.read(), ran.wait())
        same(f"{word} by turns", "what is left, what is said of it, and the status", left, (b"", b"", 0))
        guard.cancel()


def requests_and_releases(name_of):
    """Yields a million requests and releases of one tab, by the thousand. `name_of` returns the name of each lock."""
    stamp, asked = bytes.fromhex("01 20 0001 0001 01 01 00000001"), bytes.fromhex("01 02 00 07")
    yield bytes_of(START, REPORT)
    for first in range(0, TIMES, 1000):
        frames = []
        for turn in range(first, first + 1000):
            number = struct.pack(">I", 2 * turn)
            frames += [b"\0\0\0\x1B", stamp, number, asked, name_of(turn)]
            frames += [b"\0\0\0\x15", stamp, struct.pack(">I", 2 * turn + 1), b"\x02", number]
        yield b"".join(frames)


def peak_of(program, name, pieces):
    """Returns the peak memory of the desk, in KiB, for requests and releases in these pieces, each of which it answers."""
    ran = subprocess.Popen([program, "desk"], stdin=subprocess.PIPE, stdout=subprocess.PIPE)
    guard = threading.Timer(SECONDS, ran.kill)
    guard.start()

    def write():
        with contextlib.suppress(BrokenPipeError), ran.stdin:
            for piece in pieces:
                ran.stdin.write(piece)

    writer = threading.Thread(target=write)
    writer.start()
    length, end = 0, b""
    while piece := ran.stdout.read(65536):
        length, end = length + len(piece), (end + piece)[-ANSWER:]
    writer.join()
    ran.stdout.close()
    _, status, usage = os.wait4(ran.pid, 0)
    ran.returncode = os.waitstatus_to_exitcode(status)
    guard.cancel()
    last = struct.pack(">II", 2 * TIMES, 2 * TIMES - 1)
    taken = bytes_of("00000013 01 22 0001 01 11 00000001") + last + b"\x04"
    found = (length, end, ran.returncode)
    same(name, "the answers' length, the last answer, and the status", found, (2 * TIMES * ANSWER, taken, 0))
    return usage.ru_maxrss


def check_forgetting(program):
    """A tab that asks for a million fresh names takes no more memory than one that asks for one name a million times."""
    one = peak_of(program, "one name", requests_and_releases(lambda turn: b"0000000"))
    fresh = peak_of(program, "fresh names", requests_and_releases(lambda turn: b"%07d" % turn))
    if fresh > one + 32 * 1024:
        differences.append(f"fresh names: they took {fresh} KiB, and one name {one} KiB")


def read_nothing(program, word):
    """Runs the program on a standard input whose reads fail: a directory."""
    directory = os.open("/", os.O_RDONLY)
    try:
        return Ended(program, [word], directory)
    finally:
        os.close(directory)


def check_sim(program):
    for script in sorted((TOP / "examples").glob("*.sim")):
        ended = Ended(program, ["sim"], script.read_bytes())
        ends(script.name, ended, script.with_suffix(".out").read_bytes(), [], 0)
    for script, stdout, line in [
        ("start -\nstart  -\n", b"up 1\n", 2),
        ("# a comment\n\nopen 01 https://a.test/\n", b"", 3),
        ("stop\r\n", b"", 1),
        ("stop\n" + "x" * 65_537, b"already down\n", 2),
    ]:
        ends(f"the script {script[:40]!r}", Ended(program, ["sim"], script.encode()), stdout, [f"wlb: line {line}"], 1)
    with open("/dev/full", "wb") as full:
        ended = Ended(program, ["sim"], b"stop\n", stdout=full)
    ends("a script on a full device", ended, None, ["wlb: Write"], 3)
    ends("a script that can't be read", read_nothing(program, "sim"), b"", ["wlb: Read"], 3)


def check_forms(program):
    """The program refuses each line of a demo's forms with one word more, and further lines that no form allows."""
    forms = [form.strip() for form in FORMS.replace("\n", "|").split("|") if form.strip()]
    longer = [f"{form} more" for form in forms]
    digits = "9" * 5_000
    for line in [*longer, "start 0", "start 1 -", "stop ", "Stop", "other", f"hello {digits}", f"abort 1 0{digits}", "deliver 1"]:
        ends(f"the line {line[:40]}", Ended(program, ["sim"], f"{line}\n".encode()), b"", ["wlb: line 1"], 1)
    for script in sorted((TOP / "examples").glob("*.sim")):
        for line in script.read_text(encoding="utf-8").splitlines():
            if line and not line.startswith("#"):
                same(script.name, f"whether a form begins as {line!r}", bool(forms_of(line.split(" ")[0])), True)


def check_words(program):
    for words in [
        ["other"],
        ["desk", "more"],
        ["kernel"],
        ["kernel", "--dir", ".", "--lanes", "0", *SIZE[2:], "KERNEL"],
        ["kernel", "--dir", ".", "--lanes", "17", *SIZE[2:], "KERNEL"],
        ["kernel", "--dir", ".", *SIZE[:4], "--limit", "65537", "KERNEL"],
        ["broker", "--socket", "nowhere", *SIZE[:2], "--shards", "17", "--limit", "8"],
        ["tab", "--socket", "nowhere"],
    ]:
        ended = Ended(program, words)
        same(words, "standard output", ended.stdout, b"")
        same(words, "the first word of standard error", ended.stderr.split(" ")[0], "error:")
        same(words, "the status", ended.status, 2)
    ended = Ended(program, ["--help"])
    same("help", "whether standard error has the usage", "Usage: wlb" in ended.stderr, True)
    same("help", "standard output", ended.stdout, b"")
    same("help", "the status", ended.status, 2)
    ends("bytes that are no text", Ended(program, [b"\xff"]), b"", ["wlb: an argument is not UTF-8"], 2)
    ends("a broker without a kernel", Ended(program, ["broker", "--socket", "nowhere/x", *SIZE]), b"", ["wlb: Device"], 3)
    ends("a tab without a kernel", Ended(program, ["tab", "--socket", "nowhere/x", "TAB"]), b"", ["wlb: Device"], 3)


def is_out_of_memory(ran, output):
    """Returns whether a run ended for want of memory, after a prefix of the output."""
    return ran.status == 3 and ran.said == "wlb: Memory" and output.startswith(ran.output)


def check_refused(program, library, words, stdin, output):
    """Runs the program with each of its allocations refused in turn. A run that does without one gives the whole output."""

    def run(number):
        return refuse.run([program, *words], library, number, stdin=stdin)

    whole = run(0)
    if (whole.status, whole.said, whole.output) != (0, "", output):
        differences.append(f"{words} with all memory: status {whole.status}, {whole.said!r}, {whole.output!r}")
        return
    with concurrent.futures.ThreadPoolExecutor(refuse.WORKERS) as pool:
        refused = list(pool.map(run, range(1, whole.count + 1)))
    for number, ran in enumerate(refused, 1):
        if not is_out_of_memory(ran, output) and (ran.status, ran.said, ran.output) != (0, "", output):
            differences.append(f"{words} without allocation {number}: status {ran.status}, {ran.said!r}, {ran.output!r}")
    if not any(is_out_of_memory(ran, output) for ran in refused):
        differences.append(f"{words}: it ran out of memory at none of {whole.count} allocations")


def check_refused_memory(program):
    if not packages.has("cc"):
        print(f"left out: the program with refused memory: {packages.lack('cc')}")
        return
    row = rows()["shared-then-exclusive"]
    with tempfile.TemporaryDirectory(prefix="refuse-") as place:
        library = refuse.build(place)
        check_refused(program, library, ["desk"], bytes_of(START, REPORT, REQUEST), bytes_of(GRANT))
        check_refused(program, library, ["sim"], row.script.encode(), row.output.encode())


if __name__ == "__main__":
    main_of(__doc__, check_desk, check_sim, check_at_once, check_forgetting, check_forms, check_words, check_refused_memory)
