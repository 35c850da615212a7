"""Runs `wlb` as processes with a hostile tab, beside two honest tabs of its origin and two of another origin.

An honest tab requests its origin's lock, waits for it, adds one to the number in a file, and releases the lock, 5,000 times.
The tool plays this three times without a hostile tab, and then once with each of the following. They speak the socket protocol
in Python and write as fast as they can.

    talker    commands in order and out of order, with operations on any number, and reports, of the current generation
    claimer   reports that claim the honest tabs' lock, and requests, releases and aborts of it
    poster    posts of 16,384 bytes; it never reads
    breaker   a hundred short-lived tabs: frames as above, then noise, a wrong length, or half a frame

The tool prints the rates of both origins, in locks a second and as a ratio to those without a hostile tab. The goal for the
other origin is a half. A missed goal is printed and is no fault, since no rate is promised. The hostile tab's own origin may
wait as long as that tab lives (docs/THREATS.md, "A compromised tab"). So the tool kills the hostile tab two seconds
after the end of the other origin, and then the tabs of its own origin have to end, too.

The status is 1 if there is a fault:

- an addition is lost;
- an honest tab or a kernel has another status than 0;
- a kernel does not end in time, or writes to standard error;
- a kernel or broker takes more than 256 MiB of memory;
- a process is left.

`--wrong` plays honest tabs that do not request their lock; then the status is 0 if the counters show it. SEED
determines the frames of the hostile tabs. All files lie in a temporary directory. The tool needs `/proc`.
"""

import argparse
import contextlib
import os
import random
import re
import select
import socket
import statistics
import struct
import subprocess
import sys
import tempfile
import time

# The wrapper starts this file by `python -I`, which leaves the file's folder out.
sys.path.insert(0, os.path.dirname(os.path.abspath(__file__)))
import argument_types
import fuzz
import soak

ROUNDS = 5_000
RUNS = 3
GOAL = 0.5
SECONDS = 40
# Seconds between the end of the other origin and the kill of the hostile tab.
MERCY = 2
ROOM = 256 << 20
BLOB = 60_000
ORIGINS = ["https://a.test/", "https://b.test/"]
KINDS = ["talker", "claimer", "poster", "breaker"]
BREAKERS = 100
ENDING = ".hostile"

# ---- Hostile tab


def talk(dice, generation):
    made = fuzz.Talk(dice)
    made.tabs, made.next, made.generation = [1], {1: 0}, generation
    frames, size = [soak.report(generation, 0, [], False)], 0
    while size < BLOB:
        body = (made.report(1) if dice.random() < 0.02 else made.command(1))[10:]
        frames.append(soak.frame(body))
        size += len(frames[-1])
    return b"".join(frames)


def claim(dice, generation):
    frames = [soak.report(generation, 5, [(number, number < 2, soak.EXCLUSIVE, b"f") for number in range(5)], False)]
    abort = b"\x03\0\0\0\0"
    for turn in range(BLOB // 20):
        operation = dice.choice([soak.request(dice.randrange(1, 3), b"f"), soak.release(dice.randrange(5 + turn)), abort])
        frames.append(soak.command(generation, 5 + turn, operation))
    return b"".join(frames)


def post(dice, generation):
    head = b"\x01\x03" + struct.pack(">I", dice.randrange(2**32)) + b"\x01n"
    return soak.frame(head + struct.pack(">H", 16_384) + dice.randbytes(16_384)) * 4


def flood(link, kind, dice, sent):
    """Writes until it is killed, and notes the number of written bytes in a file."""
    make = {"talker": talk, "claimer": claim, "poster": post}[kind]
    generation, seen, count = 0, b"", 0
    blob = make(dice, 1)
    while True:
        if kind != "poster" and select.select([link], [], [], 0)[0]:
            seen = seen[-9:] + link.recv(1 << 20)
            # A Hello is a frame of ten bytes.
            hellos = re.findall(rb"\0\0\0\x06\x01\x10(....)", seen, re.DOTALL)
            newest = max([int.from_bytes(one, "big") for one in hellos], default=0)
            if newest > generation:
                generation, blob = newest, make(dice, newest)
        link.sendall(blob)
        count += len(blob)
        os.pwrite(sent, b"%020d" % count, 0)


def break_off(link, dice):
    """Writes frames and then bytes that are no frame."""
    whole = dice.choice([talk, claim])(dice, 1)[: dice.randrange(2_000)]
    rest = dice.choice([dice.randbytes(3_000), b"\xff" * 4, b"\0\0\0\0", b"\0\0\x10\0\x01\x01", b""])
    with contextlib.suppress(BrokenPipeError, ConnectionResetError):
        link.sendall(whole + rest)
        if dice.random() < 0.5:
            time.sleep(dice.random() * 0.05)


def be_hostile(path, script):
    with open(script, encoding="utf-8") as file:
        kind, seed = file.read().split()
    dice = random.Random(f"{seed} {path}")
    with socket.socket(socket.AF_UNIX) as link:
        link.connect(path)
        if kind == "breaker":
            break_off(link, dice)
        else:
            with contextlib.suppress(BrokenPipeError, ConnectionResetError):
                flood(link, kind, dice, os.open("SENT", os.O_WRONLY))


# ---- Run of a kernel


def prepare(stage, kind, seed):
    script = ""
    for origin, url in enumerate(ORIGINS):
        soak.write(stage, f"COUNTER{origin}", "0\n")
        rounds = "".join(f"ask exclusive f\nwait {2 * turn}\nadd COUNTER{origin}\nrelease {2 * turn}\n" for turn in range(ROUNDS))
        soak.write(stage, f"HONEST{origin}", rounds)
        script += f"open {url} HONEST{origin}\n" * 2
    soak.write(stage, "SENT", "0")
    hostile = ""
    if kind:
        soak.write(stage, kind + ENDING, f"{kind} {seed}\n")
        hostile = f"open {ORIGINS[0]} {kind}{ENDING}\n"
    if kind == "breaker":
        soak.write(stage, "KERNEL", script + "pause 300\nstart\n" + (hostile + "pause 10\n") * BREAKERS + "join\n")
    else:
        soak.write(stage, "KERNEL", script + hostile + "pause 300\nstart\njoin\n")


def peak_of(process):
    """Returns the peak memory of a process in bytes."""
    try:
        return int(re.search(r"VmHWM:\s+(\d+)", soak.text_of("/proc", f"{process}/status"))[1]) << 10
    except (OSError, TypeError):
        return 0


class Watch:
    """Observations of one kernel's run."""

    def __init__(self, stage, kernel):
        self.stage, self.kernel = stage, kernel
        self.honest, self.hostile, self.broker = {0: [], 1: []}, [], None
        self.begun, self.ended = None, {}
        self.memory = {"kernel": 0, "broker": 0}
        self.generation = 0

    def meet(self, child):
        if child.kind == "broker":
            self.broker = child.process
            self.generation = child.number
            child.close()
        elif child.script.endswith(ENDING):
            self.hostile.append(child)
        else:
            self.honest[int(child.script[-1])].append(child)

    def look(self):
        now = time.monotonic()
        if self.begun is None and "up 1\n" in soak.text_of(self.stage, "OUT"):
            self.begun = now
        for origin, tabs in self.honest.items():
            if len(tabs) == 2 and origin not in self.ended and not any(tab.runs() for tab in tabs):
                self.ended[origin] = now
        self.memory["kernel"] = max(self.memory["kernel"], peak_of(self.kernel.pid))
        if self.broker:
            self.memory["broker"] = max(self.memory["broker"], peak_of(self.broker))

    def is_over(self):
        """Returns whether it is time to kill the hostile tab."""
        return 1 in self.ended and (0 in self.ended or time.monotonic() > self.ended[1] + MERCY)

    def rate(self, origin):
        if self.begun is None or origin not in self.ended:
            return 0
        return 2 * ROUNDS / (self.ended[origin] - self.begun)

    def close(self):
        for child in [*self.honest[0], *self.honest[1], *self.hostile]:
            child.close()


def watch(stage, kernel):
    """Watches until the kernel has ended or its time is up. Returns the observations, whether the own origin was blocked, and
    whether the kernel has ended."""
    seen, starts, until = Watch(stage, kernel), soak.Starts(stage), time.monotonic() + SECONDS
    blocked = False
    with starts.file:
        while kernel.poll() is None and time.monotonic() < until:
            for child in starts.new():
                seen.meet(child)
            seen.look()
            if seen.is_over() or time.monotonic() > until - SECONDS / 3:
                blocked = blocked or 0 not in seen.ended
                for child in seen.hostile:
                    child.kill()
            time.sleep(0.003)
    seen.look()
    seen.close()
    return seen, blocked, kernel.poll() is not None


def play(program, kind, seed, wrong=None):
    """Runs one kernel. Returns the observations, whether the own origin was blocked, the bytes sent, and the faults."""
    with tempfile.TemporaryDirectory(prefix="wlb-") as stage:
        prepare(stage, kind, seed)
        wrapper = soak.write_wrapper(stage, program, __file__, ENDING, wrong)
        words = [wrapper, "kernel", "--dir", ".", "--lanes", "2", "--shards", "1", "--limit", "65536", "KERNEL"]
        with open(os.path.join(stage, "OUT"), "wb") as out, open(os.path.join(stage, "ERR"), "wb") as err:
            kernel = subprocess.Popen(
                words, executable=program, cwd=stage, stdin=subprocess.DEVNULL, stdout=out, stderr=err, start_new_session=True
            )
            try:
                seen, blocked, has_ended = watch(stage, kernel)
                left = soak.left_over(kernel.pid) if has_ended else soak.members(kernel.pid)
                left = [f"{process}: {' '.join(soak.words_of(process))}" for process in left]
            finally:
                soak.end(kernel)
        return seen, blocked, int(soak.text_of(stage, "SENT")), check(stage, seen, kernel.returncode if has_ended else None, left)


def check(stage, seen, status, left):
    wrong = []
    if status != 0:
        wrong.append(f"the kernel's status is {status}" if status is not None else "the kernel did not end in time")
    said = soak.text_of(stage, "OUT")
    for tab in (1, 2, 3, 4):
        if f"ended {tab} 0\n" not in said:
            wrong.append(f"honest tab {tab} did not end with status 0")
    for origin in range(len(ORIGINS)):
        count = soak.text_of(stage, f"COUNTER{origin}").strip()
        if count != str(2 * ROUNDS):
            wrong.append(f"the counter of origin {origin} has {count} after {2 * ROUNDS} additions")
    wrong += [f"the {who} took {memory >> 20} MiB" for who, memory in seen.memory.items() if memory > ROOM]
    wrong += [f"a process is left: {what}" for what in left]
    own = soak.text_of(stage, "ERR").splitlines()
    return wrong + [f"on the kernel's standard error: {line}" for line in own[:3] if not line.startswith("test result: ")]


# ---- Command


def tell(kind, seen, blocked, sent, wrong, base):
    line = f"{kind or 'none':8}"
    for origin, what in ((0, "its origin"), (1, "the other")):
        ratio = f" ({seen.rate(origin) / base[origin]:.2f})" if base else ""
        line += f"  {what} {seen.rate(origin):6.0f} locks a second{ratio}"
    line += f"  {seen.generation} generations, kernel {seen.memory['kernel'] >> 10} KiB, broker {seen.memory['broker'] >> 10} KiB"
    if kind:
        line += f", {sent / 1e6:.0f} MB sent" if sent else f", {len(seen.hostile)} tabs"
        line += ", its origin ended only after the kill" if blocked else ""
        line += f"; goal {GOAL}: {'met' if seen.rate(1) >= GOAL * base[1] else 'missed'}"
    print(line, flush=True)
    for what in wrong:
        print(f"Wrong: {what}", flush=True)


def compare(seed, program):
    faults, rates = 0, {0: [], 1: []}
    for _run in range(RUNS):
        seen, blocked, sent, wrong = play(program, None, seed)
        tell(None, seen, blocked, sent, wrong, None)
        faults += len(wrong)
        for origin, some in rates.items():
            some.append(seen.rate(origin))
    base = {origin: statistics.median(some) or 1 for origin, some in rates.items()}
    for kind in KINDS:
        seen, blocked, sent, wrong = play(program, kind, seed)
        tell(kind, seen, blocked, sent, wrong, base)
        faults += len(wrong)
    print(f"{faults} faults")
    return 1 if faults else 0


def show_wrong(seed, program):
    *_rest, wrong = play(program, None, seed, "hasty")
    for what in wrong:
        print(f"Wrong: {what}")
    return soak.verdict(any(what.startswith("the counter") for what in wrong))


def main():
    soak.end_in_order()
    tab = soak.tab_words(sys.argv[1:])
    if tab:
        be_hostile(tab.socket, tab.script)
        return 0
    parser = argparse.ArgumentParser(description=__doc__, formatter_class=argparse.RawDescriptionHelpFormatter)
    parser.add_argument("--wrong", action="store_true", help="play honest tabs that do not request their lock")
    parser.add_argument("seed", metavar="SEED", help="the text from which the hostile tabs' frames are drawn")
    parser.add_argument("program", metavar="PROGRAM", type=argument_types.program, help="the program `wlb`")
    given = parser.parse_args()
    program = os.path.abspath(given.program)
    return show_wrong(given.seed, program) if given.wrong else compare(given.seed, program)


if __name__ == "__main__":
    sys.exit(main())
