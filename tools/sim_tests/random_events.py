"""Random events in one world of the sim: a sample of longer histories than the rows have.

After each event no two held locks conflict, as a person would look for it. In a second run some tabs are taken over and forge
frames, and no two locks of the other tabs conflict.
"""

import random
import re
import struct
import subprocess
import threading

from checks import SECONDS, differences, same

STEPS = 2_500
SEED = 20_261_124
# Limit of the command numbers that a run names.
NUMBERS = 12
MODES = ["shared", "exclusive"]
# A line that changes nothing, and its reply, which no other line of a run has. It ends the replies of a turn.
LAST_LINE, LAST_REPLY = "deliver m0", "no message"
LOCK = re.compile(r"(\d+)#(\d+) (shared|exclusive) (.*)")
SENT = re.compile(r"(?:again )?m(\d+)\b")


def is_hostile(tab):
    """Returns whether a tab is taken over in the second run."""
    return tab % 5 == 0


def conflict(one, other):
    """Returns whether two locks conflict: each has a tab, a number, a mode and a name."""
    return one[0] % 2 == other[0] % 2 and one[3] == other[3] and not one[2] == other[2] == "shared"


class World:
    """Sim that is asked line by line, with what is known of it."""

    def __init__(self, program, has_hostile):
        pipes = {"stdin": subprocess.PIPE, "stdout": subprocess.PIPE, "stderr": subprocess.PIPE, "text": True, "bufsize": 1}
        self.sim = subprocess.Popen([program, "sim"], **pipes)
        self.dice, self.has_hostile = random.Random(SEED), has_hostile
        self.held, self.sent, self.generation, self.forged = [], 0, 0, 0

    def ask(self, line):
        """Gives the sim a line, and returns the lines of its reply."""
        self.sim.stdin.write(f"{line}\n{LAST_LINE}\n")
        reply = []
        while (said := self.sim.stdout.readline().rstrip("\n")) != LAST_REPLY:
            if not said:
                raise BrokenPipeError(f"no reply to {line!r}: {self.sim.stderr.read()}")
            reply.append(said)
        return reply

    def take(self, line):
        """Lets an event happen, and then lists the held locks."""
        reply = self.ask(line)
        messages = [int(sent[1]) for said in reply if (sent := SENT.match(said))]
        self.sent = max([self.sent, *messages])
        self.forged += line.startswith("forge") and bool(messages)
        if reply and (up := re.fullmatch(r"up (\d+)", reply[0])):
            self.generation = int(up[1])
        locks = [LOCK.fullmatch(said) for said in self.ask("show")]
        self.held = [(int(lock[1]), int(lock[2]), lock[3], lock[4]) for lock in locks if lock]

    # ---- Events

    def number(self):
        return self.dice.randrange(NUMBERS)

    def name(self):
        return self.dice.choice("abc")

    def event(self, step):
        """Returns a random event. As the run goes on, tabs with greater numbers take part, and the others no more."""
        tab = step // 400 * 2 + self.dice.randrange(5) + 1
        choice = self.dice.randrange(20)
        if choice == 0 and self.has_hostile:
            return self.hostile(tab)
        return self.delivery() if choice < 10 else self.other(tab)

    def delivery(self):
        """Delivers a message, most often one of the latest."""
        if not self.sent:
            return "stop"
        latest = self.sent if self.dice.randrange(4) == 0 else min(self.sent, 12)
        return f"deliver m{self.sent - self.dice.randrange(latest)}"

    def other(self, tab):
        """Returns an event of a tab or of the kernel."""
        kinds = ["kill", "tell", "stop", "start", "hello", "open", "resend", "query", "abort", "release", "ask"]
        [kind] = self.dice.choices(kinds, [1, 2, 1, 4, 5, 4, 3, 1, 3, 6, 10])
        if kind in ("stop", "start"):
            return kind
        if kind == "open":
            return self.opening(tab)
        if kind == "abort":
            return f"abort {tab} {self.number()}"
        if kind == "release":
            return self.release(tab)
        if kind == "ask":
            return f"{self.dice.choice(['ask', 'ask', 'ask', 'probe'])} {tab} {self.dice.choice(MODES)} {self.name()}"
        return f"{kind} {tab}"

    def opening(self, tab):
        """Opens a tab: tabs with odd numbers are of one origin, and those with even numbers of another."""
        url = f"https://{'b' if tab % 2 else 'a'}.test/"
        return f"open {tab} {url}" if tab % 3 else f"open2 {tab} {url} {url}"

    def release(self, tab):
        """Releases a held lock, or any number if there is none."""
        if not self.held:
            return f"release {tab} {self.number()}"
        holder, number, _mode, _name = self.dice.choice(self.held)
        return f"release {holder} {number}"

    # ---- Tabs that are taken over

    def hostile(self, tab):
        """Takes a hostile tab over, or lets it forge a frame. At times another tab tries to forge."""
        hostile = (tab + 4) // 5 * 5
        choice = self.dice.randrange(5)
        if choice == 0:
            return f"corrupt {hostile}"
        return f"forge {tab if choice == 1 else hostile} {self.body().hex().upper()}"

    def body(self):
        """Returns a forged body, most often of the running generation."""
        generation = max(self.generation, 1) if self.dice.randrange(4) else self.generation + 1
        choice = self.dice.randrange(5)
        if choice == 0:
            return struct.pack(">BBI", 1, 3, self.number()) + self.text() + bytes(2)
        if choice < 3:
            return self.report(generation)
        return struct.pack(">BBII", 1, 1, generation, self.number()) + self.operation()

    def text(self):
        return b"\x01" + self.name().encode()

    def mode(self):
        return bytes([self.dice.randrange(1, 3)])

    def operation(self):
        choice = self.dice.randrange(4)
        if choice < 2:
            return struct.pack(">BI", choice + 2, self.number())
        return b"\x04" if choice == 2 else b"\x01" + self.mode() + bytes([self.dice.randrange(2)]) + self.text()

    def report(self, generation):
        """Returns a report of up to two entries, or one of two parts of a report."""
        numbers = [number for number in range(2) if self.dice.randrange(2)]
        entries = [struct.pack(">IB", number, self.dice.randrange(1, 3)) + self.mode() + self.text() for number in numbers]
        part = self.dice.randrange(3)
        head = struct.pack(">BBII", 2 if part else 1, 2, generation, self.number())
        place = struct.pack(">HH", part - 1, 2) if part else b""
        return head + place + struct.pack(">H", len(entries)) + b"".join(entries)


def look(name, world, step):
    """Checks that no two held locks conflict. In the second run only the locks of honest tabs count."""
    held = [lock for lock in world.held if not (world.has_hostile and is_hostile(lock[0]))]
    for place, one in enumerate(held):
        for other in held[:place]:
            if conflict(one, other):
                differences.append(f"{name}, event {step}: the locks {one} and {other} conflict")


def play(program, name, has_hostile):
    """Plays a run. Returns the most locks held at once, the sum of held locks after each event, and the world."""
    world = World(program, has_hostile)
    guard = threading.Timer(SECONDS, world.sim.kill)
    guard.start()
    most = total = 0
    try:
        for step in range(STEPS):
            world.take(world.event(step))
            look(name, world, step)
            most, total = max(most, len(world.held)), total + len(world.held)
        rest, stderr = world.sim.communicate()
        same(name, "the rest of the output, standard error and status", (rest, stderr, world.sim.returncode), ("", "", 0))
    except BrokenPipeError as broken:
        differences.append(f"{name}: {broken}")
    finally:
        guard.cancel()
        world.sim.kill()
        world.sim.wait()
    return most, total, world


def check_random_events(program):
    """The run holds locks and sends messages, so that there is something to look at."""
    most, total, world = play(program, "random events", False)
    is_enough = most >= 4 and total >= 300 and world.sent >= 200
    same("random events", f"whether {most}, {total} and {world.sent} are enough", is_enough, True)


def check_random_forgeries(program):
    """The run holds locks and forges frames, so that there is something to look at."""
    _most, total, world = play(program, "random forgeries", True)
    same("random forgeries", f"whether {total} and {world.forged} are enough", total >= 300 and world.forged >= 10, True)


CHECKS = [check_random_events, check_random_forgeries]
