"""Stops and deaths behind each line of the rows of requests: the broker is stopped and started, or a tab dies.

The sim plays the rest of the script to its end, and no list of held locks has two that conflict. The check reads the lists that
`show` prints and the origins that `open` prints.
"""

import concurrent.futures
import os
import re

from checks import same
from sim_tests.limits import refusals
from sim_tests.play import rows, run

LOCK = re.compile(r"(\d+)#\d+ (shared|exclusive) (.*)")


class Told:
    """Content of an output: its lists of held locks, the sum of their locks, and the pairs of locks that conflict."""

    def __init__(self, output):
        self.origins, self.lists, self.locks, self.conflicts = {}, 0, 0, 0
        shown = []
        for line in [*output.splitlines(), ""]:
            if lock := LOCK.fullmatch(line):
                self.conflicts += any(self.conflict(lock.groups(), other) for other in shown)
                self.locks += 1
                shown.append(lock.groups())
                continue
            self.lists += bool(shown) + (line == "nothing held")
            shown = []
            if line.startswith("opened "):
                _, tab, origin = line.split(" ", 2)
                self.origins[tab] = origin

    def conflict(self, one, other):
        """Returns whether two locks have one name and one origin, and are not both shared."""
        are_shared = one[1] == other[1] == "shared"
        return one[2] == other[2] and not are_shared and self.origins.get(one[0]) == self.origins.get(other[0])


# Tabs 1 and 2 are of one origin, and tab 3 is of another.
OPENED = "opened 1 https://a.test\nopened 2 https://a.test\nopened 3 http://a.test\n"

# Outputs behind `OPENED`, and how many lists and conflicts they have.
OUTPUTS = [
    ("1#0 exclusive a\n2#0 shared a\n", 1, 1),
    ("1#0 shared a\n2#0 exclusive a\nkilled 1\n", 1, 1),
    ("1#0 exclusive a\n1#1 exclusive b\n2#0 exclusive a\n", 1, 1),
    # Two locks of one tab conflict, too.
    ("1#0 exclusive a\n1#1 exclusive a\n", 1, 1),
    # Two shared locks, locks of two names, and locks of two origins do not conflict.
    ("1#0 shared a\n2#0 shared a\n", 1, 0),
    ("1#0 exclusive a\n2#0 exclusive b\n", 1, 0),
    ("1#0 exclusive a\n3#0 exclusive a\n", 1, 0),
    # Two lists, and a list without locks between other lines.
    ("1#0 exclusive a\nkilled 1\n2#0 exclusive a\n", 2, 0),
    ("nothing held\n1#0\nm1 1>b gen 1 #0 request exclusive a\n", 1, 0),
]


def check_conflicts(_program):
    """The reader of outputs finds the conflicts in lists of locks."""
    for output, lists, conflicts in OUTPUTS:
        told = Told(OPENED + output)
        same(f"the output {output!r}", "the counts of lists and conflicts", (told.lists, told.conflicts), (lists, conflicts))


class Watched:
    """Script that lists the held locks behind each of its lines."""

    def __init__(self):
        self.lines, self.lists = [], 0

    def add(self, line):
        self.lines.append(line)
        self.show()

    def show(self):
        self.lines.append("show")
        self.lists += 1

    def deliver_all(self, count):
        """Delivers `count` messages in turn. No delivery takes a lock away, so one list behind them all has each lock that they
        gave."""
        self.lines += [f"deliver m{message}" for message in range(1, count + 1)]
        self.show()


def with_put_in(lines, place, put_in):
    """Returns a script with some lines behind the one at a place, and then twice as many deliveries as it has lines."""
    watched = Watched()
    for line in [*lines[: place + 1], *put_in, *lines[place + 1 :]]:
        if line != "show":
            watched.add(line)
    watched.deliver_all(2 * len(lines))
    return watched


def play(program, name, place, watched):
    """Runs a script to its end. Its output has a list of held locks behind each line, and no list has a conflict. Returns the
    number of the locks in its lists."""
    ran = run(program, "".join(f"{line}\n" for line in watched.lines))
    told = Told((ran.stdout or b"").decode())
    found = (ran.status, ran.stderr, told.lists, told.conflicts)
    name = f"{name}, behind line {place + 1}"
    same(name, "the status, standard error, and counts of lists and conflicts", found, (0, "", watched.lists, 0))
    return told.locks


NAMES = """
shared-then-exclusive probe-behind-queue abort-unblocks release-hands-over late-grant-after-abort repeated-request
restart-while-asked restart-while-held death-hands-over other-origin-unblocked origins-apart snapshot
""".split()


def scripts():
    """Yields the rows of requests: each name, its lines, and the tabs that it opens."""
    plays = rows()
    for name, row in [*((name, plays[name]) for name in NAMES), ("refusals", refusals())]:
        yield name, row.script.splitlines(), sorted(Told(row.output).origins)


def everywhere(program, put_ins_of, runs, locks):
    """Puts lines in behind each line of the rows. `put_ins_of` returns these lines for a tab, or for all tabs.

    There are at least `runs` runs, and their lists have at least `locks` locks, so that there is something to look at.
    """
    with concurrent.futures.ThreadPoolExecutor(len(os.sched_getaffinity(0))) as pool:
        begun = []
        for name, lines, tabs in scripts():
            for put_in in put_ins_of(tabs):
                for place in range(len(lines)):
                    begun.append(pool.submit(play, program, name, place, with_put_in(lines, place, put_in)))
        shown = sum(done.result() for done in begun)
    same("runs", "whether there are enough", len(begun) >= runs, True)
    same("runs", "whether they list enough locks", shown >= locks, True)


def check_restarts(program):
    """A stop, and a start with all living tabs listed."""
    everywhere(program, lambda _tabs: [["stop", "start"]], 300, 4_000)


def check_starts_without_tabs(program):
    """A stop, and a start without tabs. If a tab has entered a generation, the start is refused, and no broker is up."""
    everywhere(program, lambda _tabs: [["stop", "start -"]], 300, 400)


def check_deaths(program):
    """The death of each tab that the row opens, in runs of their own."""
    everywhere(program, lambda tabs: [[f"kill {tab}"] for tab in tabs], 740, 1_500)


def check_told_deaths(program):
    """Such a death that the broker hears of."""
    everywhere(program, lambda tabs: [[f"kill {tab}", f"tell {tab}"] for tab in tabs], 740, 2_000)


CHECKS = [check_conflicts, check_restarts, check_starts_without_tabs, check_deaths, check_told_deaths]
