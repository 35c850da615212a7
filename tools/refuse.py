"""Runs tests with memory refused: each allocation in turn, or a sample of them.

A test repeats each call that runs out of memory, and checks that the refused call changed nothing. So a test has to pass
whichever allocation fails. The tool runs each test by itself, once for each of its allocations. One run refuses one allocation.

The kit's `rt try --test --fail-alloc N` refuses one allocation of all tests of a crate, in a build with nothing proved. This
tool refuses every allocation, and runs the proved binary at full speed, `RT_JOBS` tests at once or one for each processor.

`--gate` runs the tests of the crates `test_*`. The table `KINDS` says of each whether all of its allocations are refused, or a sample
that is spread evenly: 60 of a large test, and four of a test whose lanes wait for each other. A test that the table does not name fails
the step, and so does one with too many allocations to refuse all of them. `--gate` also runs the tests of the book with every allocation
of a megabyte or more refused, since a history has to do without them.

A test with threads may allocate in another order in each run, so there a number names no certain allocation. The status is 0
if every test passed. The tool needs `cc` and glibc.
"""

import argparse
import collections
import concurrent.futures
import dataclasses
import os
import resource
import subprocess
import sys
import tempfile

import argument_types
import jobs
import packages

HERE = os.path.dirname(os.path.abspath(__file__))
TOP = os.path.dirname(HERE)
WORKERS = jobs.count()
SECONDS = 120
BINARY = argument_types.executable("`rt test` in crates/NAME builds crates/NAME/out/NAME_tests")
# Bytes of the smallest allocation that counts as large.
LARGE = 1_000_000
# Characters of a failed run's output that are shown.
SHOWN = 160
# Kinds of tests: the most allocations of a test that the gate refuses. 0: all.
ALL = 0
SAMPLE = 60
# Lanes wait for each other for seconds if one of them got no memory for its thread.
SLOW_SAMPLE = 4
# Kind of each test in the gate, by the front of its name behind `tests::`. The longest front decides.
KINDS = {
    "test_broker": {"broker::": ALL, "desk::": ALL, "devices::": ALL, "large::": SAMPLE},
    "test_formats": {"examples::": ALL, "forms::": ALL, "limits::": ALL, "process_lines::": ALL, "streams::": ALL, "words::": ALL},
    "test_kernel": {"partitions::": ALL, "supervisor::": ALL, "tab_table::": ALL, "tab_table::origins_3": SAMPLE},
    "test_lanes": {
        "books::": ALL,
        "lane_ends::": ALL,
        "lanes::": ALL,
        "place_order::": SLOW_SAMPLE,
        "process_lanes::": SLOW_SAMPLE,
        "shards::": ALL,
        "statuses::": ALL,
        "steps::": ALL,
        "turnstile::": SLOW_SAMPLE,
    },
    "test_links": {
        "board::": ALL,
        "command_line::": ALL,
        "incoming::": ALL,
        "notices::": ALL,
        "outbox::": ALL,
        "pauses::": ALL,
        "sending::": ALL,
        "shard_output::": ALL,
        "tab_links::": ALL,
        "values::": ALL,
    },
    "test_tables": {"manager::": ALL, "tables::rows::": ALL, "tables::random::": SAMPLE},
    "test_tabs": {"agent::": ALL, "channels::": ALL, "tab_locks::": ALL},
    "test_world": {
        "copies::": ALL,
        "rows::": ALL,
        "rows::shown_": SAMPLE,
        "rows::twenty_thousand_events": SAMPLE,
        "sim_ends::": ALL,
    },
}
# The most allocations of a test of which all are refused, so that the step takes minutes.
MOST = 10_000
# Front of the names of all tests, and of the book's tests, which have to do without large allocations.
FRONT = "tests::"
WITHOUT_LARGE = {"test_lanes": (f"{FRONT}steps::",)}
# It has no tests.
NOT_IN_GATE = {"test_support"}


@dataclasses.dataclass(frozen=True)
class Ran:
    """Result of one run: its status, the number of its allocations, its error output, and its output."""

    status: int
    count: int
    said: str
    output: bytes = b""


@dataclasses.dataclass
class Result:
    """Result of all runs of a test: its allocations, the runs with one refused, and the failures, counted by their output."""

    count: int
    tries: int
    failures: collections.Counter


def build(place):
    """Compiles the library that refuses allocations, for a preload, and returns its path."""
    argument_types.need_command("cc", packages.hint("cc"))
    library = os.path.join(place, "refuse.so")
    subprocess.run(["cc", "-O2", "-shared", "-fPIC", "-o", library, os.path.join(HERE, "refuse.c")], check=True)
    return library


def run(words, library, number, large=0, stdin=b""):
    """Runs a program. Allocation `number` is refused, counted from 1, and each one of at least `large` bytes. 0 refuses none."""
    reading, writing = os.pipe()
    refused = {"REFUSE": str(number), "REFUSE_FROM": str(large), "REFUSE_TELL": str(writing)}
    given = {**os.environ, "LD_PRELOAD": library, **refused}
    with tempfile.TemporaryDirectory(prefix="refuse-") as folder:
        how = {"env": given, "pass_fds": [writing], "cwd": folder, "capture_output": True, "input": stdin, "timeout": SECONDS}
        try:
            ran = subprocess.run(words, check=False, **how)
            status, said, output = ran.returncode, ran.stderr.decode(errors="replace").strip()[:SHOWN], ran.stdout
        except subprocess.TimeoutExpired:
            status, said, output = 1, f"it did not end within {SECONDS} seconds", b""
        finally:
            os.close(writing)
            with os.fdopen(reading, "rb") as told:
                count = told.read()
    if not count and not status:
        return Ran(1, 0, "it did not report the number of its allocations")
    return Ran(status, int(count or 0), said, output)


def names_of(tests, words):
    """Returns the names of the tests in a binary, or only the names that contain one of these words."""
    listed = subprocess.run([tests, "--list"], capture_output=True, text=True, check=True).stdout.splitlines()
    names = [line.removesuffix(": test") for line in listed if line.endswith(": test")]
    return [name for name in names if not words or any(word in name for word in words)]


@dataclasses.dataclass(frozen=True)
class Task:
    """A test, its kind, whether it also has to do without large allocations, and the most allocations that it may have."""

    tests: str
    name: str
    kind: int = ALL
    without_large: bool = False
    most: int = sys.maxsize

    def words(self):
        """Returns the command that runs the test."""
        return [self.tests, self.name]

    def numbers(self, count):
        """Returns the numbers of the allocations to refuse, spread evenly over all `count` of them."""
        tries = min(count, self.kind or count)
        return [place * count // tries + 1 for place in range(tries)]

    def fault(self, whole):
        """Returns why the test cannot be tried after this run with all memory, or nothing."""
        if whole.status:
            return f"with all memory: {whole.said}"
        if whole.count > self.most:
            return f"it has {whole.count} allocations, more than {self.most}: make it smaller, or change its kind in KINDS of tools/refuse.py"
        return ""


def refuse_all(tasks, library):
    """Plays the tests side by side, each once for every allocation to refuse. Yields each task with its result, in turn."""
    with concurrent.futures.ThreadPoolExecutor(WORKERS) as pool:
        wholes = pool.map(lambda it: run(it.words(), library, 0), tasks)
        begun = []
        for task, whole in zip(tasks, wholes):
            fault = task.fault(whole)
            numbers = [] if fault else task.numbers(whole.count)
            refused = [pool.submit(run, task.words(), library, number) for number in numbers]
            large = [pool.submit(run, task.words(), library, 0, LARGE)] if task.without_large and not fault else []
            begun.append((task, whole, fault, refused, large))
        for task, whole, fault, refused, large in begun:
            failures = collections.Counter([fault] if fault else [])
            failures.update(it.result().said for it in refused if it.result().status)
            failures.update(f"with large allocations refused: {it.result().said}" for it in large if it.result().status)
            yield task, Result(whole.count, len(refused), failures)


def tell(name, result):
    print(f"{name}: {result.tries} of {result.count} refused, {result.failures.total()} failed", flush=True)
    for said, times in result.failures.items():
        print(f"    {times} times: {said}", flush=True)


def refuse_in(tests, words):
    """Refuses every allocation of the tests of a binary, prints a line for each test, and returns whether all passed."""
    names = names_of(tests, words)
    passed = bool(names)
    if not names:
        print(f"no test of {tests} has one of these words in its name")
    with tempfile.TemporaryDirectory(prefix="refuse-") as place:
        for task, result in refuse_all([Task(tests, name) for name in names], build(place)):
            tell(task.name, result)
            passed = passed and not result.failures
    return passed


def crates_of_tests():
    """Returns the crates whose tests the gate runs with memory refused."""
    with open(os.path.join(TOP, "crates.txt"), encoding="utf-8") as lines:
        names = [line.partition(":")[0].split()[0] for line in lines if line.partition("#")[0].strip()]
    return sorted(it for it in names if it.startswith("test_") and it not in NOT_IN_GATE)


def binary_of(crate):
    """Returns the tests of a crate, as `rt ci` builds them."""
    return os.path.join(TOP, "crates", crate, "out", f"{crate}_tests")


def kind_of(crate, name):
    """Returns the kind of a test, or None if the table names neither it nor a module that it stands in."""
    fronts = [front for front in KINDS.get(crate, {}) if name.removeprefix(FRONT).startswith(front)]
    return KINDS[crate][max(fronts, key=len)] if fronts else None


def tasks_of_gate(crate, tests):
    """Returns the tasks of a crate's tests in the gate, and a message for each test without a kind."""
    names, large = names_of(tests, []), WITHOUT_LARGE.get(crate, ())
    kinds = {name: kind_of(crate, name) for name in names}
    most = {ALL: MOST}
    tasks = [Task(tests, it, kind, it.startswith(large), most.get(kind, sys.maxsize)) for it, kind in kinds.items() if kind is not None]
    return tasks, [f"{crate} {it}: give it a kind in KINDS of tools/refuse.py" for it, kind in kinds.items() if kind is None]


def unused_fronts(crate, tasks):
    """Returns a message for each front of names in the lists of this tool that no test of the crate has."""
    fronts = (*(f"{FRONT}{front}" for front in KINDS.get(crate, {})), *WITHOUT_LARGE.get(crate, ()))
    unused = [front for front in fronts if not any(task.name.startswith(front) for task in tasks)]
    return [f"{crate}: no test has a name that begins with {front}" for front in unused]


def refuse_in_gate(binaries):
    """Refuses allocations of each test, prints the failures and a line of totals, and returns whether all passed."""
    tasks, faults = [], []
    for crate, tests in binaries.items():
        if not os.path.exists(tests):
            sys.exit(f"refuse: there is no {tests}: `rt ci` builds it")
        found, without_kind = tasks_of_gate(crate, tests)
        tasks += found
        faults += [*without_kind, *unused_fronts(crate, found)]
    passed, failed, refused = 0, len(faults), 0
    print("\n".join(faults), end="\n" if faults else "", flush=True)
    with tempfile.TemporaryDirectory(prefix="refuse-") as place:
        for task, result in refuse_all(tasks, build(place)):
            refused += result.tries
            if result.failures:
                failed += 1
                tell(f"{os.path.basename(task.tests)} {task.name}", result)
            else:
                passed += 1
    used = resource.getrusage(resource.RUSAGE_CHILDREN)
    minutes = (used.ru_utime + used.ru_stime) / 60
    print(f"refused memory: {passed} passed, {failed} failed; {refused} allocations, {minutes:.1f} processor minutes", flush=True)
    return passed > 0 and not failed


def main():
    parser = argparse.ArgumentParser(description=__doc__, formatter_class=argparse.RawDescriptionHelpFormatter)
    parser.add_argument("--gate", action="store_true", help="refuse allocations of every test that `rt ci` has built")
    parser.add_argument("tests", nargs="?", metavar="TESTS", type=BINARY, help="a binary that `rt test` has built, crates/NAME/out/NAME_tests")
    parser.add_argument("words", nargs="*", metavar="WORD", help="run only the tests whose names contain one of these words")
    given = parser.parse_args()
    if given.gate == bool(given.tests):
        parser.error("give either a binary or --gate")
    binaries = {crate: binary_of(crate) for crate in crates_of_tests()}
    passed = refuse_in_gate(binaries) if given.gate else refuse_in(os.path.abspath(given.tests), given.words)
    return 0 if passed else 1


if __name__ == "__main__":
    sys.exit(main())
