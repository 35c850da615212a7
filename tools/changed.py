"""Checks the crates that differ from a revision and the crates that stand on them, and runs their tests.

A crate differs if a file of its `src`, `specs` or `proofs` does, or its entry in `crates.txt`. A comment counts, too. Files that
git does not know count unless it ignores them. Without `--base` the revision is HEAD if a crate differs from it. Otherwise it is
the merge base of HEAD and origin/main, so the commits that are not pushed are checked.

The steps, each with the time that it took last:

1. `rt check` in each of these crates, lowest first. If a crate fails, those above it are left out, and the others go on. `rt`
   locks a crate and the libraries below it, so one check follows the other. `RT_JOBS` gives the processes of a check; without
   it `rt` chooses. The first check also proves each library below that no `rt check` or `rt lib` has built in this checkout:
   libraries of `rt ci` do not count.
2. `rt must-fail` for each crate whose must-fail edits differ. It needs no check of the crates above.
3. The tests of all these crates by `tools/try_tests.py`, which proves nothing. They run even if a check failed.

The times are kept in `build/check_seconds.json`. The last line is `N passed, M failed`, in steps. The status is 1 if one failed.
"""

import argparse
import json
import os
import pathlib
import subprocess
import sys
import tempfile
import time

import argument_types
import try_tests
from rlibs import PARTS, TOP, listed, own_below, rlib_of

UPSTREAM = "origin/main"
TIMES = TOP / "build" / "check_seconds.json"
# Front of the lines in which `rt check` tells of success.
QUIET = ("checked ", "statements ", "logic ", "crate ", "rt: chose ")


# ---- Differences


def git(*words):
    """Returns what git says, or None if it fails."""
    ran = subprocess.run(["git", *words], cwd=TOP, capture_output=True, text=True, check=False)
    return ran.stdout if ran.returncode == 0 else None


def entries(text):
    """Returns the entry of each crate in a `crates.txt`, without comments and white space."""
    rows = (line.partition("#")[0].split() for line in text.splitlines())
    return {row[0].rstrip(":"): row for row in rows if row}


class Difference:
    """Differences from a revision: crates, crates whose must-fail edits differ, and other files of crates."""

    def __init__(self, base, name=None):
        differing = git("diff", "--name-only", "--no-renames", "-z", base, "--", "crates")
        new = git("ls-files", "--others", "--exclude-standard", "-z", "--", "crates")
        if differing is None or new is None:
            sys.exit(f"changed: git knows no revision {base}: give a commit, a branch or a tag as BASE")
        was, now = entries(git("show", f"{base}:crates.txt") or ""), entries((TOP / "crates.txt").read_text(encoding="utf-8"))
        self.name = name or base
        self.crates = {name for name, entry in now.items() if was.get(name) != entry}
        self.edited, self.others = set(), []
        for file in sorted({*differing.split("\0"), *new.split("\0")} - {""}):
            _, name, part, *_ = [*pathlib.PurePath(file).parts, "", ""]
            if name not in now:
                continue
            if part in PARTS:
                self.crates.add(name)
            elif part == "must-fail":
                self.edited.add(name)
            else:
                self.others.append(file)

    def __bool__(self):
        return bool(self.crates or self.edited or self.others)


def difference(base):
    """Returns the difference from the revision, or from that which the head of this file names."""
    if git("rev-parse", "--git-dir") is None:
        sys.exit("changed: this is no clone of a git repository: `rt all check` checks every crate")
    if base:
        return Difference(base)
    shared = git("merge-base", "HEAD", UPSTREAM)
    return Difference("HEAD") or (Difference(shared.strip(), UPSTREAM) if shared else Difference("HEAD"))


# ---- Times of earlier runs


def read_times():
    """Returns the seconds that each step took when it last passed."""
    try:
        times = json.loads(TIMES.read_text(encoding="utf-8"))
        if isinstance(times, dict) and all(isinstance(seconds, (int, float)) for seconds in times.values()):
            return times
        print(f"changed: {TIMES.relative_to(TOP)} is damaged: ignored")
    except FileNotFoundError:
        pass
    except (OSError, ValueError) as error:
        print(f"changed: {TIMES.relative_to(TOP)} cannot be read: ignored: {error}")
    return {}


def write_times(times):
    """Writes the file beside its place, and renames it."""
    part = None
    try:
        TIMES.parent.mkdir(exist_ok=True)
        with tempfile.NamedTemporaryFile("w", dir=TIMES.parent, prefix=f".{TIMES.name}-", encoding="utf-8", delete=False) as file:
            part = pathlib.Path(file.name)
            json.dump(times, file, indent=1, sort_keys=True)
        os.replace(part, TIMES)
    except OSError as error:
        print(f"changed: the times are not kept: {error}")
        if part:
            part.unlink(missing_ok=True)


def spoken(seconds):
    return f"{seconds:.0f} seconds" if seconds < 100 else f"{seconds / 60:.0f} minutes"


# ---- Steps


class Plan:
    """Crates to check, lowest first, crates whose must-fail edits are tried, and crates whose tests run."""

    def __init__(self, differing):
        crates = listed()
        self.below = {name: set(own_below([name], crates)) for name in crates}
        order = list(dict.fromkeys(library for name in crates for library in [*own_below([name], crates), name]))
        self.checks = [name for name in order if differing.crates & {name, *self.below[name]}]
        self.edits = [name for name in order if name in differing.edited and any((TOP / "crates" / name / "must-fail").glob("*.edit"))]
        self.tests = try_tests.with_tests(self.checks)
        lower = dict.fromkeys(library for name in self.checks for library in order if library in self.below[name])
        self.unbuilt = [name for name in lower if name not in self.checks and not (rlib_of(name).parent / "stamp").is_file()]

    def steps(self):
        return [f"{verb} {name}" for verb, names in (("check", self.checks), ("must-fail", self.edits), ("test", self.tests)) for name in names]

    def tell(self, times):
        """Prints the steps with their times."""
        steps = self.steps()
        width = max(map(len, steps))
        for step in steps:
            print(f"{step:{width}}  {spoken(times[step]) if step in times else 'never timed'}")
        if self.unbuilt:
            print(f"before them {len(self.unbuilt)} libraries below, which `rt` has not built in this checkout: {', '.join(self.unbuilt)}")
        unknown = sum(step not in times for step in steps)
        length = f"about {spoken(sum(times.get(step, 0) for step in steps))}" if unknown < len(steps) else "no estimate"
        print(f"{length} for {len(steps)} steps{f'; {unknown} were never timed' if unknown else ''}", flush=True)


class Run:
    """Runs the steps of a plan, and keeps what passed, what failed and what was left out."""

    def __init__(self, plan, times):
        self.plan, self.times = plan, times
        self.passed, self.failed, self.left_out = [], [], []

    def ends(self, step, is_passed, seconds):
        (self.passed if is_passed else self.failed).append(step)
        if is_passed:
            self.times[step] = round(seconds, 1)
            write_times(self.times)

    def play(self, step, words, folder):
        """Runs a command, and prints what it says if it fails, but for its lines of success."""
        start = time.monotonic()
        how = {"stdin": subprocess.DEVNULL, "stdout": subprocess.PIPE, "text": True, "errors": "replace"}
        ran = subprocess.run(words, cwd=folder, check=False, **how)
        seconds = time.monotonic() - start
        for line in ran.stdout.splitlines() if ran.returncode else []:
            if not line.startswith(QUIET) and not line.endswith(": proved"):
                print(line)
        print(f"{step}: {'FAILED' if ran.returncode else 'passed'} after {spoken(seconds)}", flush=True)
        self.ends(step, ran.returncode == 0, seconds)

    def check(self, name):
        lacking = [library for library in self.plan.below[name] if f"check {library}" in [*self.failed, *self.left_out]]
        if lacking:
            self.left_out.append(f"check {name}")
            return
        given = os.environ.get("RT_JOBS", "")
        words = ["--jobs", given] if given.isdigit() and int(given) else []
        self.play(f"check {name}", ["rt", "check", *words], TOP / "crates" / name)

    def all(self):
        for name in self.plan.checks:
            self.check(name)
        for name in self.plan.edits:
            self.play(f"must-fail {name}", ["rt", "must-fail", name], TOP)
        for result in try_tests.try_all(self.plan.tests):
            self.ends(f"test {result.crate}", not result.failed, result.seconds)
        if self.left_out:
            print(f"left out, since a crate below failed: {', '.join(self.left_out)}")
        if self.failed:
            print(f"FAILED: {', '.join(self.failed)}")
        print(f"{len(self.passed)} passed, {len(self.failed)} failed")
        return 1 if self.failed else 0


def main():
    parser = argparse.ArgumentParser(description=__doc__, formatter_class=argparse.RawDescriptionHelpFormatter)
    parser.add_argument("--base", metavar="REV", help="the revision")
    parser.add_argument("--list", action="store_true", help="only print the steps and their times")
    given = parser.parse_args()
    differing = difference(given.base)
    for file in differing.others:
        print(f"left out: {file}: `make verify` runs the program with it")
    plan = Plan(differing)
    if not plan.steps():
        print(f"no crate differs from {differing.name}: CONTRIBUTING.md says how to test other files")
        return 0
    if not given.list:
        argument_types.need_command("rt", "install the Rattle kit that README.md names")
    print(f"differs from {differing.name}: {', '.join(sorted(differing.crates | differing.edited))}")
    times = read_times()
    plan.tell(times)
    return 0 if given.list else Run(plan, times).all()


if __name__ == "__main__":
    try:
        sys.exit(main())
    except KeyboardInterrupt:
        print("changed: interrupted: `rt` keeps its work for the next run", file=sys.stderr)
        sys.exit(130)
