"""Steps of a run, one after another: runs their commands, goes on after a failure, and sums up their results.

An early step begins with the run, beside the steps before it, and its output comes at its place.

A command whose output has a line `N passed, M failed` counts with the numbers of the last such line, and any other one as one that
passed or failed by its status. A step is left out if this machine lacks a command that it needs. If a step whose results
it uses has failed, it does not run and counts as failed. If that step is left out, so is this one. The lines in which
a command says that it leaves something out begin with `left out: `; the end of the run repeats them.
"""

import concurrent.futures
import dataclasses
import os
import re
import subprocess
import sys
import time
import typing

import packages
from rlibs import TOP

TOTALS = re.compile(r"^(?:[\w ]+: )?(\d+) passed, (\d+) failed\b")
LEFT_OUT = "left out: "


@dataclasses.dataclass(frozen=True)
class Step:
    """Command with its name, the commands that it needs, and the steps whose results it uses. An early step uses none.

    `words` may be a function that returns the words by the outcomes of the steps before it."""

    name: str
    words: list | typing.Callable
    needs: tuple = ()
    after: tuple = ()
    is_early: bool = False


@dataclasses.dataclass(frozen=True)
class Outcome:
    """Result of a step: counts, left-out parts, and the seconds by the clock and of the processors."""

    passed: int = 0
    failed: int = 0
    left_out: tuple = ()
    seconds: float = 0
    processor_seconds: float = 0

    @property
    def is_left_out(self):
        return bool(self.left_out) and not self.passed and not self.failed


def counts_of(lines, status):
    """Returns how many passed and how many failed, by the output and the status of a command."""
    found = [match for match in map(TOTALS.match, lines) if match]
    passed, failed = (int(found[-1][1]), int(found[-1][2])) if found else (int(status == 0), 0)
    return passed, failed or int(status != 0)


def run(words, say):
    """Runs a command, and says each line of its output as it comes."""
    start, lines = time.monotonic(), []
    pipes = {"stdin": subprocess.DEVNULL, "stdout": subprocess.PIPE, "stderr": subprocess.STDOUT, "text": True, "errors": "replace"}
    with subprocess.Popen([str(word) for word in words], cwd=TOP, **pipes) as process:
        for line in process.stdout:
            say(line)
            lines.append(line)
        # The processes below it are counted in, too.
        _, status, used = os.wait4(process.pid, 0)
        process.returncode = os.waitstatus_to_exitcode(status)
    passed, failed = counts_of(lines, process.returncode)
    left_out = tuple(line.strip().removeprefix(LEFT_OUT) for line in lines if line.startswith(LEFT_OUT))
    # A command that has tested nothing, and does not say why, has failed.
    failed = failed or int(not passed and not left_out)
    return Outcome(passed, failed, left_out, time.monotonic() - start, used.ru_utime + used.ru_stime)


def say_now(line):
    print(line, end="", flush=True)


def run_early(step):
    """Runs the command of an early step. Returns its outcome and its output."""
    lines = []
    return run(step.words, lines.append), lines


def lacking(step):
    """Returns the commands that a step needs and this machine lacks."""
    return [command for command in step.needs if not packages.has(command)]


def outcome_of(step, outcomes, early):
    """Runs a step if it can run, or waits for it, after the steps before it have had these outcomes."""
    for command in lacking(step):
        return Outcome(left_out=(f"{step.name}: {packages.lack(command)}",))
    for name in step.after:
        if outcomes[name].is_left_out:
            return Outcome(left_out=(f"{step.name}: it uses the results of `{name}`",))
        if outcomes[name].failed:
            print(f"not run: it uses the results of `{name}`, which has failed")
            return Outcome(failed=1)
    if step.name in early:
        outcome, lines = early[step.name].result()
        print("".join(lines), end="", flush=True)
        return outcome
    return run(step.words(outcomes) if callable(step.words) else step.words, say_now)


def tell(outcomes):
    """Prints the cost of each step, what failed, what was left out, and the totals. Returns the status."""
    print("\n== Cost of each step")
    for name, outcome in outcomes.items():
        print(f"{name}: {outcome.seconds:.0f} seconds, {outcome.processor_seconds / 60:.1f} processor minutes")
    for name, outcome in outcomes.items():
        if outcome.failed:
            print(f"failed: {name}")
    for outcome in outcomes.values():
        for what in outcome.left_out:
            print(f"{LEFT_OUT}{what}")
    passed, failed = (sum(getattr(outcome, what) for outcome in outcomes.values()) for what in ("passed", "failed"))
    print(f"{passed} passed, {failed} failed", flush=True)
    return 1 if failed or not passed else 0


def run_all(steps):
    """Runs the steps in their order, and returns the status."""
    outcomes, beginning = {}, [step for step in steps if step.is_early and not lacking(step)]
    try:
        with concurrent.futures.ThreadPoolExecutor(max(len(beginning), 1)) as pool:
            early = {step.name: pool.submit(run_early, step) for step in beginning}
            for step in steps:
                print(f"\n== {step.name}", flush=True)
                outcomes[step.name] = outcome_of(step, outcomes, early)
                if outcomes[step.name].is_left_out:
                    print(f"{LEFT_OUT}{outcomes[step.name].left_out[0]}")
    except KeyboardInterrupt:
        print("interrupted: run it again", file=sys.stderr)
        sys.exit(130)
    return tell(outcomes)
