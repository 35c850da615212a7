"""Tabs that count under one lock, while tabs, brokers and the kernel itself are stopped or killed. No addition is lost."""

import contextlib
import os
import signal
import time

from checks import same
from process_tests.stage import HOLDER, Stage, children_of, ended, ends, opened, opens, play, rounds, tells


def check_counter(program):
    """Four tabs make ten rounds each over two stops of the broker."""
    kernel = f"start\n{opens('TAB', 'TAB', 'TAB', 'TAB')}pause 50\nstop\nstart\npause 50\nstop\nstart\njoin\n"
    stdout = "up 1\n" + opened(1, 2, 3, 4) + "stopped 1\nup 2\nstopped 2\nup 3\n" + ended(0, 0, 0, 0)
    for lanes, shards in [(2, 1), (2, 2), (4, 16), (16, 16)]:
        name = f"forty rounds over {lanes} lanes and {shards} shards"
        played = play(Stage(program, lanes=lanes, shards=shards), kernel, TAB=rounds(10))
        ends(name, played, stdout)
        same(name, "the counter", played.counter, "40\n")


def check_spent(program):
    """Each generation of eight steps is followed by the next, which goes on. A round has two commands."""
    stage = Stage(program, lanes=1, shards=1, limit=8)
    played = play(stage, f"start\n{opens('TAB')}join\n", TAB=rounds(10))
    tells("generations of eight steps", played, "up 1\n")
    same("generations of eight steps", "the last line", played.stdout.splitlines()[-1:], ["ended 1 0"])
    same("generations of eight steps", "the counter", played.counter, "10\n")


def check_killed_tab(program):
    """A killed tab lets go of its lock, and is a tab no more."""
    kernel = f"start\n{opens('HOLDER')}pause 100\n{opens('TAB')}pause 100\nkill 1\nkill 1\nkill 9\njoin\n"
    played = play(Stage(program), kernel, HOLDER=HOLDER, TAB=rounds(1))
    ends("a killed tab", played, "up 1\n" + opened(1, 2) + "killed 1\nno tab\nno tab\n" + ended(0, first=2))
    same("a killed tab", "the counter", played.counter, "1\n")


KILLS = 5
# Rounds of each of two tabs. They take longer than the kills.
ROUNDS = 1_000


def check_killed_broker(program):
    """A broker that is killed is followed by the next one, and both tabs make all of their rounds."""
    killed = []

    def watch(kernel, _folder):
        for _turn in range(KILLS):
            time.sleep(0.02)
            for broker in children_of(kernel, "broker"):
                with contextlib.suppress(ProcessLookupError):
                    os.kill(broker, signal.SIGKILL)
                    killed.append(broker)

    played = play(Stage(program), f"start\n{opens('TAB', 'TAB')}join\n", watch, TAB=rounds(ROUNDS))
    tells("a killed broker", played, "ended 1 0\n", "ended 2 0\n")
    same("a killed broker", "whether a broker was killed", bool(killed), True)
    same("a killed broker", "the counter", played.counter, f"{2 * ROUNDS}\n")


def check_stopped(program):
    """A kernel is stopped and continued, which interrupts its reads. Its tab lives until the script kills it."""

    def stop(kernel, _folder):
        for _line in range(2):
            kernel.stdout.readline()
        for _stop in range(5):
            time.sleep(0.1)
            kernel.send_signal(signal.SIGSTOP)
            time.sleep(0.02)
            kernel.send_signal(signal.SIGCONT)

    played = play(Stage(program), f"start\n{opens('TAB')}pause 2000\nkill 1\n", stop, TAB=HOLDER)
    ends("a kernel that was stopped and continued", played, "killed 1\n")


CHECKS = [check_counter, check_spent, check_killed_tab, check_killed_broker, check_stopped]
