"""Kernels whose system calls fail, and kernels that run short of descriptors."""

import contextlib
import os
import shutil
import subprocess
import tempfile
import time

import packages
from checks import differences, same
from demo_processes import processes_of
from process_tests.stage import HOLDER, TAKER, TOOLS, Stage, ended, ends, is_soon, opened, opens, play, rounds


@contextlib.contextmanager
def fault(name):
    """Yields the environment in which a system call of the kernel fails, or None without a C compiler, which is a difference."""
    if not shutil.which("cc"):
        differences.append(f"the fault {name!r} was not played: no `cc` to compile faults.c: {packages.hint('cc')}")
        yield None
        return
    with tempfile.TemporaryDirectory() as folder:
        library = os.path.join(folder, "faults.so")
        subprocess.run(["cc", "-shared", "-fPIC", "-o", library, TOOLS / "faults.c", "-ldl"], check=True)
        yield {"LD_PRELOAD": library, "FAULT": name}


def check_lost_death(program):
    """A Dead frame whose write fails ends the broker's generation. In the next one the lock of the dead tab is free."""
    kernel = f"start\n{opens('HOLDER')}pause 300\n{opens('TAKER')}pause 300\nkill 1\njoin\n"
    with fault("death") as environment:
        if environment:
            played = play(Stage(program, environment=environment), kernel, HOLDER=HOLDER, TAKER=TAKER)
            stdout = "up 1\n" + opened(1, 2) + "killed 1\n" + ended(0, first=2)
            same("a death that is not written", "the output and the status", (played.stdout, played.status), (stdout, 0))
            is_soon("a death that is not written", played)


def check_mode_fault(program):
    """A kernel starts no child if it cannot set the mode of the child's socket."""
    with fault("mode") as environment:
        if environment:
            played = play(Stage(program, environment=environment), f"{opens('TAB')}join\n", TAB="")
            ends("a socket whose mode cannot be set", played, "", ["wlb: Device"], 3)


# Descriptors of the kernel, descriptors that no tab can take while no broker runs, and tabs that the script opens.
DESCRIPTORS = 24
OTHERS = 11
TABS = 20


def check_descriptors(program):
    """A tab for which no descriptor is left ends with status 3. The kernel still starts two brokers, and the other tabs count.
    At the end every descriptor and thread of the failed tabs is free again."""
    fit = DESCRIPTORS - OTHERS
    lacking = TABS - fit
    kernel = f"start\nstop\n{opens(*['TAB'] * TABS)}start\nstop\nstart\njoin\n"
    kernel += f"stop\n{opens(*['TAB'] * fit)}start\njoin\npause 500\n"
    stdout = "up 1\nstopped 1\n" + opened(*range(1, TABS + 1)) + "up 2\nstopped 2\nup 3\n" + ended(*[0] * fit, *[3] * lacking)
    stdout += "stopped 3\n" + opened(*range(TABS + 1, TABS + 1 + fit)) + "up 4\n"
    last = ended(*[0] * fit, first=TABS + 1)

    def watch(kernel, _folder):
        found = "".join(kernel.stdout.readline() for _line in (stdout + last).splitlines())
        same("few descriptors", "standard output", found, stdout + last)
        time.sleep(0.1)
        running = {process: words for process, words in processes_of(kernel.pid).items() if process != kernel.pid}
        same("few descriptors", "the list of children by kind", [words.split()[1:2] for words in running.values()], [["broker"]])
        same("few descriptors", "the number of the kernel's threads", len(os.listdir(f"/proc/{kernel.pid}/task")), 2)

    played = play(Stage(program, descriptors=DESCRIPTORS), kernel, watch, TAB=rounds(1))
    ends("few descriptors", played, "")
    same("few descriptors", "the counter", played.counter, f"{2 * fit}\n")


CHECKS = [check_lost_death, check_mode_fault, check_descriptors]
