"""Settings in which kernels play their scripts, and comparisons of what they did."""

import dataclasses
import os
import pathlib
import resource
import subprocess
import tempfile
import threading
import time

from checks import SECONDS, differences, same
from demo_processes import end, left_over, processes_of

TOOLS = pathlib.Path(__file__).resolve().parent.parent
FOREIGN = TOOLS / "foreign_tab.py"
# Seconds. A foreign tab runs on for 20 seconds; a kernel that is soon over has not waited for it.
SOON = 12

ORIGIN = "https://a.test"
# A tab that holds a lock and waits until it is killed.
HOLDER = "ask exclusive f\nwait 0\nask exclusive f\nwait 1\n"
TAKER = "ask exclusive f\nwait 0\n"


@dataclasses.dataclass
class Stage:
    """Setting of a kernel: its program and arguments, whether its children are foreign, more environment, and its limit of
    descriptors. `name` is the kernel's argument 0, by which it starts its children."""

    program: str
    foreign: bool = False
    name: str = None
    directory: str = "."
    lanes: int = 2
    shards: int = 1
    limit: int = 65_536
    environment: dict = dataclasses.field(default_factory=dict)
    descriptors: int = None

    def words(self):
        name = self.name or (str(FOREIGN) if self.foreign else self.program)
        numbers = ["--lanes", self.lanes, "--shards", self.shards, "--limit", self.limit]
        return [name, "kernel", f"--dir={self.directory}", *map(str, numbers), f"./{self.directory}/KERNEL"]

    def start(self, folder):
        """Starts a kernel in a folder. The mask of 0 leaves the modes of its files to the kernel."""
        environment = {**os.environ, "WLB": self.program, **self.environment}
        pipes = {"stdin": subprocess.DEVNULL, "stdout": subprocess.PIPE, "stderr": subprocess.PIPE, "text": True}
        how = {"cwd": folder, "env": environment, "umask": 0, "start_new_session": True, "preexec_fn": self.limit_descriptors}
        return subprocess.Popen(self.words(), executable=self.program, **how, **pipes)

    def limit_descriptors(self):
        if self.descriptors:
            resource.setrlimit(resource.RLIMIT_NOFILE, (self.descriptors, self.descriptors))


@dataclasses.dataclass
class Played:
    """Result of a kernel's run: its output and errors, its status, its seconds, and the text of each file at its end."""

    stdout: str
    stderr: list
    status: int
    seconds: float
    texts: dict

    @property
    def counter(self):
        return self.texts["COUNTER"]


def play(stage, kernel, watch=None, **files):
    """Plays a kernel's script in a directory with these files, and kills the kernel when its time is up. `COUNTER` holds 0.
    `watch` is called with the running kernel and the directory. A socket or a process that is left is a difference."""
    with tempfile.TemporaryDirectory(prefix="wlb-") as folder:
        directory = pathlib.Path(folder, stage.directory)
        directory.mkdir(exist_ok=True)
        files = {"KERNEL": kernel, "COUNTER": "0\n", **files}
        for name, text in files.items():
            pathlib.Path(directory, name).write_text(text, encoding="utf-8")
        begun = time.monotonic()
        process = stage.start(folder)
        guard = threading.Timer(SECONDS, process.kill)
        guard.start()
        if watch:
            watch(process, directory)
        stdout, stderr = process.communicate()
        guard.cancel()
        seconds = time.monotonic() - begun
        same(repr(kernel), "the list of processes that are left", left_over(process.pid), {})
        end(process.pid)
        same(repr(kernel), "the list of sockets that are left", sorted(it.name for it in directory.glob("*.sock")), [])
        texts = {name: pathlib.Path(directory, name).read_text(encoding="utf-8") for name in files}
        return Played(stdout, sorted(stderr.splitlines()), process.returncode, seconds, texts)


def ends(name, played, stdout, stderr=(), status=0):
    """Compares the output and the status. Several processes write to standard error, so its lines may come in any order."""
    same(name, "standard output", played.stdout, stdout)
    same(name, "standard error", played.stderr, sorted(stderr))
    same(name, "the status", played.status, status)


def tells(name, played, *texts):
    """Checks that the output has each of these texts, and that the status is 0."""
    for text in texts:
        if text not in played.stdout:
            differences.append(f"{name}: standard output is {played.stdout!r}, without {text!r}")
    same(name, "the status", played.status, 0)


def is_soon(name, played):
    same(name, f"whether it took less than {SOON} seconds", played.seconds < SOON, True)


def wait_for(what, is_so):
    """Waits until `is_so` returns true. A wait that takes too long is a difference."""
    until = time.monotonic() + SOON
    while not is_so():
        if time.monotonic() > until:
            differences.append(f"{what}: not within {SOON} seconds")
            return
        time.sleep(0.01)


def children_of(kernel, word):
    """Returns the processes of a kernel's session whose command lines contain this word."""
    return [process for process, words in processes_of(kernel.pid).items() if process != kernel.pid and word in words.split()]


# ---- Scripts, and the lines of a kernel


def rounds(count, counter="COUNTER"):
    """Returns the script of a tab that takes a lock, adds one to a counter and releases the lock, again and again."""
    lines = ["ask exclusive f", "wait {0}", "add {1}", "release {0}", ""]
    return "".join("\n".join(lines).format(2 * number, counter) for number in range(count))


def opens(*files):
    return "".join(f"open {ORIGIN}/ {file}\n" for file in files)


def opened(*tabs):
    return "".join(f"opened {tab} {ORIGIN}\n" for tab in tabs)


def ended(*statuses, first=1):
    return "".join(f"ended {tab} {status}\n" for tab, status in enumerate(statuses, first))
