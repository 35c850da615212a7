"""Check of `check_processes.py`: a tab gets the Hello that did not fit into its outbox.

A kernel has two tabs of one origin, which speak the socket protocol in Python. The first tab reports to the broker and then
stops reading its link. The second tab posts until the outbox of the first one is full. Then the check kills the broker. The Hello
of the next generation does not fit into the full outbox. The first tab reads again and sends nothing by itself: it has to see
that Hello and report, so that the second tab is granted a lock.
"""

import os
import pathlib
import signal
import struct
import subprocess
import sys
import tempfile
import time

import soak
from checks import same
from demo_processes import end

# Seconds for one step, and for the kernel's end after the last one.
STEP = 20
SECONDS = 4 * STEP
# An outbox holds 256 posts, and the buffers of the socket hold a few hundred more.
POSTS = 1_500
DATA = bytes(1_000)
HEARD = 19

# Files by which the processes wait for each other.
BROKER, ENTERED, POSTED, GREETED, GRANTED = "BROKER", "ENTERED", "POSTED", "GREETED", "GRANTED"

IDLE, POSTER = "IDLE", "POSTER"
SCRIPT = f"start\nopen https://a.test/ {IDLE}\nopen https://a.test/ {POSTER}\njoin\n"
PLAYED = b"up 1\nopened 1 https://a.test\nopened 2 https://a.test\nended 1 0\nended 2 0\n"
KERNEL = ["kernel", "--dir", ".", "--lanes", "1", "--shards", "1", "--limit", "65536", "KERNEL"]

# The kernel starts this script in place of the program.
CHILD = """#!{python}
import sys
sys.path.insert(0, {tools!r})
import owed_hello
owed_hello.be_child({program!r}, sys.argv[1:])
"""


def note(name, text=""):
    """Makes a file in one step, with all of its text."""
    pathlib.Path(name + ".new").write_text(text, encoding="utf-8")
    os.rename(name + ".new", name)


def wait_until(is_so, what):
    until = time.monotonic() + STEP
    while not is_so():
        if time.monotonic() > until:
            sys.exit(f"waited too long until {what}")
        time.sleep(0.005)


def be_child(program, words):
    """Plays a tab by its script's name. A broker is the program; its process number goes into a file."""
    if words[0] == "broker":
        note(BROKER, str(os.getpid()))
        os.execv(program, [program, *words])
    path, script = words[2], words[3]
    {IDLE: be_idle, POSTER: be_poster}[script](path)


class Listener(soak.Page):
    """A tab that counts the posts that it hears."""

    heard = 0

    def take(self, body):
        self.heard += body[1] == HEARD
        super().take(body)


def be_idle(path):
    page = Listener(path)
    wait_for_generation(page, 1)
    note(ENTERED)
    wait_until(lambda: os.path.exists(GREETED), "the poster is greeted in generation 2")

    def is_over():
        page.read(0)
        return os.path.exists(GRANTED)

    wait_until(is_over, "the poster has its second lock")
    if page.heard >= POSTS:
        sys.exit("the outbox was never full")


def be_poster(path):
    page = soak.Page(path)
    wait_for_generation(page, 1)
    wait_until(lambda: os.path.exists(ENTERED), "the idle tab has entered generation 1")
    for number in range(POSTS):
        page.link.sendall(soak.frame(b"\x01\x03" + struct.pack(">I", number) + b"\x01n" + struct.pack(">H", len(DATA)) + DATA))
    # The kernel takes the frames of a tab in their order, so it has routed every post once this lock is held.
    wait_for_lock(page, b"first")
    note(POSTED)
    wait_for_generation(page, 2)
    note(GREETED)
    wait_for_lock(page, b"second")
    note(GRANTED)


def wait_for_generation(page, generation):
    def is_entered():
        page.read(20)
        return page.generation == generation

    wait_until(is_entered, f"generation {generation} greets the tab")


def wait_for_lock(page, name):
    lock = page.locks[page.ask(soak.EXCLUSIVE, name)]

    def is_held():
        if not page.read(20):
            page.resend()
        return lock.is_held

    wait_until(is_held, f"the lock {name.decode()} is held")


def play(program, folder):
    """Returns the kernel's status, or the step that took too long, and what the kernel and its tabs printed."""
    child = pathlib.Path(folder, "child")
    tools = str(pathlib.Path(__file__).resolve().parent)
    child.write_text(CHILD.format(python=sys.executable, tools=tools, program=program), encoding="utf-8")
    child.chmod(0o755)
    pathlib.Path(folder, "KERNEL").write_text(SCRIPT, encoding="utf-8")
    for name in [IDLE, POSTER]:
        pathlib.Path(folder, name).write_text("", encoding="utf-8")
    pipes = {"stdin": subprocess.DEVNULL, "stdout": subprocess.PIPE, "stderr": subprocess.PIPE}
    kernel = subprocess.Popen([str(child), *KERNEL], executable=program, cwd=folder, start_new_session=True, **pipes)
    try:
        wait_until(pathlib.Path(folder, POSTED).exists, "the kernel has routed every post")
        os.kill(int(pathlib.Path(folder, BROKER).read_text(encoding="utf-8")), signal.SIGKILL)
        stdout, stderr = kernel.communicate(timeout=SECONDS)
        return kernel.returncode, stdout, stderr
    except (SystemExit, subprocess.TimeoutExpired) as late:
        kernel.kill()
        end(kernel.pid)
        stdout, stderr = kernel.communicate()
        return str(late), stdout, stderr
    finally:
        end(kernel.pid)


def check_owed(program):
    """A tab whose outbox was full gets the Hello of the new generation once it reads again, and the other tab gets its lock."""
    with tempfile.TemporaryDirectory(prefix="wlb-") as folder:
        found = play(program, folder)
    same("a tab that is owed a Hello", "the status, standard output and standard error", found, (0, PLAYED, b""))
