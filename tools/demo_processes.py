"""Shows `wlb` at work as processes: a kernel, its broker and its tabs.

EXAMPLE is a folder. `KERNEL` is the kernel's script, `COUNTER` a file in which tabs count, and the other files are
the scripts of tabs. `KERNEL.out` is the expected output of the kernel, and `COUNTER.out` the expected content of the
counter. The kernel runs for at most a minute, in a copy of the folder in a temporary directory, which has its
sockets, too.

The status is 0 if the kernel ended with status 0, output and counter are as expected, and no socket and no process is
left. The tool kills any process that is left. It needs `/proc`.
"""

import argparse
import os
import shutil
import signal
import stat
import subprocess
import sys
import tempfile
import time

import argument_types

SECONDS = 60
FILES = ["KERNEL", "KERNEL.out", "COUNTER", "COUNTER.out"]
# Seconds that the system has to remove processes. The kernel's children end before it does.
GRACE = 2
WORDS = ["kernel", "--dir", ".", "--lanes", "2", "--shards", "1", "--limit", "65536", "KERNEL"]


def text_of(*path):
    with open(os.path.join(*path), encoding="utf-8") as file:
        return file.read()


def processes_of(session):
    """Returns the processes of a session, each number with its command line."""
    found = {}
    for name in os.listdir("/proc"):
        if not name.isdigit():
            continue
        try:
            # The fields behind the program's name in brackets are state, parent, group and session.
            rest = text_of("/proc", name, "stat").rpartition(")")[2].split()
            if int(rest[3]) == session:
                found[int(name)] = text_of("/proc", name, "cmdline").replace("\0", " ").strip() or "(ended, not waited for)"
        except (FileNotFoundError, ProcessLookupError):
            pass
    return found


def left_over(session):
    """Returns the processes of a session that still run a little after the end of its first one."""
    for _turn in range(GRACE * 50):
        if not processes_of(session):
            return {}
        time.sleep(0.02)
    return processes_of(session)


def end(session):
    """Kills the processes of a session."""
    for process in processes_of(session):
        try:
            os.kill(process, signal.SIGKILL)
        except ProcessLookupError:
            pass


def sockets_in(stage):
    return sorted(name for name in os.listdir(stage) if stat.S_ISSOCK(os.lstat(os.path.join(stage, name)).st_mode))


def run(program, stage, output):
    """Returns the kernel's status, or None if its time was up, and the processes that it left."""
    kernel = subprocess.Popen([program, *WORDS], cwd=stage, stdin=subprocess.DEVNULL, stdout=output, start_new_session=True)
    try:
        try:
            status = kernel.wait(SECONDS)
        except subprocess.TimeoutExpired:
            status = None
            kernel.kill()
            kernel.wait()
        return status, left_over(kernel.pid)
    finally:
        kernel.kill()
        kernel.wait()
        end(kernel.pid)


def show(example, program, stage, output):
    """Plays the copy of an example, and returns the differences."""
    wrong = []
    print(f"The kernel's script, {os.path.join(example, 'KERNEL')}:")
    for line in text_of(stage, "KERNEL").splitlines():
        print(f"  > {line}")
    print(f"The counter before: {text_of(stage, 'COUNTER').strip()}")
    status, left = run(program, stage, output)
    output.seek(0)
    said = output.read().decode(errors="replace")
    print("The kernel's output, with that of its tabs:")
    for line in said.splitlines():
        print(f"  {line}")
    print(f"The kernel's status: {status}" if status is not None else f"The kernel did not end in {SECONDS} seconds")
    if status != 0:
        wrong.append("the kernel's status is not 0")
    if said != text_of(example, "KERNEL.out"):
        wrong.append("the output is not that of KERNEL.out")
    counted = text_of(stage, "COUNTER")
    print(f"The counter after: {counted.strip()}")
    if counted != text_of(example, "COUNTER.out"):
        wrong.append("the counter is not that of COUNTER.out")
    sockets = sockets_in(stage)
    print(f"Sockets that are left: {', '.join(sockets) or 'none'}")
    if sockets:
        wrong.append("a socket is left")
    print(f"Processes that are left: {', '.join(f'{process} {words}' for process, words in left.items()) or 'none'}")
    if left:
        wrong.append("a process is left")
    return wrong


def main():
    parser = argparse.ArgumentParser(description=__doc__, formatter_class=argparse.RawDescriptionHelpFormatter)
    parser.add_argument("example", metavar="EXAMPLE", type=argument_types.folder, help="a folder with the scripts and the expected results")
    parser.add_argument("program", metavar="PROGRAM", type=argument_types.program, help="the program `wlb`")
    given = parser.parse_args()
    example, program = given.example, os.path.abspath(given.program)
    for name in FILES:
        if not (example / name).is_file():
            parser.error(f"the folder {example} has no file {name}: examples/processes has folders with {', '.join(FILES)}")
    with tempfile.TemporaryDirectory(prefix="wlb-") as place, tempfile.TemporaryFile() as output:
        stage = os.path.join(place, "stage")
        shutil.copytree(example, stage)
        wrong = show(example, program, stage, output)
    for what in wrong:
        print(f"Wrong: {what}")
    return 1 if wrong else 0


if __name__ == "__main__":
    sys.exit(main())
