"""Scripts of kernels and of tabs: lines that are refused, lines that change nothing, and what a query prints."""

import os
import pathlib
import socket
import subprocess
import sys
import tempfile
import threading

from checks import SECONDS, Ended, same
from checks import ends as ends_alone
from process_tests.stage import HOLDER, TOOLS, Stage, ended, ends, opened, opens, play, rounds, tells


def check_scripts(program):
    """A kernel refuses wrong lines, and reports lines that change nothing."""
    for kernel, stdout, stderr, status in [
        ("", "", [], 0),
        ("open data:,x TAB\n", "SecurityError\n", [], 0),
        ("open nowhere TAB\n", "BadUrl\n", [], 0),
        ("stop\nstart\nstart\nstop\nstop\nkill 1\n", "already down\nup 1\nalready up\nstopped 1\nalready down\nno tab\n", [], 0),
        ("pause 0\nstart\nstart \n", "up 1\n", ["wlb: line 3"], 1),
        ("pause 10001\n", "", ["wlb: line 1"], 1),
    ]:
        ends(f"the kernel's script {kernel!r}", play(Stage(program), kernel), stdout, stderr, status)


def check_tabs(program):
    """Tabs end by themselves, with and without a fault: a refused line, a refused command, a missing script, a missing file."""
    tabs = {"BAD": "ask  exclusive f\n", "REFUSED": "\nask exclusive -f\n", "TAB": rounds(1), "LACKING": rounds(1, "NOTHING")}
    played = play(Stage(program), f"start\n{opens('BAD', 'REFUSED', 'NONE', 'LACKING', 'TAB')}join\n", **tabs)
    stderr = ["wlb: line 1", "wlb: line 2", "wlb: line 3", "wlb: Read"]
    ends("tabs that end", played, "up 1\n" + opened(1, 2, 3, 4, 5) + ended(1, 1, 3, 3, 0), stderr)
    same("tabs that end", "the counter", played.counter, "1\n")


def check_query(program):
    """A query prints the held locks of the partition, and the requests that wait."""
    tab = "ask exclusive f\nwait 0\nask shared f\nquery\nprobe shared f\nwait 3\nrelease 3\nabort 1\nrelease 0\n"
    kernel = f"start\n{opens('TAB')}join\nopen2 https://t.test/ https://a.test/ TAB\njoin\n"
    held = '"held":[{"clientId":"1","mode":"exclusive","name":"f"}]'
    pending = '"pending":[{"clientId":"1","mode":"shared","name":"f"}]'
    snapshot = f"{{{held},{pending}}}\n"
    stdout = "up 1\n" + opened(1) + snapshot + ended(0)
    stdout += "opened 2 https://t.test https://a.test\n" + snapshot.replace('"1"', '"2"') + ended(0, first=2)
    ends("a query", play(Stage(program), kernel, TAB=tab), stdout)


# Locks of a tab. A report has at most 64 entries.
LOCKS = 70


def check_many_locks(program):
    """A tab that reports in parts holds more locks than a report has entries, over two stops of the broker. Then the tab that
    holds the gate is killed. Its line may come within the query's line, which is longer than one write."""
    tab = "".join(f"ask exclusive lock{number}\n" for number in range(LOCKS))
    tab += "".join(f"wait {number}\n" for number in range(LOCKS))
    tab += f"ask exclusive gate\nwait {LOCKS}\nquery\n"
    gate = HOLDER.replace(" f\n", " gate\n")
    pair = "open2 https://t.test/ https://a.test/"
    kernel = f"start\n{pair} GATE\npause 100\n{pair} TAB\npause 300\n"
    kernel += "stop\nstart\npause 100\nstop\nstart\npause 100\nkill 1\njoin\n"
    played = play(Stage(program), kernel, TAB=tab, GATE=gate)
    tells("many locks", played, "up 1\n", "up 2\n", "up 3\n", "killed 1\n", "ended 2 0\n")
    answer = played.stdout.replace("killed 1\n", "", 1)
    held = '{"clientId":"2","mode":"exclusive","name":"'
    same("many locks", "the number of locks that are held", answer.count(held), LOCKS + 1)
    same("many locks", "whether the query lists no request that waits", '"pending":[]' in answer, True)


def check_directory(program):
    """The kernel's directory, and so the path of a tab's script, may begin like an option."""
    played = play(Stage(program, directory="-x"), f"start\n{opens('-x/TAB')}join\n", TAB=rounds(1, "-x/COUNTER"))
    ends("a directory that begins like an option", played, "up 1\n" + opened(1) + ended(0))
    same("a directory that begins like an option", "the counter", played.counter, "1\n")


def check_missing(program):
    """A kernel without a directory for its sockets, and a broker and a tab without a socket, end with a device fault. A kernel
    without a script ends, too."""
    size = ["--lanes", "1", "--shards", "1", "--limit", "1"]
    with tempfile.TemporaryDirectory(prefix="wlb-") as folder:
        pathlib.Path(folder, "SCRIPT").write_text("start\n", encoding="utf-8")
        for words, fault in [
            (["kernel", "--dir", "no/directory", *size, "SCRIPT"], "Device"),
            (["kernel", "--dir", ".", *size, "no/script"], "Read"),
            (["broker", "--socket", "no/socket", *size], "Device"),
            (["tab", "--socket", "no/socket", "no/script"], "Device"),
        ]:
            ran = Ended(program, words, folder=folder, name="no/program")
            ends_alone(f"the words {words}", ran, b"", [f"wlb: {fault}"], 3)


def check_unwelcome(program):
    """A tab ends if its link ends before the welcome."""
    with tempfile.TemporaryDirectory(prefix="wlb-") as folder, socket.socket(socket.AF_UNIX) as listener:
        path = os.path.join(folder, "unwelcome.sock")
        listener.bind(path)
        listener.listen()
        listener.settimeout(SECONDS)
        pathlib.Path(folder, "TAB").touch()
        closing = threading.Thread(target=lambda: listener.accept()[0].close())
        closing.start()
        ran = Ended(program, ["tab", "--socket", path, "TAB"], folder=folder)
        closing.join()
        ends_alone("a tab whose link ends before the welcome", ran, b"", ["wlb: Read"], 3)


def check_examples(program):
    for example in ["counter", "killed"]:
        words = [sys.executable, TOOLS / "demo_processes.py", TOOLS.parent / "examples" / "processes" / example, program]
        ran = subprocess.run(words, capture_output=True, text=True, timeout=3 * SECONDS, check=False)
        same(f"examples/processes/{example}", "the status", (ran.returncode, ran.stdout if ran.returncode else ""), (0, ""))


CHECKS = [
    check_scripts,
    check_tabs,
    check_query,
    check_many_locks,
    check_directory,
    check_missing,
    check_unwelcome,
    check_examples,
]
