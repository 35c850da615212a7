"""Tabs and brokers that are not the program (`foreign_tab.py`): they post, end, stop reading, or run on."""

import os
import signal
import time

from checks import same
from owed_hello import check_owed
from process_tests.stage import HOLDER, TAKER, Stage, children_of, ended, ends, is_soon, opened, opens, play, tells, wait_for


def check_foreign(program):
    """A tab that speaks the bytes of the protocol gets a lock, beside one that sends half a frame and ends."""
    played = play(Stage(program, foreign=True), f"start\n{opens('speaker', 'half')}join\n")
    tells("a tab in another language", played, "ended 1 0\n", "ended 2 ")


def check_remover(program):
    """A tab that removes the file of its socket is served as any other."""
    played = play(Stage(program, foreign=True), f"start\n{opens('remover')}join\n")
    ends("a tab that removes its socket", played, "up 1\n" + opened(1) + ended(0))


def check_posts(program):
    """A tab hears each of two hundred posts once, in order, with its source and its data."""
    played = play(Stage(program, foreign=True), f"{opens('hearer', 'poster')}join\n")
    ends("posts", played, opened(1, 2) + ended(0, 0))


def check_stale(program):
    """A tab that sends a frame of an ended generation gets the Hello of the current one."""
    played = play(Stage(program, foreign=True), f"start\nstop\nstart\n{opens('stale')}join\n")
    ends("a frame of an old generation", played, "up 1\nstopped 1\nup 2\n" + opened(1) + ended(0))


def check_grace(program):
    """A kernel kills a tab that closes its link and runs on, a second later."""
    played = play(Stage(program, foreign=True), f"{opens('closer')}join\n")
    ends("a tab that closes its link and runs on", played, opened(1) + ended(137))
    same("a tab that closes its link and runs on", "whether the kernel waited a second", played.seconds >= 1, True)


def check_end(program):
    """A kernel whose script is over ends all its tabs, also a tab that ignores its link."""
    played = play(Stage(program, foreign=True), f"start\n{opens('TAB', 'sleeper')}", TAB=HOLDER)
    same("a script that is over", "the output and the status", (played.stdout, played.status), ("up 1\n" + opened(1, 2), 0))
    is_soon("a script that is over", played)


def check_deaf(program):
    """A kernel closes the link of a tab that stops reading, and kills the tab when it runs on."""
    played = play(Stage(program, foreign=True), f"{opens('deaf', 'teller')}join\n")
    ends("a tab that does not listen", played, opened(1, 2) + ended(137, 0))


def check_leavers(program):
    """A tab or a broker ends while a child of its own has its link. The kernel notices, whether or not that child sends."""
    for role in ["quiet_leaver", "noisy_leaver"]:
        played = play(Stage(program, foreign=True), f"{opens(role)}join\n")
        ends(role, played, opened(1) + ended(7))
        is_soon(role, played)
    stage = Stage(program, foreign=True, environment={"BROKER_ROLE": "leaving_broker"})
    played = play(stage, f"start\n{opens('TAB')}join\n", TAB=TAKER)
    ends("a broker that leaves a child", played, "up 1\n" + opened(1) + ended(0))
    is_soon("a broker that leaves a child", played)


def check_socket(program):
    """The file of a socket has the mode 0600 before the tab connects."""
    ends("the mode of a socket", play(Stage(program, foreign=True), f"{opens('looker')}join\n"), opened(1) + ended(0))


def check_burial(program):
    """A tab dies while the broker is stopped, so that the kernel cannot write its Dead frame. The next broker does not wait for
    the dead tab: another tab gets its lock."""

    def watch(kernel, folder):
        wait_for("a lock is held", (folder / "HELD").exists)
        for broker in children_of(kernel, "broker"):
            os.kill(broker, signal.SIGSTOP)
        (folder / "FLOOD").touch()
        wait_for("the kernel's write to the broker is blocked", (folder / "FULL").exists)
        (folder / "DIE").touch()
        wait_for("the tab is dead", lambda: not children_of(kernel, "dier"))
        time.sleep(0.1)
        (folder / "GATE").touch()

    kernel = "start\nopen https://a.test/ dier\nopen https://b.test/ flooder\nopen https://c.test/ gate\n"
    kernel += "stop\nstart\nkill 2\nopen https://a.test/ TAKER\njoin\n"
    stdout = "up 1\nopened 1 https://a.test\nopened 2 https://b.test\nopened 3 https://c.test\n"
    stdout += "stopped 1\nup 2\nkilled 2\nopened 4 https://a.test\nended 1 0\nended 3 0\nended 4 0\n"
    ends("a death that waits for a stopped broker", play(Stage(program, foreign=True), kernel, watch, TAKER=TAKER), stdout)


CHECKS = [
    check_foreign,
    check_remover,
    check_posts,
    check_stale,
    check_grace,
    check_end,
    check_deaf,
    check_leavers,
    check_socket,
    check_burial,
    check_owed,
]
